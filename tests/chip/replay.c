/* SPDX-License-Identifier: MIT OR Apache-2.0 */
/* Replays recorded calls (oracle/FORMAT.md, "The same as bytes") on the library, bare-metal, and holds every
 * answer, every byte received and every byte of the slots against the list's. A line for each list ends with a
 * digest of the state, the bus time and the stamps after each call; `compare --lists` prints the same lines of the
 * x86-64 library. */
#include <string.h>
#include "../../firmware/console.h"
#include "../../firmware/emulator/machine.h"
#include "usbhs.h"

/* Where the emulator loads the lists: their length in bytes, then they. */
#define LISTS ((const uint8_t *)0x84000000)

enum {
    START_UP, CONTINUE, ALLOCATE, START, INTERRUPT, BUS_POLL, BUS_ENABLE, BUS_DISABLE, SET_ENABLED, SET_STALLED,
    IS_STALLED, SET_PACED, ADVANCE, MICROFRAME, READ, POLL_READ, WRITE, POLL_WRITE, SETUP, POLL_SETUP, DATA_OUT,
    POLL_DATA_OUT, DATA_IN, POLL_DATA_IN, ACCEPT, ACCEPT_SET_ADDRESS, POLL_ACCEPT, REJECT, OPEN, CLOSE, QUEUE, PENDING,
    OVERRUNS, ENABLED, STORE, FILL, LIST
};

/* An entry of a list. */
struct entry {
    unsigned code, times, parts;
    uint32_t numbers[5];
    uint64_t answer;
    uint32_t brought_length, received_length;
    const uint8_t *brought, *received, *changed;
};

/* This driver's number in the record of bus time, as in oracle/compare. */
#define DRIVER 2
#define MOST_SLOTS (1u << 20)
#define NO_STAMP 0xFFFFu

static uint8_t state[USBHS_STATE_LEN + 1] __attribute__((aligned(4)));
static uint16_t bus_time[USBHS_TIME_LEN] __attribute__((aligned(4)));
static uint8_t slots[MOST_SLOTS] __attribute__((aligned(4))), expected_slots[MOST_SLOTS] __attribute__((aligned(4)));
static uint32_t slots_length, size, count, interrupts, digest, calls;
static uint8_t room[65536];

/* What each request's begin brought: its polls bring the same. */
static struct {
    const uint8_t *data;
    uint32_t length;
} reads[16], writes[16], data_out;

static uint32_t word_at(const uint8_t *p)
{
    return p[0] | (uint32_t)p[1] << 8 | (uint32_t)p[2] << 16 | (uint32_t)p[3] << 24;
}

static void mix(uint32_t number)
{
    digest = ((digest << 5 | digest >> 27) ^ number) * 0x9E3779B1u;
}

static void mix_words(const void *from, uint32_t bytes)
{
    const uint32_t *w = from;

    for (uint32_t i = 0; i < bytes / 4; i++)
        mix(w[i]);
}

static const uint8_t *read_entry(const uint8_t *p, struct entry *e)
{
    e->code = p[0];
    e->times = p[1] | (unsigned)p[2] << 8;
    e->parts = p[3];
    for (unsigned i = 0; i < 5; i++)
        e->numbers[i] = word_at(p + 4 + 4 * i);
    e->answer = word_at(p + 24) | (uint64_t)word_at(p + 28) << 32;
    e->brought_length = word_at(p + 32);
    e->received_length = word_at(p + 36);
    e->brought = p + 40;
    e->received = e->brought + e->brought_length;
    e->changed = e->received + e->received_length;
    p = e->changed;
    for (unsigned i = 0; i < e->parts; i++)
        p += 8 + word_at(p + 4);
    return p;
}

static void failed(const struct entry *e, const char *what, uint64_t got)
{
    print("call ");
    print_number(calls);
    print(" (code ");
    print_number(e->code);
    print("): ");
    print(what);
    print(" 0x");
    print_hex((uint32_t)(got >> 32), 8);
    print_hex((uint32_t)got, 8);
    print(", answer to be 0x");
    print_hex((uint32_t)(e->answer >> 32), 8);
    print_hex((uint32_t)e->answer, 8);
    print("\n");
    emulator_end(1);
}

/* A state as before the first start-up. */
static void fresh(void)
{
    memset(state, 0, sizeof state);
    memset(bus_time, 0, sizeof bus_time);
    slots_length = size = count = interrupts = 0;
    digest = 0;
}

/* The lent buffer of a start-up: zeros where its size or count is another one than before. */
static void lend(const struct entry *e)
{
    uint32_t before = slots_length;

    if (e->numbers[0] == size && e->numbers[1] == count)
        return;
    size = e->numbers[0];
    count = e->numbers[1];
    slots_length = size * count;
    if (slots_length > MOST_SLOTS)
        failed(e, "slots", slots_length);
    memset(slots, 0, slots_length);
    if (slots_length != before)
        memset(expected_slots, 0, slots_length);
}

/* The chip's or the firmware's own stores. */
static void store(const struct entry *e)
{
    if (e->code == STORE)
        memcpy(slots + e->numbers[0], e->brought, e->brought_length);
    else
        for (uint32_t i = 0; i < slots_length; i++)
            slots[i] = (uint8_t)(e->numbers[0] + i * 37);
    memcpy(expected_slots, slots, slots_length);
}

static uint64_t interrupt(void)
{
    uint64_t word = usbhs_begin_interrupt(state);
    uint32_t frame;

    if (USBHS_KIND(word) == USBHS_REFUSED)
        return word;
    /* each begins with a frame reading of its own, which the Rust does not have */
    interrupts++;
    frame = (interrupts * 0x9E37u) & 0xFFFF;
    return usbhs_continue(state, slots, slots_length, bus_time, DRIVER, frame);
}

static uint64_t open(uint32_t endpoint)
{
    uint16_t stamp = NO_STAMP;
    uint64_t word = usbhs_open(state, slots, slots_length, endpoint, &stamp);

    mix(stamp);
    return word;
}

static uint64_t read(uint32_t endpoint, uint32_t length)
{
    uint64_t word = usbhs_begin_read(state, endpoint, length);

    if (USBHS_KIND(word) != USBHS_REFUSED)
        reads[endpoint & 15].length = length;
    return word;
}

static uint64_t write(const struct entry *e, uint32_t endpoint)
{
    uint64_t word = usbhs_begin_write(state, slots, slots_length, endpoint, e->brought, e->brought_length);

    if (USBHS_KIND(word) != USBHS_REFUSED) {
        writes[endpoint & 15].data = e->brought;
        writes[endpoint & 15].length = e->brought_length;
    }
    return word;
}

static uint64_t begin_data_out(uint32_t length, uint32_t first)
{
    uint64_t word = usbhs_begin_data_out(state, length, first);

    if (USBHS_KIND(word) != USBHS_REFUSED)
        data_out.length = length;
    return word;
}

static uint64_t made(const struct entry *e)
{
    const uint32_t *n = e->numbers;

    switch (e->code) {
    case START_UP: return usbhs_start_up(state, slots, slots_length, bus_time, DRIVER, n[0], n[1], n[2]);
    case CONTINUE: return usbhs_continue(state, slots, slots_length, bus_time, DRIVER, n[0]);
    case ALLOCATE: return usbhs_allocate(state, n[0], n[1], n[2], n[3], n[4]);
    case START: return usbhs_start(state, n[0]);
    case INTERRUPT: return interrupt();
    case BUS_POLL: return usbhs_begin_bus_poll(state);
    case BUS_ENABLE: return usbhs_begin_bus_enable(state);
    case BUS_DISABLE: return usbhs_begin_bus_disable(state);
    case SET_ENABLED: return usbhs_begin_set_enabled(state, slots, slots_length, bus_time, DRIVER, n[0], n[1], n[2]);
    case SET_STALLED: return usbhs_begin_set_stalled(state, n[0], n[1], n[2]);
    case IS_STALLED: return usbhs_begin_is_stalled(state, n[0], n[1]);
    case SET_PACED: return usbhs_set_paced(state, n[0], n[1]);
    case ADVANCE: return usbhs_begin_advance(state, n[0]);
    case MICROFRAME: return usbhs_begin_microframe(state);
    case READ: return read(n[0], n[1]);
    case POLL_READ: return usbhs_poll_read(state, slots, slots_length, n[0], room, reads[n[0] & 15].length);
    case WRITE: return write(e, n[0]);
    case POLL_WRITE:
        return usbhs_poll_write(state, slots, slots_length, n[0], writes[n[0] & 15].data, writes[n[0] & 15].length);
    case SETUP: return usbhs_begin_setup(state);
    case POLL_SETUP: return usbhs_poll_setup(state, room);
    case DATA_OUT: return begin_data_out(n[0], n[1]);
    case POLL_DATA_OUT: return usbhs_poll_data_out(state, slots, slots_length, room, data_out.length);
    case DATA_IN: return usbhs_begin_data_in(state, slots, slots_length, e->brought, e->brought_length, n[0], n[1]);
    case POLL_DATA_IN: return usbhs_poll_data_in(state);
    case ACCEPT: return usbhs_begin_accept(state);
    case ACCEPT_SET_ADDRESS: return usbhs_begin_accept_set_address(state, n[0]);
    case POLL_ACCEPT: return usbhs_poll_accept(state);
    case REJECT: return usbhs_begin_reject(state);
    case OPEN: return open(n[0]);
    case CLOSE: return usbhs_close(state, n[0]);
    case QUEUE: return usbhs_queue(state, slots, slots_length, n[0], e->brought, e->brought_length);
    case PENDING: return usbhs_pending(state, n[0]);
    case OVERRUNS: return usbhs_overruns(state, n[0]);
    case ENABLED: return usbhs_enabled(state, n[0], n[1]);
    default: failed(e, "no such call", 0); return 0;
    }
}

static int question(unsigned code)
{
    return code >= PENDING && code <= ENABLED;
}

/* What a poll received, or the wake-ups of an end. */
static void check_received(const struct entry *e, uint64_t word)
{
    if (!question(e->code) && USBHS_KIND(word) == USBHS_END && USBHS_WAKES(word) != 0) {
        memset(room, 0xEE, USBHS_MOST_WAKES);
        if (usbhs_woken(state, room) != e->received_length)
            failed(e, "wake-ups, how many", USBHS_WAKES(word));
    }
    if (memcmp(room, e->received, e->received_length) != 0)
        failed(e, "bytes received, first", room[0]);
}

static void check_slots(const struct entry *e)
{
    const uint8_t *p = e->changed;

    for (unsigned i = 0; i < e->parts; i++) {
        memcpy(expected_slots + word_at(p), p + 8, word_at(p + 4));
        p += 8 + word_at(p + 4);
    }
    for (uint32_t i = 0; i < slots_length; i += 4)
        if (*(uint32_t *)(slots + i) != *(uint32_t *)(expected_slots + i))
            failed(e, "slots differ at", i);
}

static void check(const struct entry *e)
{
    uint64_t word;

    if (e->code == START_UP)
        lend(e);
    word = made(e);
    calls++;
    if (word != e->answer)
        failed(e, "answer", word);
    check_received(e, word);
    check_slots(e);
    mix_words(state, sizeof state);
    mix_words(bus_time, sizeof bus_time);
    mix(usbhs_time_in_use(bus_time));
}

static void end_list(unsigned number)
{
    print("list ");
    print_number(number);
    print(": ");
    print_number(calls);
    print(" calls, digest ");
    print_hex(digest, 8);
    print("\n");
    calls = 0;
}

int main(void)
{
    const uint8_t *p = LISTS + 4, *end = p + word_at(LISTS);
    struct entry e;
    unsigned lists = 0;

    while (p < end) {
        p = read_entry(p, &e);
        if (e.code == LIST) {
            if (lists++ > 0)
                end_list(lists - 1);
            fresh();
        } else if (e.code == STORE || e.code == FILL) {
            store(&e);
        } else {
            for (unsigned i = 0; i < e.times; i++)
                check(&e);
        }
    }
    end_list(lists);
    return 0;
}
