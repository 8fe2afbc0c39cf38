/* SPDX-License-Identifier: MIT OR Apache-2.0 */
/* What the calls cost on RV32, in instructions retired (the emulator's -icount makes minstret exact) and bytes of
 * stack. On x86-64 callgrind counts the same calls: a dump for each operation, with its name.
 *
 *   op NAME CALLS INSTRUCTIONS WORST    an operation, begin to end: its calls, their instructions, those of the worst
 *   stack CALL BYTES                    the deepest stack that was seen of an exported call, found by painting
 *
 * Registers are memory, and making an access is not counted. firmware/figures prints this as tables. */
#include <string.h>
#include "../../firmware/console.h"
#include "usbhs_survey.h"

#undef usbhs_start_up /* the call itself, without the check of the header */

#define MOST_BUFFERS 24u
#define MOST_SIZE 1024u

static uint8_t state[USBHS_STATE_LEN] __attribute__((aligned(4)));
static uint8_t slots[MOST_BUFFERS * MOST_SIZE] __attribute__((aligned(4)));
static uint16_t bus_time[USBHS_TIME_LEN];
static uint32_t registers[19][16];
static uint32_t size, slots_length;

/* ---- one call: its instructions, its stack */

#define PAINT 0xA5C35A3Cu
#define DEPTH 4096u

static uint32_t calls, cost, worst;

#ifdef __x86_64__
#include <stdlib.h>
#include <valgrind/callgrind.h>

#define emulator_end exit
#define OPERATED(name) CALLGRIND_DUMP_STATS_AT(name)
#define PREPARED CALLGRIND_ZERO_STATS
#define CALL(name, word, call)    \
    do {                          \
        CALLGRIND_TOGGLE_COLLECT; \
        (word) = (call);          \
        CALLGRIND_TOGGLE_COLLECT; \
        counted(name, 0, 0);      \
    } while (0)
#else
#include "../../firmware/emulator/machine.h"

#define OPERATED(name) (void)0
#define PREPARED (void)0

/* The call's own instructions are counted with it: loading its arguments, the jump and the return. */
#define CALL(name, word, call)                                                                 \
    do {                                                                                       \
        uint32_t began, took, sp;                                                              \
        volatile uint32_t *low;                                                                \
        __asm__ volatile("mv %0, sp" : "=r"(sp));                                              \
        for (low = (volatile uint32_t *)(sp - DEPTH); (uint32_t)low < sp; low++)               \
            *low = PAINT;                                                                      \
        began = instructions();                                                                \
        (word) = (call);                                                                       \
        took = instructions() - began;                                                         \
        for (low = (volatile uint32_t *)(sp - DEPTH); (uint32_t)low < sp && *low == PAINT; low++) \
            ;                                                                                  \
        counted(name, took, sp - (uint32_t)low);                                               \
    } while (0)
#endif

static struct {
    const char *name;
    uint32_t deepest;
} stacks[64];

static void counted(const char *name, uint32_t took, uint32_t stack)
{
    unsigned i = 0;

    calls++;
    cost += took;
    if (took > worst)
        worst = took;
    while (stacks[i].name != 0 && stacks[i].name != name)
        i++;
    stacks[i].name = name;
    if (stack > stacks[i].deepest)
        stacks[i].deepest = stack;
}

/* ---- an operation */

static const char continue_name[] = "usbhs_continue";

/* So many looks at mis_st still find the SIE busy. */
static uint32_t busy;

static uint32_t make(uint64_t word)
{
    uint32_t *r = &registers[USBHS_REGISTER(word)][USBHS_ENDPOINT(word)];

    if (USBHS_ASKS(word, USBHS_MIS_ST) && busy > 0) {
        busy--;
        return 0;
    }
    if (USBHS_KIND(word) == USBHS_READ)
        return *r;
    if (USBHS_KIND(word) == USBHS_WRITE && USBHS_REGISTER(word) != USBHS_INT_FG)
        *r = USBHS_VALUE(word);
    return 0;
}

static uint64_t to_end(uint64_t word)
{
    while (USBHS_KIND(word) >= USBHS_READ && USBHS_KIND(word) <= USBHS_CALLBACK) {
        uint32_t value = make(word);

        CALL(continue_name, word, usbhs_continue(state, slots, slots_length, bus_time, 0, value));
    }
    return word;
}

/* The write that clears the transfer's flag. */
#define RELEASE (USBHS_WRITE | USBHS_INT_FG << 8 | (uint64_t)2 << 32)

/* The interrupt with the calls that bring several readings. */
static uint64_t at_once(void)
{
    uint64_t word;
    uint32_t frame = registers[USBHS_FRAME_NO][0], flags = registers[USBHS_INT_FG][0];
    uint32_t mis = registers[USBHS_MIS_ST][0], st = registers[USBHS_INT_ST][0], len = registers[USBHS_RX_LEN][0];

    if (busy > 0) {
        busy--;
        mis = 0;
    }
    CALL("usbhs_interrupt_transfer", word,
        usbhs_interrupt_transfer(state, slots, slots_length, bus_time, 0, frame, flags, mis, st, len));
    while (USBHS_KIND(word) >= USBHS_READ && USBHS_KIND(word) <= USBHS_CALLBACK) {
        if (USBHS_ASKS(word, USBHS_MIS_ST)) {
            uint32_t looks = busy < USBHS_MOST_LOOKS - 1 ? busy : USBHS_MOST_LOOKS - 1, last = looks == busy;

            busy -= looks + !last;
            CALL("usbhs_continue_looks", word,
                usbhs_continue_looks(state, slots, slots_length, bus_time, 0, looks, 0, last));
        } else if (word == RELEASE) {
            frame = registers[USBHS_FRAME_NO][0];
            CALL("usbhs_continue_released", word,
                usbhs_continue_released(state, slots, slots_length, bus_time, 0, frame));
        } else {
            uint32_t value = make(word);

            CALL(continue_name, word, usbhs_continue(state, slots, slots_length, bus_time, 0, value));
        }
    }
    return word;
}

/* With two calls for the five. */
static uint64_t in_two(void)
{
    uint64_t word;
    uint32_t frame = registers[USBHS_FRAME_NO][0], flags = registers[USBHS_INT_FG][0];

    CALL("usbhs_interrupt", word, usbhs_interrupt(state, slots, slots_length, bus_time, 0, frame, flags));
    if (USBHS_ASKS(word, USBHS_MIS_ST)) {
        uint32_t mis = registers[USBHS_MIS_ST][0], st = registers[USBHS_INT_ST][0], len = registers[USBHS_RX_LEN][0];

        CALL("usbhs_continue_transfer", word,
            usbhs_continue_transfer(state, slots, slots_length, bus_time, 0, mis, st, len));
    }
    return to_end(word);
}

static void tell(const char *name, uint64_t word)
{
    if (USBHS_KIND(word) == USBHS_REFUSED) {
        print(name);
        print(": refused with ");
        print_number(USBHS_ROW(word));
        print("\n");
        emulator_end(1);
    }
    OPERATED(name);
    print("op ");
    print(name);
    print(" ");
    print_number(calls);
    print(" ");
    print_number(cost);
    print(" ");
    print_number(worst);
    print("\n");
    calls = cost = worst = 0;
}

/* OPERATE prints; PREPARE only makes. */
#define BEGIN(call, arguments)               \
    uint64_t word;                           \
    CALL(#call, word, call arguments);       \
    word = to_end(word)
#define OPERATE(name, call, arguments)       \
    do {                                     \
        BEGIN(call, arguments);              \
        tell(name, word);                    \
    } while (0)
#define PREPARE(call, arguments)             \
    do {                                     \
        BEGIN(call, arguments);              \
        (void)word;                          \
        PREPARED;                            \
        calls = cost = worst = 0;            \
    } while (0)

/* The endpoints of oracle/runs/worked-traces.txt: 1 isochronous OUT, 2 isochronous IN, 3 bulk OUT, 4 bulk IN. */
static void prepare(uint32_t of, uint32_t callback)
{
    uint32_t bulk = of < 512 ? of : 512;

    size = of;
    slots_length = MOST_BUFFERS * size;
    memset(state, 0, sizeof state);
    memset(slots, 0, sizeof slots);
    memset(bus_time, 0, sizeof bus_time);
    memset(registers, 0, sizeof registers);
    registers[USBHS_MIS_ST][0] = 1;
    PREPARE(usbhs_start_up, (state, slots, slots_length, bus_time, 0, size, MOST_BUFFERS, callback));
    PREPARE(usbhs_allocate, (state, USBHS_ISOCHRONOUS, 1, size, 1, USBHS_OUT));
    PREPARE(usbhs_allocate, (state, USBHS_ISOCHRONOUS, 0x82, size, 1, USBHS_IN));
    PREPARE(usbhs_allocate, (state, USBHS_BULK, 3, bulk, 0, USBHS_OUT));
    PREPARE(usbhs_allocate, (state, USBHS_BULK, 0x84, bulk, 0, USBHS_IN));
    PREPARE(usbhs_start, (state, 64));
    PREPARE(usbhs_begin_bus_poll, (state));
    for (uint32_t e = 1; e <= 4; e++)
        PREPARE(usbhs_begin_set_enabled, (state, slots, slots_length, bus_time, 0, e, e % 2 == 0, 1));
}

/* What the next interrupt finds. */
static void shows(uint32_t flags, uint32_t status, uint32_t length)
{
    registers[USBHS_INT_FG][0] = flags;
    registers[USBHS_INT_ST][0] = status;
    registers[USBHS_RX_LEN][0] = length;
}

enum { RESET = 1, TRANSFER = 2, SETUP = 32, OUT = 0, SOF = 0x10, IN = 0x20, OK = 0x40 };

static void next_microframe(void)
{
    static uint32_t index;

    index++;
    registers[USBHS_FRAME_NO][0] = (index >> 3 & 0x7FF) | (index & 7) << 13;
}

/* The chip stores a packet of the isochronous OUT in the armed slot. */
static void arrives(void)
{
    memset(slots + registers[USBHS_EP_RX_DMA][1], 7, size);
}

static void close_all(void)
{
    uint16_t stamp;

    while (USBHS_KIND(usbhs_open(state, slots, slots_length, 1, &stamp)) == USBHS_SHOWN)
        usbhs_close(state, 1);
}

/* With the microframe's SOF handled, so that none is caught up. */
static void sof_handled(void)
{
    next_microframe();
    shows(TRANSFER, SOF, 0);
    PREPARE(usbhs_begin_interrupt, (state));
}

static void starting(void)
{
    prepare(64, 0);
    OPERATE("start-up", usbhs_start_up, (state, slots, slots_length, bus_time, 0, size, MOST_BUFFERS, 0));
    OPERATE("allocate-iso-out", usbhs_allocate, (state, USBHS_ISOCHRONOUS, 1, size, 1, USBHS_OUT));
    OPERATE("allocate-bulk-in", usbhs_allocate, (state, USBHS_BULK, 0x84, size, 0, USBHS_IN));
    OPERATE("ep0-start", usbhs_start, (state, 64));
}

static void bus(void)
{
    prepare(64, 0);
    shows(0, 0, 0);
    OPERATE("bus-poll-nothing", usbhs_begin_bus_poll, (state));
    shows(RESET, 0, 0);
    OPERATE("bus-reset", usbhs_begin_bus_poll, (state));
    OPERATE("enable-iso-out-64", usbhs_begin_set_enabled, (state, slots, slots_length, bus_time, 0, 1, USBHS_OUT, 1));
    OPERATE("enable-iso-in", usbhs_begin_set_enabled, (state, slots, slots_length, bus_time, 0, 2, USBHS_IN, 1));
    OPERATE("stall-out", usbhs_begin_set_stalled, (state, 3, USBHS_OUT, 1));
    OPERATE("clear-stall-out", usbhs_begin_set_stalled, (state, 3, USBHS_OUT, 0));
    OPERATE("is-stalled", usbhs_begin_is_stalled, (state, 3, USBHS_OUT));
    OPERATE("microframe", usbhs_begin_microframe, (state));
    OPERATE("set-paced", usbhs_set_paced, (state, 2, 1));
    OPERATE("advance", usbhs_begin_advance, (state, 2));
}

/* The longest operations that a task makes: each of the sixteen slots is marked whole. */
static void enabling(uint32_t of, const char *name)
{
    prepare(of, 0);
    OPERATE(name, usbhs_begin_set_enabled, (state, slots, slots_length, bus_time, 0, 1, USBHS_OUT, 1));
}

static void interrupts(void)
{
    static const uint8_t packet[64] = {1, 2, 3};

    prepare(64, 0);
    sof_handled();
    shows(0, 0, 0);
    OPERATE("interrupt-none", usbhs_begin_interrupt, (state));
    shows(TRANSFER, SOF, 0);
    OPERATE("interrupt-sof-again", usbhs_begin_interrupt, (state));
    next_microframe();
    OPERATE("interrupt-sof", usbhs_begin_interrupt, (state));
    PREPARE(usbhs_queue, (state, slots, slots_length, 2, packet, 64));
    sof_handled();
    shows(TRANSFER, IN | 2, 0);
    OPERATE("interrupt-iso-in", usbhs_begin_interrupt, (state));
    registers[USBHS_EP_RX_CTRL][3] ^= 4;
    shows(TRANSFER, OUT | 3 | OK, 64);
    OPERATE("interrupt-bulk-out", usbhs_begin_interrupt, (state));
    registers[USBHS_EP_TX_CTRL][4] ^= 4;
    shows(TRANSFER, IN | 4, 0);
    OPERATE("interrupt-bulk-in", usbhs_begin_interrupt, (state));
    shows(TRANSFER, IN | 0, 0);
    OPERATE("interrupt-ep0-in", usbhs_begin_interrupt, (state));
    shows(SETUP, 0x30, 8);
    OPERATE("interrupt-setup", usbhs_begin_interrupt, (state));
    shows(RESET, 0, 0);
    OPERATE("interrupt-bus-reset", usbhs_begin_interrupt, (state));
    prepare(64, 1);
    next_microframe();
    shows(TRANSFER, SOF, 0);
    OPERATE("interrupt-sof-callback", usbhs_begin_interrupt, (state));
}

/* The SIE is busy at the interrupt's first look and free at its second; or never free. */
static void busy_interrupts(void)
{
    static const uint8_t packet[64] = {1, 2, 3};

    prepare(64, 0);
    PREPARE(usbhs_queue, (state, slots, slots_length, 2, packet, 64));
    sof_handled();
    busy = 1;
    shows(TRANSFER, IN | 2, 0);
    OPERATE("interrupt-iso-in-busy", usbhs_begin_interrupt, (state));
    arrives();
    busy = 1;
    shows(TRANSFER, OUT | 1 | OK, 64);
    OPERATE("interrupt-iso-out-64-busy", usbhs_begin_interrupt, (state));
    arrives();
    busy = 5000;
    OPERATE("interrupt-iso-out-64-stuck", usbhs_begin_interrupt, (state));
    busy = 0;
    close_all();
}

#define TOGETHER(name) tell(name, at_once())

/* The same, readings that follow each other brought by one call. */
static void together(void)
{
    static const uint8_t packet[64] = {1, 2, 3};

    prepare(64, 0);
    sof_handled();
    shows(0, 0, 0);
    TOGETHER("together-none");
    shows(TRANSFER, SOF, 0);
    TOGETHER("together-sof-again");
    next_microframe();
    TOGETHER("together-sof");
    PREPARE(usbhs_queue, (state, slots, slots_length, 2, packet, 64));
    sof_handled();
    shows(TRANSFER, IN | 2, 0);
    TOGETHER("together-iso-in");
    registers[USBHS_EP_RX_CTRL][3] ^= 4;
    shows(TRANSFER, OUT | 3 | OK, 64);
    TOGETHER("together-bulk-out");
    shows(SETUP, 0x30, 8);
    TOGETHER("together-setup");
    prepare(64, 0);
    sof_handled();
    arrives();
    shows(TRANSFER, OUT | 1 | OK, 64);
    TOGETHER("together-iso-out-64");
    arrives();
    tell("in-two-iso-out-64", in_two());
    close_all();
    prepare(64, 0);
    PREPARE(usbhs_queue, (state, slots, slots_length, 2, packet, 64));
    sof_handled();
    busy = 1;
    shows(TRANSFER, IN | 2, 0);
    TOGETHER("together-iso-in-busy");
    arrives();
    busy = 3;
    shows(TRANSFER, OUT | 1 | OK, 64);
    TOGETHER("together-iso-out-64-busy");
    arrives();
    busy = 5000;
    TOGETHER("together-iso-out-64-stuck");
    busy = 5000;
    registers[USBHS_EP_RX_CTRL][3] ^= 4;
    shows(TRANSFER, OUT | 3 | OK, 64);
    TOGETHER("together-bulk-out-stuck");
    busy = 0;
    close_all();
}

/* The costs of a packet depend on the maximum: a slot is armed up to it. */
static void isochronous_out(uint32_t of, const char *on_time, const char *late, const char *full)
{
    prepare(of, 0);
    sof_handled();
    arrives();
    shows(TRANSFER, OUT | 1 | OK, of);
    OPERATE(on_time, usbhs_begin_interrupt, (state));
    arrives();
    shows(TRANSFER, IN | 4, 0);
    OPERATE(late, usbhs_begin_interrupt, (state));
    shows(TRANSFER, OUT | 1 | OK, of);
    for (unsigned i = 0; i < 13; i++) {
        arrives();
        PREPARE(usbhs_begin_interrupt, (state));
    }
    arrives();
    OPERATE(full, usbhs_begin_interrupt, (state));
    close_all();
}

/* Open and close copy nothing: their cost is the same for any size. */
static void opened(void)
{
    uint16_t stamp;

    prepare(64, 0);
    sof_handled();
    arrives();
    shows(TRANSFER, OUT | 1 | OK, 64);
    PREPARE(usbhs_begin_interrupt, (state));
    OPERATE("open", usbhs_open, (state, slots, slots_length, 1, &stamp));
    OPERATE("close", usbhs_close, (state, 1));
}

static void packets(uint32_t of, const char *queue, const char *write)
{
    static uint8_t data[MOST_SIZE];
    uint32_t bulk = of < 512 ? of : 512;

    prepare(of, 0);
    OPERATE(queue, usbhs_queue, (state, slots, slots_length, 2, data, of));
    OPERATE(write, usbhs_begin_write, (state, slots, slots_length, 4, data, bulk));
    registers[USBHS_EP_TX_CTRL][4] ^= 4;
    shows(TRANSFER, IN | 4, 0);
    PREPARE(usbhs_begin_interrupt, (state));
    PREPARE(usbhs_poll_write, (state, slots, slots_length, 4, data, bulk));
}

static void requests(void)
{
    static uint8_t data[64];

    prepare(64, 0);
    OPERATE("begin-read", usbhs_begin_read, (state, 3, 64));
    registers[USBHS_EP_RX_CTRL][3] ^= 4;
    shows(TRANSFER, OUT | 3 | OK, 64);
    PREPARE(usbhs_begin_interrupt, (state));
    OPERATE("poll-read-64", usbhs_poll_read, (state, slots, slots_length, 3, data, 64));
    OPERATE("begin-setup", usbhs_begin_setup, (state));
    OPERATE("poll-setup-not-yet", usbhs_poll_setup, (state, data));
    shows(SETUP, 0x30, 8);
    PREPARE(usbhs_begin_interrupt, (state));
    OPERATE("poll-setup", usbhs_poll_setup, (state, data));
    OPERATE("begin-data-in-64", usbhs_begin_data_in, (state, slots, slots_length, data, 64, 1, 0));
    OPERATE("poll-data-in-not-yet", usbhs_poll_data_in, (state));
    shows(TRANSFER, IN | 0, 0);
    PREPARE(usbhs_begin_interrupt, (state));
    OPERATE("poll-data-in", usbhs_poll_data_in, (state));
    OPERATE("begin-accept-address", usbhs_begin_accept_set_address, (state, 5));
    OPERATE("poll-accept-not-yet", usbhs_poll_accept, (state));
    PREPARE(usbhs_begin_interrupt, (state));
    OPERATE("poll-accept-address", usbhs_poll_accept, (state));
    OPERATE("reject", usbhs_begin_reject, (state));
}

static void survey(void)
{
    static uint8_t block[USBHS_BLOCK_LEN], data[64], room[USBHS_BLOCK_LEN], card[2 * USBHS_BLOCK_LEN];
    static struct usbhs_channel channels[16];
    uint32_t writer[USBHS_WRITER_LEN], a, b, c, least[USBHS_REACHED_LEN], greatest[USBHS_REACHED_LEN];
    usbhs_length place, count, used;

    usbhs_card_new(writer);
    OPERATE("card-write-64", usbhs_card_write, (writer, block, sizeof block, 1, data, sizeof data));
    for (unsigned i = 0; i < 6; i++)
        PREPARE(usbhs_card_write, (writer, block, sizeof block, 1, data, sizeof data));
    OPERATE("card-write-full", usbhs_card_write, (writer, block, sizeof block, 1, data, sizeof data));
    memcpy(card, block, sizeof block);
    PREPARE(usbhs_card_write, (writer, block, sizeof block, 1, data, sizeof data));
    OPERATE("card-finish", usbhs_card_finish, (writer, block, sizeof block));
    OPERATE("card-start", usbhs_card_start, (card, USBHS_BLOCK_LEN, &place));
    OPERATE("card-next-64", usbhs_card_next, (card, USBHS_BLOCK_LEN, &place, &a, data, sizeof data));
    PREPARE(usbhs_card_start, (card, USBHS_BLOCK_LEN, &place));
    OPERATE("card-read-block", usbhs_card_read, (card, USBHS_BLOCK_LEN, &place, room, sizeof room, &count, &used));
    OPERATE("crc-block", usbhs_data_crc, (card, 510));
    memset(channels, 1, sizeof channels);
    OPERATE("best-set-256", usbhs_best_set, (channels, 16, bus_time, 256, &a, &b, &c));
    OPERATE("between-visits", usbhs_between_visits, (3, 40, 2, 5, least, greatest));
}

int main(void)
{
    starting();
    bus();
    enabling(512, "enable-iso-out-512");
    enabling(1024, "enable-iso-out-1024");
    interrupts();
    busy_interrupts();
    together();
    isochronous_out(64, "interrupt-iso-out-64", "interrupt-iso-out-64-late", "interrupt-iso-out-64-overrun");
    isochronous_out(512, "interrupt-iso-out-512", "interrupt-iso-out-512-late", "interrupt-iso-out-512-overrun");
    isochronous_out(1024, "interrupt-iso-out-1024", "interrupt-iso-out-1024-late", "interrupt-iso-out-1024-overrun");
    opened();
    packets(64, "queue-64", "begin-write-64");
    packets(512, "queue-512", "begin-write-512");
    packets(1024, "queue-1024", "begin-write-512-of-1024");
    requests();
    survey();
    for (unsigned i = 0; stacks[i].name != 0; i++) {
        print("stack ");
        print(stacks[i].name);
        print(" ");
        print_number(stacks[i].deepest);
        print("\n");
    }
    return 0;
}
