/* SPDX-License-Identifier: MIT OR Apache-2.0 */
/* The driver's exported calls from C, on the proved archive: a state before start-up; bus time that four drivers share;
   the parts of an answer's word; the tasks that an end wakes; a board's endpoints allocated as one operation; readings brought by one call. */
#include <string.h>
#include "usbhs.h"
#include "expect.h"

#define DRIVERS 4
#define SLOTS_LENGTH (4u * 1024)

static uint8_t states[DRIVERS][(USBHS_STATE_LEN + 3) / 4 * 4] __attribute__((aligned(4)));
static uint8_t buffers[DRIVERS][SLOTS_LENGTH] __attribute__((aligned(4)));
static uint16_t shared[USBHS_TIME_LEN];

/* Goes on to the operation's end. */
static void to_end(uint32_t driver, uint64_t word)
{
    while (USBHS_KIND(word) >= USBHS_READ && USBHS_KIND(word) <= USBHS_CALLBACK)
        word = usbhs_continue(states[driver], buffers[driver], SLOTS_LENGTH, shared, driver, 0);
    expect("operation: kind", USBHS_KIND(word), USBHS_END);
}

static uint64_t set_enabled(uint32_t driver, uint32_t endpoint, uint32_t enabled)
{
    return usbhs_begin_set_enabled(states[driver], buffers[driver], SLOTS_LENGTH, shared, driver, endpoint, USBHS_IN, enabled);
}

/* Four drivers, each with two interrupt INs of 1,024 bytes; the last one's second has 550. */
static void bus_time(void)
{
    uint32_t i;
    uint64_t word;

    for (i = 0; i < DRIVERS; i++) {
        to_end(i, usbhs_start_up(states[i], buffers[i], SLOTS_LENGTH, shared, i, 1024, 4, 0));
        to_end(i, usbhs_allocate(states[i], 3, 0x81, 1024, 1, USBHS_IN));
        to_end(i, usbhs_allocate(states[i], 3, 0x82, i == 3 ? 550 : 1024, 1, USBHS_IN));
        to_end(i, usbhs_start(states[i], 64));
    }
    expect("bus time, uncharged", usbhs_time_in_use(shared), 0);
    to_end(0, set_enabled(0, 1, 1));
    to_end(0, set_enabled(0, 1, 1));
    expect("bus time, one enabled twice", usbhs_time_in_use(shared), 1079);
    to_end(0, set_enabled(0, 2, 1));
    to_end(1, set_enabled(1, 1, 1));
    to_end(1, set_enabled(1, 2, 1));
    to_end(2, set_enabled(2, 1, 1));
    expect("bus time, five enabled", usbhs_time_in_use(shared), 5395);
    word = set_enabled(2, 2, 1);
    expect("a sixth: kind", USBHS_KIND(word), USBHS_REFUSED);
    expect("a sixth: row", USBHS_ROW(word), 19);
    word = set_enabled(2, 3, 1);
    expect("not allocated: row", USBHS_ROW(word), 5);
    to_end(3, set_enabled(3, 2, 1));
    expect("bus time, 6,000 exactly", usbhs_time_in_use(shared), 6000);

    /* a disabling gives back with its last write, a start-up as it begins */
    word = set_enabled(3, 2, 0);
    expect("bus time, a disabling begun", usbhs_time_in_use(shared), 6000);
    to_end(3, word);
    expect("bus time, disabled", usbhs_time_in_use(shared), 5395);
    word = usbhs_start_up(states[0], buffers[0], SLOTS_LENGTH, shared, 0, 1024, 3, 0);
    expect("start-up, another count: row", USBHS_ROW(word), 1);
    expect("bus time, a start-up refused", usbhs_time_in_use(shared), 5395);
    word = usbhs_start_up(states[0], buffers[0], SLOTS_LENGTH, shared, 0, 1024, 4, 0);
    expect("bus time, a start-up begun", usbhs_time_in_use(shared), 3237);
    to_end(0, word);
}

/* Goes on to the operation's end; each reading is the same. */
static uint64_t finish(uint8_t *state, uint8_t *slots, uint16_t *time, uint64_t word, uint32_t reading)
{
    while (USBHS_KIND(word) >= USBHS_READ && USBHS_KIND(word) <= USBHS_CALLBACK)
        word = usbhs_continue(state, slots, 64, time, 0, reading);
    expect("finish: kind", USBHS_KIND(word), USBHS_END);
    return word;
}

/* The tasks that ends give, in their order. */
static void wake_ups(uint8_t *state, uint8_t *slots, uint16_t *time)
{
    static uint8_t room[USBHS_MOST_WAKES];
    uint64_t word;
    unsigned i;

    finish(state, slots, time, usbhs_start_up(state, slots, 64, time, 0, 64, 1, 0), 0);
    word = finish(state, slots, time, usbhs_start(state, 64), 0);
    expect("start: wake-ups", USBHS_WAKES(word), 0);
    word = finish(state, slots, time, usbhs_begin_set_stalled(state, 0, USBHS_OUT, 1), 0);
    expect("stall OUT 0: wake-ups", USBHS_WAKES(word), 1);
    room[1] = 9;
    expect("stall OUT 0: woken", usbhs_woken(state, room), 1);
    expect("stall OUT 0: who", room[0], 16);
    expect("stall OUT 0: the room's rest", room[1], 9);
    word = finish(state, slots, time, usbhs_begin_bus_poll(state), 0);
    expect("power: event", USBHS_RESULT(word), 1);
    expect("power: wake-ups", USBHS_WAKES(word), 0);
    word = finish(state, slots, time, usbhs_begin_bus_poll(state), 1);
    expect("bus reset: event", USBHS_RESULT(word), 2);
    expect("bus reset: wake-ups", USBHS_WAKES(word), 32);
    expect("bus reset: woken", usbhs_woken(state, room), 32);
    for (i = 0; i < 32; i++)
        expect("bus reset: who", room[i], (i + 16) % 32);
}

static void wrote(const char *what, uint64_t word, unsigned reg, unsigned endpoint, unsigned value)
{
    expect(what, USBHS_KIND(word), USBHS_WRITE);
    expect(what, USBHS_REGISTER(word), reg);
    expect(what, USBHS_ENDPOINT(word), endpoint);
    expect(what, USBHS_VALUE(word), value);
}

static void previewed(const char *what, const uint8_t *state, unsigned count, unsigned buffers, unsigned refusal)
{
    uint8_t numbers[USBHS_NUMBERS_LEN];
    uint32_t b = 77, r = 77;
    unsigned i;
    uint64_t word = usbhs_preview(state, board, sizeof board, numbers, &b, &r);

    expect(what, USBHS_KIND(word), USBHS_END);
    expect(what, USBHS_RESULT(word), count);
    for (i = 0; i < USBHS_NUMBERS_LEN; i++)
        expect(what, numbers[i], i < count ? i + 1 : 0);
    expect(what, b, buffers);
    expect(what, r, refusal);
}

/* A board's endpoints on `count` buffers of 512 bytes: the first takes two, the others one each. */
static void listed(unsigned count)
{
    static uint8_t state[USBHS_STATE_LEN] __attribute__((aligned(4))), before[USBHS_STATE_LEN];
    static uint8_t slots[4 * 512] __attribute__((aligned(4))) __attribute__((aligned(4)));
    static uint16_t time[USBHS_TIME_LEN];
    uint8_t clash[sizeof board];
    uint8_t numbers[USBHS_NUMBERS_LEN] = {7};
    uint32_t b = 77, r = 77;
    uint64_t word;

    memset(state, 0, sizeof state);
    refused("before start-up", usbhs_allocate_all(state, board, sizeof board - 1), 4);
    refused("preview before start-up", usbhs_preview(state, board, sizeof board - 1, numbers, &b, &r), 4);
    word = usbhs_start_up(state, slots, count * 512, time, 0, 512, count, 0);
    refused("during start-up", usbhs_allocate_all(state, board, sizeof board - 1), 3);
    refused("preview during start-up", usbhs_preview(state, board, sizeof board, numbers, &b, &r), 3);
    while (USBHS_KIND(word) != USBHS_END)
        word = usbhs_continue(state, slots, count * 512, time, 0, 0);
    memcpy(before, state, sizeof state);
    memcpy(clash, board, sizeof board);
    clash[44] = 2;
    refused("two types", usbhs_allocate_all(state, clash, sizeof clash), 18);
    clash[0] = 8;
    refused("two types, and no descriptor", usbhs_allocate_all(state, clash, sizeof clash), 17);
    refused("preview: no descriptor", usbhs_preview(state, clash, sizeof clash, numbers, &b, &r), 17);
    expect("refused: rooms", numbers[0] == 7 && b == 77 && r == 77, 1);
    if (count < 4) {
        previewed("preview, a buffer too few", state, 2, 3, 8);
        refused("a buffer too few", usbhs_allocate_all(state, board, sizeof board), 8);
        expect("refused: state", memcmp(state, before, sizeof state) != 0, 0);
        return;
    }
    previewed("preview", state, 3, 4, 0);
    expect("preview: state", memcmp(state, before, sizeof state) != 0, 0);
    wrote("IN 1: maximum", usbhs_allocate_all(state, board, sizeof board), USBHS_EP_MAX_LEN, 1, 512);
    wrote("IN 1: buffer", usbhs_continue(state, slots, count * 512, time, 0, 0), USBHS_EP_TX_DMA, 1, 0);
    wrote("OUT 2: maximum", usbhs_continue(state, slots, count * 512, time, 0, 0), USBHS_EP_MAX_LEN, 2, 512);
    wrote("OUT 2: buffer", usbhs_continue(state, slots, count * 512, time, 0, 0), USBHS_EP_RX_DMA, 2, 1024);
    wrote("OUT 3: maximum", usbhs_continue(state, slots, count * 512, time, 0, 0), USBHS_EP_MAX_LEN, 3, 8);
    wrote("OUT 3: buffer", usbhs_continue(state, slots, count * 512, time, 0, 0), USBHS_EP_RX_DMA, 3, 1536);
    word = usbhs_continue(state, slots, count * 512, time, 0, 0);
    expect("listed: end", USBHS_KIND(word), USBHS_END);
    expect("listed: how many", USBHS_RESULT(word), 3);
    previewed("preview, all taken", state, 0, 0, 7);
}

/* Readings brought by one call, and by calls of one access each on a copy of the state: a SOF; a reading too wide, which
   leaves the interrupt where it is asked for. */
static void together(uint8_t *state, uint8_t *slots, uint16_t *time)
{
    static uint8_t copy[USBHS_STATE_LEN] __attribute__((aligned(4)));
    uint64_t word;
    unsigned wide;

    for (wide = 0; wide < 4; wide++) {
        memcpy(copy, state, sizeof copy);
        word = usbhs_begin_interrupt(copy);
        word = usbhs_continue(copy, slots, 64, time, 0, wide == 1 ? 0x10000 : 0x2001);
        if (wide != 1)
            word = usbhs_continue(copy, slots, 64, time, 0, wide == 2 ? 64 : 2);
        expect("together: answer", usbhs_interrupt(state, slots, 64, time, 0, wide == 1 ? 0x10000 : 0x2001, wide == 2 ? 64 : 2), word);
        expect("together: state", memcmp(state, copy, sizeof copy) != 0, 0);
        if (wide == 1 || wide == 2) {
            refused("together: too wide", word, 16);
            word = usbhs_continue(state, slots, 64, time, 0, wide == 1 ? 0x2001 : 2);
            if (wide == 1)
                word = usbhs_continue(state, slots, 64, time, 0, 2);
            memcpy(copy, state, sizeof copy);
        }
        expect("together: a transfer", USBHS_ASKS(word, USBHS_MIS_ST), 1);
        refused("together: slots too short", usbhs_continue_transfer(state, slots, 63, time, 0, 1, 0x10, 0), 1);
        word = usbhs_continue(copy, slots, 64, time, 0, 1);
        word = usbhs_continue(copy, slots, 64, time, 0, wide == 3 ? 128 : 0x10);
        if (wide != 3)
            word = usbhs_continue(copy, slots, 64, time, 0, 0);
        expect("together: transfer", usbhs_continue_transfer(state, slots, 64, time, 0, 1, wide == 3 ? 128 : 0x10, 0), word);
        expect("together: transfer, state", memcmp(state, copy, sizeof copy) != 0, 0);
        if (wide == 3) {
            refused("together: a status too wide", word, 16);
            word = usbhs_continue(state, slots, 64, time, 0, 0x10);
            word = usbhs_continue(state, slots, 64, time, 0, 0);
        }
        wrote("together: released", word, USBHS_INT_FG, 0, 2);
        while (USBHS_KIND(word) != USBHS_END && USBHS_KIND(word) != USBHS_REFUSED)
            word = usbhs_continue(state, slots, 64, time, 0, 0x2001);
        expect("together: end", USBHS_KIND(word), USBHS_END);
    }
    refused("together: another length, after the begin", usbhs_interrupt(state, slots, 63, time, 0, 0, 0), 1);
    refused("together: under way", usbhs_interrupt(state, slots, 64, time, 0, 0, 0), 3);
    expect("together: frame_no is asked for", USBHS_ASKS(usbhs_continue(state, slots, 64, time, 0, 0), USBHS_INT_FG), 1);
    expect("together: nothing else", USBHS_KIND(usbhs_continue_transfer(state, slots, 64, time, 0, 0, 0, 0)), USBHS_END);
}

/* All five at once, and looks at a busy SIE: against calls of one access each on a copy of the state. `looks`: so many
   find the SIE busy; `wide`: which of the five has a bit too many. */
static void all_together(uint8_t *state, uint8_t *slots, uint16_t *time, unsigned looks, unsigned wide)
{
    static const uint32_t registers[5] = {USBHS_FRAME_NO, USBHS_INT_FG, USBHS_MIS_ST, USBHS_INT_ST, USBHS_RX_LEN};
    static const uint32_t readings[5] = {0x2001, 2, 0, 0x01, 5}, widths[5] = {16, 6, 2, 7, 16};
    static uint8_t copy[USBHS_STATE_LEN] __attribute__((aligned(4)));
    uint32_t v[5];
    uint64_t word, one;
    unsigned i;

    for (i = 0; i < 5; i++)
        v[i] = readings[i] | (wide == i ? 1u << widths[i] : 0);
    memcpy(copy, state, sizeof copy);
    one = usbhs_begin_interrupt(copy);
    for (i = 0; i < 5 && USBHS_ASKS(one, registers[i]); i++)
        one = usbhs_continue(copy, slots, 64, time, 0, v[i]);
    word = usbhs_interrupt_transfer(state, slots, 64, time, 0, v[0], v[1], v[2], v[3], v[4]);
    expect("all five: answer", word, one);
    expect("all five: state", memcmp(state, copy, sizeof copy) != 0, 0);
    if (wide < 5) {
        refused("all five: too wide", word, 16);
        for (i = wide; i < 5; i++)
            word = usbhs_continue(state, slots, 64, time, 0, readings[i]);
        memcpy(copy, state, sizeof copy);
    }
    while (USBHS_KIND(word) != USBHS_END && USBHS_KIND(word) != USBHS_REFUSED) {
        if (USBHS_ASKS(word, USBHS_MIS_ST)) {
            word = usbhs_continue_looks(state, slots, 64, time, 0, looks, 2, 1);
            for (i = 0, one = USBHS_READ | USBHS_MIS_ST << 8; i <= looks && USBHS_ASKS(one, USBHS_MIS_ST); i++)
                one = usbhs_continue(copy, slots, 64, time, 0, i < looks ? 2 : 1);
        } else {
            word = usbhs_continue(state, slots, 64, time, 0, 0);
            one = usbhs_continue(copy, slots, 64, time, 0, 0);
        }
        expect("looks: answer", word, one);
        expect("looks: state", memcmp(state, copy, sizeof copy) != 0, 0);
    }
    expect("all five: end", USBHS_KIND(word), USBHS_END);
}

/* A state or slots on no word boundary: start-up is refused with 24 and touches nothing. */
static void misaligned(void)
{
    static uint8_t room[USBHS_STATE_LEN + 4] __attribute__((aligned(4)));
    static uint8_t buffers[64 + 4] __attribute__((aligned(4)));
    static uint16_t time[USBHS_TIME_LEN];

    for (unsigned odd = 1; odd < 4; odd++) {
        expect("odd state", USBHS_ROW(usbhs_start_up(room + odd, buffers, 64, time, 0, 64, 1, 0)), USBHS_ROW_MISALIGNED);
        expect("odd slots", USBHS_ROW(usbhs_start_up(room, buffers + odd, 64, time, 0, 64, 1, 0)), USBHS_ROW_MISALIGNED);
    }
    for (unsigned i = 0; i < sizeof room; i++)
        expect("untouched", room[i], 0);
}

int main(void)
{
    static uint8_t state[USBHS_STATE_LEN] __attribute__((aligned(4)));
    static uint8_t slots[64] __attribute__((aligned(4)));
    static uint8_t room[USBHS_MOST_WAKES];
    static uint16_t time[USBHS_TIME_LEN];
    uint16_t stamp = 7;
    uint64_t word;

    /* no buffers yet, so the slots' length is to be 0 (row 1), and nothing is under way (row 15) */
    word = usbhs_continue(state, slots, 64, time, 0, 0);
    expect("continue, 64 slot bytes: kind", USBHS_KIND(word), USBHS_REFUSED);
    expect("continue, 64 slot bytes: row", USBHS_ROW(word), 1);
    word = usbhs_continue(state, slots, 0, time, 0, 0);
    expect("continue: kind", USBHS_KIND(word), USBHS_REFUSED);
    expect("continue: row", USBHS_ROW(word), 15);
    word = usbhs_begin_microframe(state);
    expect("microframe: kind", USBHS_KIND(word), USBHS_REFUSED);
    expect("microframe: row", USBHS_ROW(word), 4);
    word = usbhs_open(state, slots, 0, 1, &stamp);
    expect("open: kind", USBHS_KIND(word), USBHS_REFUSED);
    expect("open: row", USBHS_ROW(word), 4);
    expect("open: stamp", stamp, 7);
    expect("pending", usbhs_pending(state, 1), 0);
    expect("overruns", usbhs_overruns(state, 1), 0);
    expect("enabled", usbhs_enabled(state, 1, USBHS_IN), 0);
    room[0] = 9;
    expect("woken", usbhs_woken(state, room), 0);
    expect("woken: the room stays", room[0], 9);
    bus_time();

    /* the parts of a word: the end of an operation with result 0x1234 and 33 wake-ups; a write of ep_tx_ctrl(3) */
    word = 5 + 0x1234ull * 256 + (33ull << 24);
    expect("end: kind", USBHS_KIND(word), USBHS_END);
    expect("end: result", USBHS_RESULT(word), 0x1234);
    expect("end: wake-ups", USBHS_WAKES(word), 33);
    word = 2 + (18ull << 8) + (3ull << 16) + (0xFFFFFFFFull << 32);
    expect("write: register", USBHS_REGISTER(word), USBHS_EP_TX_CTRL);
    expect("write: endpoint", USBHS_ENDPOINT(word), 3);
    expect("write: value", USBHS_VALUE(word), 0xFFFFFFFFu);

    misaligned();
    wake_ups(state, slots, time);
    together(state, slots, time);
    for (unsigned wide = 0; wide <= 5; wide++)
        all_together(state, slots, time, 2 * wide, wide);
    for (unsigned i = 1998; i < 2004; i++)
        all_together(state, slots, time, i, 5);
    listed(4);
    listed(3);

    if (!failed)
        printf("link: passed\n");
    return failed;
}
