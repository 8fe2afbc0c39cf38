/* SPDX-License-Identifier: MIT OR Apache-2.0 */
/* fuzz [CALLS [NAME..]]: CALLS (a million) calls of every exported function, or of those named, on random state bytes,
 * and as many on corrupted states.
 *
 * Each call is made twice, at different addresses: all that it is lent ends at an unmapped page, then begins behind
 * one. The two must answer the same and leave the same bytes; nothing outside may be touched (it would end the
 * program); what is lent to be read, and all that a refused call is lent, must stay as it was. Only a poll's refusals
 * 9 and 10 may change the state. A call that brings several readings is held against the calls of one access each: at
 * one of the two places these are made.
 *
 * Random state bytes are random throughout; for every second call a run's registers and allocator stand among them, so
 * that rows 1 and 4 let it pass, and for every fourth its suspended operation, for a continue. A corrupted state is one
 * of a run's (start-up, allocations, all calls with random readings, stopped anywhere), or what the last call left, with
 * some bytes changed. */
#define _DEFAULT_SOURCE
#include <stdio.h>
#include <stdlib.h>
#include <string.h>
#include <sys/mman.h>

#include "fuzz_runs.h"
#include "usbhs_survey.h"

#undef usbhs_start_up /* the exported call, wherever its bytes lie: the header would refuse odd ones */

/* ---- what is lent */

enum { STATE, SLOTS, TIME, SLICE, DATA, ROOM, FIRST, SECOND, THIRD, PIECES };
#define U(piece) (1u << (piece))
#define GUARD 4096u

/* `as`: what it holds before the call; `at`: the two places. */
static struct {
    size_t length;
    uint8_t as[MOST];
    uint8_t *begin[2], *at[2];
} lent[PIECES];

static void fail(const char *name, const char *what) {
    printf("fuzz: %s: %s\n", name, what);
    exit(1);
}

static uint8_t *guarded(void) {
    uint8_t *p = mmap(NULL, MOST + 2 * GUARD, PROT_NONE, MAP_PRIVATE | MAP_ANONYMOUS, -1, 0);
    if (p == MAP_FAILED || mprotect(p + GUARD, MOST, PROT_READ | PROT_WRITE)) fail("mmap", "no memory");
    return p + GUARD;
}

/* So many bytes are lent: before an unmapped page, and behind one. */
static void lend(int piece, size_t length) {
    lent[piece].length = length;
    lent[piece].at[0] = lent[piece].begin[0] + (MOST - length);
    lent[piece].at[1] = lent[piece].begin[1];
}

#define P(piece) (lent[piece].at[k])
#define L(piece) (lent[piece].length)
#define S P(STATE)
#define SL P(SLOTS), L(SLOTS)
#define T ((uint16_t *)(void *)P(TIME))
#define W32(piece) ((uint32_t *)(void *)P(piece))
#define LENGTH(piece) ((usbhs_length *)(void *)P(piece))

/* ---- the exported functions: numbers in n, at place k */

#define F(name, call) \
    static uint64_t f_##name(int k, const uint32_t *n) { \
        (void)n; \
        return (uint64_t)(call); \
    }

F(start_up, usbhs_start_up(S, SL, T, n[0], n[1], n[2], n[3]))
F(allocate, usbhs_allocate(S, n[0], n[1], n[2], n[3], n[4]))
F(start, usbhs_start(S, n[0]))
F(allocate_all, usbhs_allocate_all(S, P(DATA), L(DATA)))
F(preview, usbhs_preview(S, P(DATA), L(DATA), P(FIRST), W32(SECOND), W32(THIRD)))
F(continue, usbhs_continue(S, SL, T, n[0], n[1]))
F(begin_interrupt, usbhs_begin_interrupt(S))

/* Calls that bring several readings: at one of the two places the calls of one access each that they stand for. */
static uint64_t bring(int k, uint32_t driver, uint64_t word, int first, uint32_t a, int second, uint32_t b) {
    if (word != (uint64_t)(USBHS_READ | first << 8)) return word;
    word = usbhs_continue(S, SL, T, driver, a);
    if (word != (uint64_t)(USBHS_READ | second << 8)) return word;
    return usbhs_continue(S, SL, T, driver, b);
}

static uint64_t bring_all(int k, uint32_t driver, uint64_t word, const uint32_t *v) {
    static const int registers[5] = {USBHS_FRAME_NO, USBHS_INT_FG, USBHS_MIS_ST, USBHS_INT_ST, USBHS_RX_LEN};
    for (int i = 0; i < 5 && USBHS_ASKS(word, registers[i]) && word >> 16 == 0; i++)
        word = usbhs_continue(S, SL, T, driver, v[i]);
    return word;
}
static uint64_t bring_frame(int k, uint32_t driver, uint64_t word, uint32_t frame) {
    if (word != (uint64_t)(USBHS_READ | USBHS_FRAME_NO << 8)) return word;
    return usbhs_continue(S, SL, T, driver, frame);
}
static uint64_t looked(int k, uint32_t driver, uint32_t looks, uint32_t busy, uint32_t last) {
    for (; looks > 0; looks--) {
        uint64_t word = usbhs_continue(S, SL, T, driver, busy);
        if (word != (uint64_t)(USBHS_READ | USBHS_MIS_ST << 8)) return word;
    }
    return usbhs_continue(S, SL, T, driver, last);
}

static unsigned way; /* at which place */
#define AT_ONCE(k) (((unsigned)(k) ^ way) & 1)
F(interrupt, AT_ONCE(k) ? usbhs_interrupt(S, SL, T, n[0], n[1], n[2])
                        : bring(k, n[0], usbhs_begin_interrupt(S), USBHS_FRAME_NO, n[1], USBHS_INT_FG, n[2]))
F(continue_transfer, AT_ONCE(k) ? usbhs_continue_transfer(S, SL, T, n[0], n[1], n[2], n[3])
                                : bring(k, n[0], usbhs_continue(S, SL, T, n[0], n[1]), USBHS_INT_ST, n[2], USBHS_RX_LEN, n[3]))
F(interrupt_transfer, AT_ONCE(k) ? usbhs_interrupt_transfer(S, SL, T, n[0], n[1], n[2], n[3], n[4], n[5])
                                 : bring_all(k, n[0], usbhs_begin_interrupt(S), n + 1))
F(continue_released, AT_ONCE(k) ? usbhs_continue_released(S, SL, T, n[0], n[1])
                                : bring_frame(k, n[0], usbhs_continue(S, SL, T, n[0], 0), n[1]))
F(continue_looks, AT_ONCE(k) ? usbhs_continue_looks(S, SL, T, n[0], n[1] % 2100, n[2], n[3])
                             : looked(k, n[0], n[1] % 2100, n[2], n[3]))
F(begin_bus_poll, usbhs_begin_bus_poll(S))
F(begin_bus_enable, usbhs_begin_bus_enable(S))
F(begin_bus_disable, usbhs_begin_bus_disable(S))
F(begin_set_enabled, usbhs_begin_set_enabled(S, SL, T, n[3], n[0], n[1], n[2]))
F(begin_set_stalled, usbhs_begin_set_stalled(S, n[0], n[1], n[2]))
F(begin_is_stalled, usbhs_begin_is_stalled(S, n[0], n[1]))
F(set_paced, usbhs_set_paced(S, n[0], n[1]))
F(begin_advance, usbhs_begin_advance(S, n[0]))
F(begin_microframe, usbhs_begin_microframe(S))
F(begin_read, usbhs_begin_read(S, n[0], n[1]))
F(poll_read, usbhs_poll_read(S, SL, n[0], P(SLICE), L(SLICE)))
F(begin_write, usbhs_begin_write(S, SL, n[0], P(DATA), L(DATA)))
F(poll_write, usbhs_poll_write(S, SL, n[0], P(DATA), L(DATA)))
F(begin_setup, usbhs_begin_setup(S))
F(poll_setup, usbhs_poll_setup(S, P(FIRST)))
F(begin_data_out, usbhs_begin_data_out(S, n[1], n[2]))
F(poll_data_out, usbhs_poll_data_out(S, SL, P(SLICE), L(SLICE)))
F(begin_data_in, usbhs_begin_data_in(S, SL, P(DATA), L(DATA), n[1], n[2]))
F(poll_data_in, usbhs_poll_data_in(S))
F(begin_accept, usbhs_begin_accept(S))
F(begin_accept_set_address, usbhs_begin_accept_set_address(S, n[1]))
F(poll_accept, usbhs_poll_accept(S))
F(begin_reject, usbhs_begin_reject(S))
F(open, usbhs_open(S, SL, n[0], (uint16_t *)(void *)P(FIRST)))
F(close, usbhs_close(S, n[0]))
F(queue, usbhs_queue(S, SL, n[0], P(DATA), L(DATA)))
F(woken, usbhs_woken(S, P(FIRST)) * 16ull + 5)
F(pending, usbhs_pending(S, n[0]) * 16ull + 5)
F(overruns, usbhs_overruns(S, n[0]) * 16ull + 5)
F(enabled, usbhs_enabled(S, n[0], n[1]) * 16ull + 5)
F(time_in_use, usbhs_time_in_use(T) * 16ull + 5)
F(best_set, usbhs_best_set((struct usbhs_channel *)(void *)P(DATA), L(DATA) / sizeof(struct usbhs_channel), T, n[1],
                           W32(FIRST), W32(SECOND), W32(THIRD)))
F(between_visits, usbhs_between_visits(n[0], n[1], n[2], n[3], W32(FIRST), W32(SECOND)))
F(data_crc, usbhs_data_crc(P(DATA), L(DATA)) * 16ull + 5)
F(card_new, (usbhs_card_new(W32(FIRST)), 5u))
F(card_write, usbhs_card_write(W32(FIRST), P(ROOM), L(ROOM), n[0], P(DATA), L(DATA)))
F(card_finish, usbhs_card_finish(W32(FIRST), P(ROOM), L(ROOM)))
F(recorder_begin, usbhs_recorder_begin(W32(FIRST), P(ROOM), L(ROOM), n[0]))
F(record, usbhs_record(W32(FIRST), P(ROOM), L(ROOM), n[0], P(DATA), L(DATA), n[1]))
F(recorder_finish, usbhs_recorder_finish(W32(FIRST), P(ROOM), L(ROOM), n[0]))
F(recorder_stored, usbhs_recorder_stored(W32(FIRST)))
F(card_start, usbhs_card_start(P(DATA), L(DATA), LENGTH(FIRST)))
F(card_next, usbhs_card_next(P(DATA), L(DATA), LENGTH(FIRST), W32(SECOND), P(ROOM), L(ROOM)))
F(card_read, usbhs_card_read(P(DATA), L(DATA), LENGTH(FIRST), P(ROOM), L(ROOM), LENGTH(SECOND), LENGTH(THIRD)))
F(write_descriptor, usbhs_write_descriptor(P(DATA), L(DATA), P(ROOM), L(ROOM)))

/* What a call's data are. */
enum filling { PLAIN, DESCRIPTOR, CHANNELS, CARD, STREAM, START_UP, VISITS };

static const struct function {
    const char *name;
    uint64_t (*call)(int, const uint32_t *);
    unsigned uses, reads; /* pieces that are lent, and of these the ones to be read only */
    unsigned first;       /* the length of the room FIRST */
    int poll;             /* 1: its refusals 9 and 10 end a request; 2: several calls, of which the last may be refused */
    enum filling filling;
} functions[] = {
#define SS (U(STATE) | U(SLOTS))
#define ALONE(name) {"usbhs_" #name, f_##name, U(STATE), 0, 0, 0, PLAIN}
    {"usbhs_start_up", f_start_up, SS | U(TIME), U(SLOTS), 0, 0, START_UP},
    ALONE(allocate),
    ALONE(start),
    {"usbhs_allocate_all", f_allocate_all, U(STATE) | U(DATA), U(DATA), 0, 0, DESCRIPTOR},
    {"usbhs_preview", f_preview, U(STATE) | U(DATA) | U(FIRST) | U(SECOND) | U(THIRD), U(STATE) | U(DATA), 32, 0,
     DESCRIPTOR},
    {"usbhs_continue", f_continue, SS | U(TIME), 0, 0, 0, PLAIN},
    ALONE(begin_interrupt),
    {"usbhs_interrupt", f_interrupt, SS | U(TIME), 0, 0, 2, PLAIN},
    {"usbhs_continue_transfer", f_continue_transfer, SS | U(TIME), 0, 0, 2, PLAIN},
    {"usbhs_interrupt_transfer", f_interrupt_transfer, SS | U(TIME), 0, 0, 2, PLAIN},
    {"usbhs_continue_released", f_continue_released, SS | U(TIME), 0, 0, 2, PLAIN},
    {"usbhs_continue_looks", f_continue_looks, SS | U(TIME), 0, 0, 2, PLAIN},
    ALONE(begin_bus_poll),
    ALONE(begin_bus_enable),
    ALONE(begin_bus_disable),
    {"usbhs_begin_set_enabled", f_begin_set_enabled, SS | U(TIME), 0, 0, 0, PLAIN},
    ALONE(begin_set_stalled),
    ALONE(begin_is_stalled),
    ALONE(set_paced),
    ALONE(begin_advance),
    ALONE(begin_microframe),
    ALONE(begin_read),
    {"usbhs_poll_read", f_poll_read, SS | U(SLICE), U(SLOTS), 0, 1, PLAIN},
    {"usbhs_begin_write", f_begin_write, SS | U(DATA), U(DATA), 0, 0, PLAIN},
    {"usbhs_poll_write", f_poll_write, SS | U(DATA), U(DATA), 0, 1, PLAIN},
    ALONE(begin_setup),
    {"usbhs_poll_setup", f_poll_setup, U(STATE) | U(FIRST), 0, 8, 1, PLAIN},
    ALONE(begin_data_out),
    {"usbhs_poll_data_out", f_poll_data_out, SS | U(SLICE), U(SLOTS), 0, 1, PLAIN},
    {"usbhs_begin_data_in", f_begin_data_in, SS | U(DATA), U(DATA), 0, 0, PLAIN},
    {"usbhs_poll_data_in", f_poll_data_in, U(STATE), 0, 0, 1, PLAIN},
    ALONE(begin_accept),
    ALONE(begin_accept_set_address),
    {"usbhs_poll_accept", f_poll_accept, U(STATE), 0, 0, 1, PLAIN},
    ALONE(begin_reject),
    {"usbhs_open", f_open, SS | U(FIRST), U(SLOTS), 2, 0, PLAIN},
    ALONE(close),
    {"usbhs_queue", f_queue, SS | U(DATA), U(DATA), 0, 0, PLAIN},
    {"usbhs_woken", f_woken, U(STATE) | U(FIRST), U(STATE), 64, 0, PLAIN},
    {"usbhs_pending", f_pending, U(STATE), U(STATE), 0, 0, PLAIN},
    {"usbhs_overruns", f_overruns, U(STATE), U(STATE), 0, 0, PLAIN},
    {"usbhs_enabled", f_enabled, U(STATE), U(STATE), 0, 0, PLAIN},
    {"usbhs_time_in_use", f_time_in_use, U(TIME), U(TIME), 0, 0, PLAIN},
    {"usbhs_best_set", f_best_set, U(DATA) | U(TIME) | U(FIRST) | U(SECOND) | U(THIRD), U(TIME), 4, 0, CHANNELS},
    {"usbhs_between_visits", f_between_visits, U(FIRST) | U(SECOND), 0, 12, 0, VISITS},
    {"usbhs_data_crc", f_data_crc, U(DATA), U(DATA), 0, 0, PLAIN},
    {"usbhs_card_new", f_card_new, U(FIRST), 0, 16, 0, PLAIN},
    {"usbhs_card_write", f_card_write, U(FIRST) | U(ROOM) | U(DATA), U(DATA), 16, 0, CARD},
    {"usbhs_card_finish", f_card_finish, U(FIRST) | U(ROOM), U(FIRST), 16, 0, CARD},
    {"usbhs_recorder_begin", f_recorder_begin, U(FIRST) | U(ROOM), 0, 24, 0, CARD},
    {"usbhs_record", f_record, U(FIRST) | U(ROOM) | U(DATA), U(DATA), 24, 0, CARD},
    {"usbhs_recorder_finish", f_recorder_finish, U(FIRST) | U(ROOM), 0, 24, 0, CARD},
    {"usbhs_recorder_stored", f_recorder_stored, U(FIRST), 0, 24, 0, PLAIN},
    {"usbhs_card_start", f_card_start, U(DATA) | U(FIRST), U(DATA), 8, 0, STREAM},
    {"usbhs_card_next", f_card_next, U(DATA) | U(FIRST) | U(SECOND) | U(ROOM), U(DATA), 8, 0, STREAM},
    {"usbhs_card_read", f_card_read, U(DATA) | U(FIRST) | U(SECOND) | U(THIRD) | U(ROOM), U(DATA), 8, 0, STREAM},
    {"usbhs_write_descriptor", f_write_descriptor, U(DATA) | U(ROOM), U(DATA), 0, 0, DESCRIPTOR},
};
#define FUNCTIONS (sizeof functions / sizeof *functions)

/* ---- a call's inputs */

static int evolved;
static uint64_t last;
static size_t due;

static void corrupt(uint8_t *bytes, uint32_t length, uint32_t most) {
    uint32_t n = below(most + 1);
    while (n--) {
        /* half of them behind the endpoints' records: registers, allocator, requests, wake-ups, the operation */
        uint32_t at = chance(50) ? below(length) : length * 7 / 8 + below(length / 8);
        bytes[at] = chance(50) ? (uint8_t)number() : (uint8_t)(bytes[at] ^ (1u << below(8)));
    }
}

/* Where the registers and the allocator begin, and the suspended operation. */
#define REGISTERS 1320
#define SAVED 0
#define SAVED_LEN 22
enum { LOOKS = 10, TAG = 12, SUB = 13, SITE = 14 }; /* of it: the looks that may follow, whose point it is, which */

/* Random bytes throughout. */
static void wild_state(unsigned uses) {
    const struct snapshot *of = &pool[below(POOL)];
    int known = chance(50);
    any_bytes(lent[STATE].as, USBHS_STATE_LEN);
    if (known) memcpy(lent[STATE].as + REGISTERS, of->state + REGISTERS, 64);
    if (known && chance(50)) memcpy(lent[STATE].as + SAVED, of->state + SAVED, SAVED_LEN);
    if (uses & U(TIME)) any_bytes(lent[TIME].as, USBHS_TIME_LEN * 2);
    lend(STATE, USBHS_STATE_LEN);
    lend(TIME, USBHS_TIME_LEN * 2);
    lend(SLOTS, known ? of->length : below(100));
    if (known && uses & U(SLOTS)) memcpy(lent[SLOTS].as, of->slots, of->length);
}

/* A run's, or what the last call left, some bytes changed. */
static void corrupted_state(unsigned uses, int midst) {
    uint8_t *state = lent[STATE].as;
    const struct snapshot *of = &pool[below(POOL) / 2 * 2 + (unsigned)(chance(85) ? midst : !midst)];
    if (evolved-- <= 0 || (midst && !under_way(last))) {
        /* a continue goes on where the last one stopped */
        evolved = midst ? (int)below(24) : chance(10);
        if (chance(2)) memset(state, 0, USBHS_STATE_LEN);
        else memcpy(state, of->state, USBHS_STATE_LEN);
        lend(STATE, USBHS_STATE_LEN);
        due = of->length;
        if (uses & U(SLOTS)) memcpy(lent[SLOTS].as, of->slots, of->length);
        if (chance(4)) any_bytes(lent[TIME].as, USBHS_TIME_LEN * 2);
        else memcpy(lent[TIME].as, of->time, USBHS_TIME_LEN * 2);
        lend(TIME, USBHS_TIME_LEN * 2);
    }
    corrupt(state, USBHS_STATE_LEN, chance(20) ? 40 : 2);
    lend(SLOTS, chance(97) ? due : below(MOST));
}

/* A configuration descriptor, or something like one. */
static void any_descriptor(void) {
    static const uint8_t head[9] = {9, 2, 0, 0, 1, 1, 0, 0x80, 50}, interface[9] = {9, 4, 0, 0, 2, 255, 0, 0, 0};
    uint8_t *b = lent[DATA].as;
    size_t n = 9;
    uint32_t parts = below(6);
    memcpy(b, head, 9);
    memcpy(b + n, interface, 9);
    n += 9;
    while (parts--) {
        if (chance(15)) {
            memcpy(b + n, interface, 9);
            b[n + 3] = (uint8_t)below(3);
            n += 9;
        } else {
            uint8_t e[7] = {7, 5, 0, 0, 0, 0, 1};
            e[2] = (uint8_t)((1 + below(5)) | below(2) << 7);
            e[3] = (uint8_t)below(4);
            e[4] = (uint8_t)number();
            e[5] = (uint8_t)below(3);
            memcpy(b + n, e, 7);
            n += 7;
        }
    }
    b[2] = (uint8_t)n;
    b[3] = (uint8_t)(n >> 8);
    if (chance(30)) b[below((uint32_t)n)] = (uint8_t)number();
    lend(DATA, chance(90) ? n : below((uint32_t)n + 20));
    any_bytes(lent[ROOM].as, 80);
    lend(ROOM, chance(60) ? 80 : below(80));
}

/* Blocks as the writer leaves them, some bytes changed. */
static void any_stream(void) {
    static uint8_t stream[4 * USBHS_BLOCK_LEN];
    static uint32_t made, writer[USBHS_WRITER_LEN];
    static size_t blocks;
    uint8_t *b = lent[DATA].as;
    if (made++ % 64 == 0) {
        static uint8_t data[1024];
        uint64_t word;
        uint32_t e, n;
        any_bytes(data, sizeof data);
        usbhs_card_new(writer);
        for (blocks = 0; blocks < 2;) {
            e = 1 + below(15), n = chance(70) ? below(100) : below(1025);
            do {
                word = usbhs_card_write(writer, stream + blocks * USBHS_BLOCK_LEN, USBHS_BLOCK_LEN, e, data, n);
                if (USBHS_RESULT(word) & USBHS_BLOCK_FULL) blocks++;
            } while (!(USBHS_RESULT(word) & USBHS_PACKET_WRITTEN) && blocks < 4);
        }
    }
    lend(DATA, USBHS_BLOCK_LEN * (1 + below(2)));
    memcpy(b, stream, L(DATA));
    if (chance(40)) b[below((uint32_t)L(DATA))] ^= (uint8_t)(1u << below(8));
    if (chance(5)) lend(DATA, below(2 * USBHS_BLOCK_LEN));
    {
        size_t place = chance(70) ? below(2 * 504 + 9) : (size_t)number();
        memcpy(lent[FIRST].as, &place, sizeof place);
    }
    any_bytes(lent[ROOM].as, 1024);
    lend(ROOM, chance(50) ? 1024 : below(200));
}

static void fill(const struct function *f, int wild, uint32_t n[6]) {
    static const uint32_t sizes[] = {8, 16, 32, 64, 512, 1024, 64, 64};
    int i;
    n[0] = endpoint();
    for (i = 1; i < 6; i++) n[i] = chance(70) ? below(4) : chance(60) ? below(300) : (uint32_t)number();
    if (f->uses & (SS | U(TIME))) {
        if (wild) wild_state(f->uses);
        else corrupted_state(f->uses, f->call == f_continue || f->call == f_continue_transfer ||
                                          f->call == f_continue_released || f->call == f_continue_looks);
    }
    if (f->first) any_bytes(lent[FIRST].as, f->first), lend(FIRST, f->first);
    any_bytes(lent[SECOND].as, 12);
    lend(SECOND, f->call == f_between_visits ? 12 : f->call == f_card_read ? 8 : 4);
    lend(THIRD, f->call == f_card_read ? 8 : 4);
    lend(SLICE, chance(85) ? (f->call == f_poll_read ? READ : DATA_OUT) : below(100));
    lend(DATA, f->call == f_poll_write && chance(85) ? WRITTEN : chance(80) ? below(65) : below(1100));
    if (f->uses & U(DATA)) any_bytes(lent[DATA].as, L(DATA));
    switch (f->filling) {
    case START_UP:
        n[1] = chance(85) ? sizes[below(8)] : n[1];
        n[2] = chance(85) ? below(24) : n[2];
        if (chance(90) && (uint64_t)n[1] * n[2] <= MOST) lend(SLOTS, n[1] * n[2]);
        break;
    case DESCRIPTOR: any_descriptor(); break;
    case CHANNELS:
        lend(DATA, sizeof(struct usbhs_channel) * (chance(90) ? below(9) : below(18)));
        n[1] = chance(95) ? below(40) : 256;
        break;
    case CARD:
        lend(ROOM, chance(95) ? USBHS_BLOCK_LEN : below(600));
        for (i = 0; chance(80) && i < 4; i++) {
            uint32_t x = below(i == 0 ? 1000 : 505);
            memcpy(lent[FIRST].as + 4 * i, &x, 4);
        }
        break;
    case STREAM: any_stream(); break;
    case VISITS:
        for (i = 0; i < 4; i++) n[i] = (i % 2 && chance(80) ? n[i - 1] : 0) + (chance(90) ? below(400) : below(20000));
        break;
    case PLAIN:
        if (f->call == f_start && chance(80)) n[0] = 64;
        if (f->call == f_allocate) n[0] = below(4), n[1] = chance(60) ? 256 : n[1], n[2] = below(80), n[4] = below(2);
        if (f->poll == 2) {
            int begins = f->call == f_interrupt || f->call == f_interrupt_transfer;
            n[1] = begins ? (uint32_t)number() >> 16 : below(4);
            n[2] = below(begins ? 64 : 128);
            n[3] = (uint32_t)number() >> 16;
            if (f->call == f_interrupt_transfer)
                n[2] = chance(70) ? 2u | below(2) << 5 : n[2], n[3] = below(4), n[4] = below(128),
                n[5] = (uint32_t)number() >> 16;
            if (f->call == f_continue_looks)
                n[1] = chance(80) ? below(6) : (uint32_t)number(), n[2] = below(2) << 1, n[3] = below(4);
            if (f->call == f_continue_released) n[1] = (uint32_t)number() >> 16;
            if (chance(10)) n[1 + below(f->call == f_interrupt_transfer ? 5 : 3)] = (uint32_t)number() >> below(32);
        }
        /* most stand where the transfer's flag was cleared */
        if (f->call == f_continue_released && chance(60)) {
            lent[STATE].as[SAVED + TAG] = 6;
            lent[STATE].as[SAVED + SITE] = 10;
        }
        /* most stand where a wait looks at mis_st: a transfer that is settled, a toggle that is looked at */
        if (f->call == f_continue_looks && chance(70)) {
            static const uint8_t sites[3][2] = {{11, 3}, {11, 6}, {18, 0}};
            uint32_t at = below(3), left = chance(60) ? below(8) : below(2001);
            lent[STATE].as[SAVED + TAG] = 6;
            lent[STATE].as[SAVED + SITE] = sites[at][0];
            lent[STATE].as[SAVED + SUB] = sites[at][1];
            lent[STATE].as[SAVED + LOOKS] = (uint8_t)left;
            lent[STATE].as[SAVED + LOOKS + 1] = (uint8_t)(left >> 8);
        }
        /* most stand where a transfer's readings are asked for */
        if (f->call == f_continue_transfer && chance(60)) lent[STATE].as[SAVED + TAG] = lent[STATE].as[SAVED + SITE] = 6;
        if (f->call == f_continue) n[1] = (uint32_t)number() >> (chance(90) ? 16 + below(16) : 0);
    }
}

/* ---- a call, twice */

static unsigned long refusals, rows[256];

static void once(const struct function *f, int wild) {
    uint32_t n[6];
    uint64_t word[2];
    int p, k, refused, ends;
    fill(f, wild, n);
    way = below(2);
    for (k = 0; k < 2; k++) {
        for (p = 0; p < PIECES; p++)
            if (f->uses & U(p)) memcpy(lent[p].at[k], lent[p].as, L(p));
        word[k] = f->call(k, n);
    }
    if (word[0] != word[1]) fail(f->name, "two answers");
    last = word[0];
    refused = USBHS_KIND(word[0]) == USBHS_REFUSED;
    ends = f->poll == 1 && refused && (USBHS_ROW(word[0]) == 9 || USBHS_ROW(word[0]) == 10);
    refusals += (unsigned long)refused;
    if (refused) rows[USBHS_ROW(word[0])]++;
    for (p = 0; p < PIECES; p++) {
        if (!(f->uses & U(p))) continue;
        if (memcmp(lent[p].at[0], lent[p].at[1], L(p))) fail(f->name, "different bytes");
        if (((f->reads & U(p)) || (refused && f->poll != 2 && !(ends && p == STATE))) && memcmp(lent[p].at[0], lent[p].as, L(p)))
            fail(f->name, refused ? "a refusal changed something" : "what is to be read was changed");
        if (p <= TIME) memcpy(lent[p].as, lent[p].at[0], L(p));
    }
}

int main(int count, char **words) {
    unsigned long calls = count > 1 ? strtoul(words[1], NULL, 10) : 1000000, i, all = 0;
    size_t f;
    int p, k, w, wanted, wild;
    for (p = 0; p < PIECES; p++)
        for (k = 0; k < 2; k++) lent[p].begin[k] = guarded();
    fill_pool();
    for (f = 0; f < FUNCTIONS; f++) {
        for (wanted = count < 3, w = 2; w < count; w++) wanted |= !strcmp(words[w], functions[f].name);
        if (!wanted) continue;
        for (wild = (functions[f].uses & U(STATE)) != 0; wild >= 0; wild--) {
            refusals = evolved = 0;
            memset(rows, 0, sizeof rows);
            /* before the calls: if they end the program, it is seen in which */
            printf("%s%s: ", functions[f].name, wild ? ", random bytes" : "");
            fflush(stdout);
            for (i = 0; i < calls; i++) once(&functions[f], wild);
            printf("%lu calls, %lu refused", calls, refusals);
            for (i = 0; i < 256; i++)
                if (rows[i]) printf(", %lu by row %lu", rows[i], i);
            printf("\n");
            all += calls;
        }
    }
    printf("fuzz: %lu calls, each made twice: no fault, no difference, no byte changed by a refusal that may not\n",
           all);
    return 0;
}
