/* SPDX-License-Identifier: MIT OR Apache-2.0 */
/* For fuzz.c: random numbers and bytes, and states of runs. */
#include <stdint.h>
#include <string.h>

#include "usbhs.h"

/* The longest piece that a call is lent. */
#define MOST 24576u

/* ---- numbers */

static uint64_t seed = 0x9E3779B97F4A7C15u;

static uint64_t number(void) {
    seed ^= seed << 13;
    seed ^= seed >> 7;
    seed ^= seed << 17;
    return seed;
}

static uint32_t below(uint32_t n) { return (uint32_t)(((number() >> 32) * n) >> 32); }
static int chance(uint32_t percent) { return below(100) < percent; }

static void few_bytes(uint8_t *to, size_t n) {
    for (; n >= 8; n -= 8, to += 8) {
        uint64_t x = number();
        memcpy(to, &x, 8);
    }
    while (n--) *to++ = (uint8_t)number();
}

/* Many bytes are a part of a noise that changes slowly. */
#define NOISE 65536u
static uint8_t noise[NOISE + MOST];

static void any_bytes(uint8_t *to, size_t n) {
    uint32_t from = below(NOISE);
    if (n < 64) {
        few_bytes(to, n);
        return;
    }
    if (!noise[0] && !noise[1] && !noise[2]) few_bytes(noise, sizeof noise);
    few_bytes(noise + from, 32);
    memcpy(to, noise + below(NOISE), n);
}

/* ---- states of runs */

static struct snapshot {
    uint8_t state[USBHS_STATE_LEN];
    uint16_t time[USBHS_TIME_LEN];
    uint8_t slots[MOST];
    size_t length;
} pool[256], live;
#define POOL (sizeof pool / sizeof *pool)

/* The lengths of requests in these runs: polls bring them. */
#define READ 1024
#define WRITTEN 5
#define DATA_OUT 64

static uint32_t endpoint(void) { return chance(40) ? 1 : chance(85) ? 1 + below(4) : below(18); }

static uint32_t reading(uint64_t word) {
    static const unsigned width[19] = {6, 7, 2, 16, 16, 6, 0, 0, 0, 0, 0, 0, 0, 0, 0, 0, 0, 8, 8};
    unsigned r = USBHS_REGISTER(word);
    if (USBHS_KIND(word) != USBHS_READ) return below(2);
    /* mostly a transfer alone, its endpoint one of those allocated */
    if (r == USBHS_INT_FG && chance(80)) return 2;
    if (r == USBHS_INT_ST && chance(80)) return below(5) | below(4) << 4 | 0x40;
    if (r == USBHS_MIS_ST && chance(80)) return 1;
    if (r == USBHS_RX_LEN) return below(65);
    return (uint32_t)number() & ((1u << (r < 19 ? width[r] : 8)) - 1);
}

/* Where the chip stores packets: the last receive addresses. */
static uint32_t receive[16];

static uint64_t live_continue(uint64_t word) {
    if (USBHS_KIND(word) == USBHS_WRITE && USBHS_REGISTER(word) == USBHS_EP_RX_DMA)
        receive[USBHS_ENDPOINT(word) & 15] = USBHS_VALUE(word);
    return usbhs_continue(live.state, live.slots, live.length, live.time, 1, reading(word));
}

/* The word is no end: a continue follows. */
static int under_way(uint64_t word) { return USBHS_KIND(word) >= USBHS_READ && USBHS_KIND(word) <= USBHS_CALLBACK; }

/* To its end. */
static void live_all(uint64_t word) {
    while (under_way(word)) word = live_continue(word);
}

static uint64_t live_enable(uint32_t e, uint32_t dir, uint32_t on) {
    return usbhs_begin_set_enabled(live.state, live.slots, live.length, live.time, 1, e, dir, on);
}

static void live_start_up(void) {
    static const uint32_t sizes[] = {64, 64, 64, 64, 64, 64, 64, 64, 64, 64, 512, 1024};
    uint32_t size = sizes[below(12)], count = size == 64 ? 24 + below(24) : 22 + below(2), i;
    live.length = size * count;
    memset(receive, 0, sizeof receive);
    memset(live.state, 0, sizeof live.state);
    any_bytes(live.slots, live.length);
    live_all(usbhs_start_up(live.state, live.slots, live.length, live.time, 1, size, count, below(2)));
    for (i = 0; i < 6; i++)
        live_all(usbhs_allocate(live.state, i < 2 ? USBHS_ISOCHRONOUS : USBHS_BULK + below(2), 256, 1 + below(size),
                                below(3), i < 2 ? i : below(2)));
    if (chance(90)) live_all(usbhs_start(live.state, 64));
    for (i = 1; i < 5; i++) {
        live_all(live_enable(i, 0, 1));
        live_all(live_enable(i, 1, 1));
    }
}

/* A few calls of a run; the last may be left in its midst. */
static void live_calls(int midst) {
    static uint8_t data[1024];
    uint32_t i, e;
    uint64_t word;
    uint16_t stamp;
    for (i = below(40) + 4; i--;) {
        e = endpoint();
        switch (below(16)) {
        case 0: word = chance(10) ? usbhs_begin_bus_poll(live.state) : usbhs_poll_setup(live.state, data); break;
        case 1: word = usbhs_begin_set_stalled(live.state, e, below(2), below(2)); break;
        case 2: word = usbhs_begin_read(live.state, e, READ); break;
        case 3: word = usbhs_begin_write(live.state, live.slots, live.length, e, data, WRITTEN); break;
        case 4: word = usbhs_queue(live.state, live.slots, live.length, e, data, below(32)); break;
        case 5: word = usbhs_open(live.state, live.slots, live.length, e, &stamp); break;
        case 6:
            word = usbhs_begin_data_in(live.state, live.slots, live.length, data, below(65), below(2), below(2));
            break;
        case 7: word = usbhs_begin_data_out(live.state, DATA_OUT, below(2)); break;
        case 8: word = chance(50) ? usbhs_begin_accept(live.state) : usbhs_begin_setup(live.state); break;
        case 9: word = live_enable(e, below(2), below(9) != 0); break;
        case 10: word = usbhs_set_paced(live.state, e, below(2)); break;
        case 11: word = usbhs_begin_advance(live.state, e); break;
        default:
            any_bytes(live.slots + receive[chance(70) ? 1 : e & 15], 8);
            word = usbhs_begin_interrupt(live.state);
        }
        if (i == 0 && midst) {
            for (e = below(12); e && under_way(word); e--) word = live_continue(word);
            return;
        }
        live_all(word);
    }
}

static void fill_pool(void) {
    size_t i;
    for (i = 0; i < POOL; i++) {
        if (i % 8 == 0) live_start_up();
        live_calls(i % 2);
        pool[i] = live;
    }
}
