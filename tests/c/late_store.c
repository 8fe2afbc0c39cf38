/* SPDX-License-Identifier: MIT OR Apache-2.0 */
/* Request Fourteen: a store that the late run's continue would have seen. OUT 1 and OUT 3 are others, OUT 2 is the channel.
 *
 * Run A has no packet for the channel, and gets the others' store at the last access before the checks. Run B has one, and
 * gets the store at the channel's own status reading. Where the store is OUT 1's, whose check B has behind it, A hands out
 * two accesses made for OUT 1 and B none: the two do not line up, which the sentence asks of them (`seen-parts`,
 * crates/proof_isolation/proofs/SeenLaws.antt). Where it is OUT 3's, whose check is still to come, they line up. */
#include <string.h>
#include "expect.h"

#define SIZE 64u
#define COUNT 64u

static uint8_t state[USBHS_STATE_LEN], slots[SIZE * COUNT];
static uint16_t bus_time[USBHS_TIME_LEN];
static uint32_t armed[16];

static unsigned reg(uint64_t word) { return (unsigned)(word >> 8 & 255); }
static unsigned ep(uint64_t word) { return (unsigned)(word >> 16 & 255); }

static uint64_t go(uint32_t value)
{
    uint64_t word = usbhs_continue(state, slots, sizeof slots, bus_time, 0, value);
    if (USBHS_KIND(word) == USBHS_WRITE && reg(word) == USBHS_EP_RX_DMA) armed[ep(word)] = (uint32_t)(word >> 32);
    return word;
}

static void to_end(uint64_t word)
{
    for (;;) {
        if (USBHS_KIND(word) == USBHS_WRITE && reg(word) == USBHS_EP_RX_DMA) armed[ep(word)] = (uint32_t)(word >> 32);
        if (USBHS_KIND(word) == USBHS_REFUSED || USBHS_KIND(word) > USBHS_CALLBACK) break;
        word = go(0);
    }
    expect("to its end", USBHS_KIND(word), USBHS_END);
}

/* whose it is: the receive address that is next, were 16, a SOF's status, read; 0: no endpoint's */
static unsigned made_for(uint64_t word)
{
    static uint8_t before[USBHS_STATE_LEN], lent[sizeof slots];
    uint64_t next;
    if (USBHS_KIND(word) == USBHS_WRITE && reg(word) == USBHS_EP_RX_DMA) return ep(word);
    if (USBHS_KIND(word) != USBHS_READ || reg(word) != USBHS_INT_ST) return 0;
    memcpy(before, state, sizeof state);
    memcpy(lent, slots, sizeof slots);
    next = usbhs_continue(state, slots, sizeof slots, bus_time, 0, 16);
    memcpy(state, before, sizeof state);
    memcpy(slots, lent, sizeof slots);
    return USBHS_KIND(next) == USBHS_WRITE && reg(next) == USBHS_EP_RX_DMA ? ep(next) : 0;
}

static void store(unsigned e)
{
    unsigned i;
    for (i = 0; i < 8; i++) slots[armed[e] + i] = (uint8_t)(i + 1);
}

static unsigned waits(unsigned e)
{
    unsigned n = 0;
    uint16_t stamp;
    uint64_t word = usbhs_open(state, slots, sizeof slots, e, &stamp);
    for (; USBHS_KIND(word) == USBHS_SHOWN; n++) {
        expect("close", USBHS_KIND(usbhs_close(state, e)), USBHS_END);
        word = usbhs_open(state, slots, sizeof slots, e, &stamp);
    }
    refused("open of an empty ring", word, 12);
    return n;
}

/* the accesses of one interrupt: of each endpoint how many were made for it, and those that are not the channel's */
struct run { unsigned of[16], others, list[64], waiting[4]; };

static struct run runs(const char *name, int channel, unsigned stored, int late)
{
    static const uint32_t reads[] = { 2, 0x29, 1, 0, 5 };
    struct run r;
    uint64_t word;
    unsigned e, frames = 0, done = 0;
    memset(&r, 0, sizeof r);
    memset(state, 0, sizeof state);
    memset(slots, 0, sizeof slots);
    memset(bus_time, 0, sizeof bus_time);
    to_end(usbhs_start_up(state, slots, sizeof slots, bus_time, 0, SIZE, COUNT, 0));
    for (e = 1; e <= 3; e++) to_end(usbhs_allocate(state, USBHS_ISOCHRONOUS, e, 60, 1, USBHS_OUT));
    to_end(usbhs_start(state, 64));
    for (e = 1; e <= 3; e++) to_end(usbhs_begin_set_enabled(state, slots, sizeof slots, bus_time, 0, e, USBHS_OUT, 1));
    if (channel) store(2);
    printf("%s:", name);
    for (word = usbhs_begin_interrupt(state); USBHS_KIND(word) != USBHS_END;) {
        unsigned whose = made_for(word);
        r.of[whose]++;
        if (whose != 2) r.list[r.others++] = (unsigned)(word & 0xFFFFFF);
        if (USBHS_KIND(word) == USBHS_READ && reg(word) == USBHS_EP_TX_CTRL) frames++;
        printf(" %s%u", USBHS_KIND(word) == USBHS_READ ? "r" : "w", reg(word));
        if (whose) printf("(OUT %u)", whose);
        if (!done && (late ? whose == 2 : USBHS_KIND(word) == USBHS_READ && reg(word) == USBHS_EP_TX_CTRL && frames == 2)) {
            store(stored);
            printf("<store OUT %u>", stored);
            done = 1;
        }
        if (USBHS_KIND(word) == USBHS_REFUSED) break;
        word = go(USBHS_KIND(word) == USBHS_READ && reg(word) < 5 ? reads[reg(word)] : 0);
    }
    expect("stored", done, 1);
    for (e = 1; e <= 3; e++) r.waiting[e] = waits(e);
    printf(" end; OUT 1 waits %u, OUT 3 waits %u\n", r.waiting[1], r.waiting[3]);
    return r;
}

int main(void)
{
    struct run a = runs("A, OUT 1 early", 0, 1, 0), b = runs("B, OUT 1 late", 1, 1, 1);
    expect("A's accesses made for OUT 1", a.of[1], 2);
    expect("B's accesses made for OUT 1", b.of[1], 0);
    expect("A: OUT 1 waits", a.waiting[1], 1);
    expect("B: OUT 1 waits", b.waiting[1], 0);
    a = runs("A, OUT 3 early", 0, 3, 0);
    b = runs("B, OUT 3 late", 1, 3, 1);
    expect("not the channel's, A and B", a.others, b.others);
    expect("access for access", (uint64_t)memcmp(a.list, b.list, sizeof a.list), 0);
    expect("A: OUT 3 waits", a.waiting[3], 1);
    expect("B: OUT 3 waits", b.waiting[3], 1);
    printf(failed ? "late_store: failed\n" : "late_store: ok\n");
    return failed;
}
