/* SPDX-License-Identifier: MIT OR Apache-2.0 */
/* Random surveys over random older cards, cut at random stores: what the exported reader gives of the whole card, held
 * against a model of its own. `recorder [CUTS]`. */
#include <stdio.h>
#include <stdlib.h>
#include <string.h>

#include "usbhs_survey.h"

#define BLOCKS 64u
#define CARD (BLOCKS * 512u)
#define MOST 4000u
#define FIRST_DATA 504u

static uint8_t card[CARD], room[USBHS_ROOM_LEN];
static uint32_t recorder[USBHS_RECORDER_LEN];
static uint64_t chance = 88172645463325252ull;
static unsigned long cuts, torn_cuts, packets_seen;

static uint32_t any(uint32_t n)
{
    chance ^= chance << 13;
    chance ^= chance >> 7;
    chance ^= chance << 17;
    return (uint32_t)(chance >> 11) % n;
}

static void fail(const char *what)
{
    printf("recorder: cut %lu: %s\n", cuts, what);
    exit(1);
}

/* ---- the model: packets, and where each begins */

struct packet {
    uint32_t at, length, endpoint;
    uint8_t bytes[1024];
};
static struct packet model[MOST], end_before, end_now;
static uint32_t modelled, place, flushed, survey;

static void model_packet(uint32_t endpoint, const uint8_t *bytes, uint32_t length)
{
    struct packet *p = &model[modelled++];

    if (modelled == MOST)
        fail("model too small");
    p->at = place;
    p->length = length;
    p->endpoint = endpoint;
    memcpy(p->bytes, bytes, length);
    place += 3 + length;
}

static void model_padding(int always)
{
    static const uint8_t zeros[512];
    uint32_t used = place % FIRST_DATA;

    if (always || used > 488)
        model_packet(USBHS_RECORDER, zeros, used < 501 ? 501 - used : 0);
}

static void model_end(uint8_t finished, uint32_t overruns)
{
    end_now = (struct packet){place, 10, USBHS_RECORDER, {3, finished}};
    for (unsigned i = 0; i < 4; i++) {
        end_now.bytes[2 + i] = (uint8_t)(survey >> 8 * i);
        end_now.bytes[6 + i] = (uint8_t)(overruns >> 8 * i);
    }
}

/* ---- older cards */

static void store_any(uint32_t blocks)
{
    uint32_t writer[USBHS_WRITER_LEN], stored = 0;
    uint8_t block[512], data[1024];
    uint64_t word;

    usbhs_card_new(writer);
    while (stored < blocks) {
        uint32_t length = any(4) == 0 ? any(1025) : any(80);

        for (uint32_t i = 0; i < length; i++)
            data[i] = (uint8_t)any(256);
        do {
            word = usbhs_card_write(writer, block, 512, 1 + any(14), data, length);
            if (USBHS_RESULT(word) & USBHS_BLOCK_FULL && stored < BLOCKS)
                memcpy(card + 512 * stored++, block, 512);
        } while (!(USBHS_RESULT(word) & USBHS_PACKET_WRITTEN));
    }
}

static void older_card(void)
{
    for (uint32_t i = 0; i < CARD; i++)
        card[i] = (uint8_t)any(256);
    if (any(8) != 0)
        store_any(BLOCKS - any(8));
    for (uint32_t n = any(3) == 0 ? any(6) : 0; n > 0; n--)
        card[any(CARD)] ^= (uint8_t)(1 + any(255));
}

/* ---- reading */

static int good(const uint8_t *block, uint32_t k)
{
    uint32_t number = block[0] | (uint32_t)block[1] << 8 | (uint32_t)block[2] << 16 | (uint32_t)block[3] << 24;

    return number == k && (block[510] | (uint32_t)block[511] << 8) == usbhs_data_crc(block, 510);
}

static int lies_in(const struct packet *p, uint32_t k)
{
    return p->at / FIRST_DATA <= k && k <= (p->at + p->length + 2) / FIRST_DATA;
}

static usbhs_length reader_at;

static void next_is(const struct packet *p)
{
    static uint8_t given[1024];
    uint32_t endpoint = 0;
    uint64_t word = usbhs_card_next(card, CARD, &reader_at, &endpoint, given, sizeof given);

    if (USBHS_KIND(word) != USBHS_DONE)
        fail("a packet is missing");
    if (USBHS_LENGTH(word) != p->length || endpoint != p->endpoint || memcmp(given, p->bytes, p->length) != 0)
        fail("another packet");
    packets_seen++;
}

/* The first `count` packets of the model but those in block `bad`, then this end, then no more. */
static void reads(uint32_t count, const struct packet *end, uint32_t bad)
{
    static uint8_t given[1024];
    uint32_t endpoint = 0;

    if (USBHS_KIND(usbhs_card_start(card, CARD, &reader_at)) != USBHS_END)
        fail("start");
    for (uint32_t i = 0; i < count; i++)
        if (!lies_in(&model[i], bad))
            next_is(&model[i]);
    next_is(end);
    if (USBHS_KIND(usbhs_card_next(card, CARD, &reader_at, &endpoint, given, sizeof given)) != USBHS_END)
        fail("something older");
}

/* ---- a cut */

static long until_cut;

/* Stores what is asked for; 0 where the power goes. The card is read there. */
static int store_all(void)
{
    uint32_t first = recorder[3];

    end_before = modelled == 1 ? end_now : end_before;
    while (recorder[USBHS_TO_STORE] != 0) {
        uint32_t at = USBHS_STORE_PLACE(recorder);
        const uint8_t *block = USBHS_STORE_BLOCK(recorder, room);

        if (at >= BLOCKS) { /* the card is full: no store, no more records */
            reads(flushed, &end_before, UINT32_MAX);
            return 0;
        }
        if (until_cut-- == 0) {
            uint8_t *to = card + 512 * at;
            uint32_t kept = any(513), old = any(2);

            for (uint32_t i = 0; i < 512; i++)
                to[i] = i < kept ? block[i] : old ? to[i] : (uint8_t)any(256);
            if (memcmp(to, block, 512) != 0 && good(to, at))
                to[any(512)] ^= 1; /* not whole, so its check fails */
            torn_cuts += memcmp(to, block, 512) != 0;
            if (at != first)
                reads(flushed, &end_before, UINT32_MAX);
            else
                reads(modelled, &end_now, memcmp(to, block, 512) == 0 ? UINT32_MAX : at);
            return 0;
        }
        memcpy(card + 512 * at, block, 512);
        usbhs_recorder_stored(recorder);
        if (recorder[USBHS_TO_STORE] == 0) {
            flushed = modelled;
            end_before = end_now;
            if (any(8) == 0)
                reads(flushed, &end_before, UINT32_MAX);
        }
    }
    return 1;
}

static void begin(void)
{
    uint8_t bytes[6] = {1, 0};

    survey = any(UINT32_MAX);
    modelled = place = flushed = 0;
    for (uint32_t i = 0; i < sizeof room; i++)
        room[i] = (uint8_t)any(256);
    for (unsigned i = 0; i < 4; i++)
        bytes[2 + i] = (uint8_t)(survey >> 8 * i);
    if (usbhs_recorder_begin(recorder, room, sizeof room, survey) != (5 | 1 << 8))
        fail("begin");
    model_packet(USBHS_RECORDER, bytes, 6);
    model_end(0, 0);
    if (!store_all())
        fail("the begin was cut");
}

static int finish(uint32_t overruns)
{
    if (usbhs_recorder_finish(recorder, room, sizeof room, overruns) != (5 | 2 << 8))
        fail("finish");
    model_padding(1);
    model_end(1, overruns);
    return store_all();
}

static int record(uint32_t endpoint, const uint8_t *data, uint32_t length, uint32_t overruns)
{
    uint32_t block = place / FIRST_DATA;
    uint64_t word = usbhs_record(recorder, room, sizeof room, endpoint, data, length, overruns);

    if (USBHS_KIND(word) != USBHS_END)
        fail("record");
    model_packet(endpoint, data, length);
    model_padding(0);
    if (place / FIRST_DATA != block)
        model_end(0, overruns);
    if (USBHS_RESULT(word) != (place / FIRST_DATA == block ? 0 : place / FIRST_DATA - block + 1))
        fail("another number of blocks to store");
    return store_all();
}

static void random_survey(void)
{
    uint8_t data[1024];
    uint32_t overruns = 0, kind = any(4), size = any(600), more = 1;

    older_card();
    until_cut = 1 + (long)any(100);
    begin();
    while (more) {
        uint32_t length = any(8) == 0 ? any(1025) : any(40);

        if (kind < 3)
            length = kind == 0 ? any(1025) : kind == 1 ? any(70) : size;

        for (uint32_t i = 0; i < length; i++)
            data[i] = (uint8_t)any(256);
        overruns += any(16) == 0;
        more = any(60) == 0 ? (uint32_t)finish(overruns) : (uint32_t)record(1 + any(15), data, length, overruns);
    }
    cuts++;
}

/* A card that was used, then 48 packets of 60 bytes, and the end of the survey: by a finish, or by the power. */
static void used_card(uint32_t packets, uint32_t length, int finished)
{
    uint8_t data[1024];

    memset(data, 0xAA, sizeof data);
    store_any(BLOCKS);
    until_cut = 1000;
    begin();
    for (uint32_t i = 0; i < packets; i++) {
        memcpy(data, &i, 4);
        if (!record(1 + i % 2, data, length, 0))
            fail("a store too many");
    }
    if (finished && !finish(0))
        fail("a store too many");
    reads(flushed, &end_before, UINT32_MAX);
    printf("recorder: %u packets on a used card, %s: %u records and packets, no older one\n", packets,
           finished ? "finished" : "power lost", flushed);
}

int main(int count, char **words)
{
    unsigned long all = count > 1 ? strtoul(words[1], 0, 0) : 10000;

    used_card(48, 57, 1);
    used_card(48, 57, 0);
    used_card(45, 61, 1);
    while (cuts < all)
        random_survey();
    printf("recorder: %lu cuts over older cards, %lu with a torn block, %lu packets: the new ones alone\n", cuts,
           torn_cuts, packets_seen);
    return 0;
}
