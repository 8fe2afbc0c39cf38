/* SPDX-License-Identifier: MIT OR Apache-2.0 */
/* Links the proved archive of the calls that take no driver, and checks values worked out by hand. */
#include <string.h>
#include "usbhs_survey.h"
#include "expect.h"

static void ended(const char *what, uint64_t word, unsigned result)
{
    expect(what, USBHS_KIND(word), USBHS_END);
    expect(what, word >> 8, result);
}

/* ---- channels: maxima 100, 100, 150, charges 3,000, 3,000, 5,000 */

static const struct usbhs_channel three[3] = {{100, 3000, 7}, {100, 3000, 8}, {150, 5000, 9}};

/* each channel as it was but for its flag */
static void marked(const char *what, const struct usbhs_channel *list, unsigned set)
{
    unsigned i;

    for (i = 0; i < 3; i++) {
        expect(what, list[i].maximum, three[i].maximum);
        expect(what, list[i].charge, three[i].charge);
        expect(what, list[i].chosen, set >> i & 1);
    }
}

/* The record of bus time with so much in use. */
static const uint16_t *charged(uint32_t in_use)
{
    static uint16_t time[USBHS_TIME_LEN];

    time[0] = (uint16_t)(in_use / 2);
    time[USBHS_TIME_LEN - 1] = (uint16_t)(in_use - in_use / 2);
    return time;
}

static void chosen(const char *what, uint32_t in_use, uint32_t budget, unsigned set, unsigned total, unsigned figure, unsigned looked)
{
    struct usbhs_channel list[3];
    uint32_t t = 7, f = 8, l = 9;

    memcpy(list, three, sizeof three);
    ended(what, usbhs_best_set(list, 3, charged(in_use), budget, &t, &f, &l), set);
    expect(what, t, total);
    expect(what, f, figure);
    expect(what, l, looked);
    marked(what, list, set);
}

static void channels(void)
{
    struct usbhs_channel list[17];
    uint32_t t = 7, f = 8, l = 9;
    int i;

    chosen("all sets", 0, 8, 3, 200, 200, 8);
    chosen("three sets", 0, 3, 1, 100, 350, 3);
    chosen("one byte-time less", 1, 9, 4, 150, 150, 8);
    chosen("no time left", 7000, 9, 0, 0, 0, 8);

    memcpy(list, three, sizeof three);
    refused("budget 0", usbhs_best_set(list, 3, charged(0), 0, &t, &f, &l), 20);
    expect("refused: list", memcmp(list, three, sizeof three) != 0, 0);
    expect("refused: total", t, 7);
    expect("refused: figure", f, 8);
    expect("refused: looked", l, 9);
    ended("no channel", usbhs_best_set(list, 0, charged(0), 1, &t, &f, &l), 0);
    expect("no channel: looked", l, 1);

    /* sixteen channels of charge 0, which fit where no time is left; seventeen are refused */
    memset(list, 0, sizeof list);
    for (i = 0; i < 17; i++)
        list[i].maximum = 65535;
    refused("seventeen channels", usbhs_best_set(list, 17, charged(0), 1, &t, &f, &l), 20);
    expect("seventeen channels: flag", list[0].chosen, 0);
    ended("sixteen channels", usbhs_best_set(list, 16, charged(6000), 0xFFFFFFFFu, &t, &f, &l), 0xFFFF);
    expect("sixteen channels: total", t, 16 * 65535);
    expect("sixteen channels: looked", l, 65536);
    expect("sixteen channels: flag", list[15].chosen, 1);
    expect("sixteen channels: behind", list[16].chosen, 0);
}

/* ---- a descriptor */

static void descriptors(void)
{
    static const uint8_t list[39] = {
        9, 2, 39, 0, 1, 0, 0, 0, 0,
        9, 4, 0, 0, 3, 0, 0, 0, 0,
        7, 5, 0x81, 1, 0x00, 0x02, 1,
        7, 5, 0x02, 2, 0x00, 0x02, 0,
        7, 5, 0x03, 3, 0x08, 0x00, 1,
    };
    uint8_t clash[sizeof board], room[64];
    uint64_t word;

    memset(room, 0xEE, sizeof room);
    refused("a room of 38", usbhs_write_descriptor(board, sizeof board, room, 38), 17);
    refused("a byte short", usbhs_write_descriptor(board, sizeof board - 1, room, sizeof room), 17);
    memcpy(clash, board, sizeof board);
    clash[44] = 2;
    refused("two types", usbhs_write_descriptor(clash, sizeof clash, room, sizeof room), 18);
    refused("two types in a room of 38", usbhs_write_descriptor(clash, sizeof clash, room, 38), 17);
    refused("two types in a room of 39", usbhs_write_descriptor(clash, sizeof clash, room, 39), 18);
    expect("refused: room", room[0], 0xEE);
    word = usbhs_write_descriptor(board, sizeof board, room, sizeof room);
    expect("written", USBHS_KIND(word), USBHS_DONE);
    expect("written: length", USBHS_LENGTH(word), sizeof list);
    expect("written: bytes", memcmp(room, list, sizeof list) != 0, 0);
    expect("written: behind", room[sizeof list], 0xEE);
    word = usbhs_write_descriptor(list, sizeof list, room, sizeof room);
    expect("again: bytes", memcmp(room, list, sizeof list) != 0, 0);
}

/* ---- visits */

static void between(const char *what, uint32_t a, uint32_t b, uint32_t c, uint32_t d, unsigned least, unsigned greatest)
{
    uint32_t l[USBHS_REACHED_LEN], g[USBHS_REACHED_LEN], at, count;

    ended(what, usbhs_between_visits(a, b, c, d, l, g), 0);
    expect(what, l[USBHS_ARRIVALS], least);
    expect(what, l[USBHS_FIRST], d);
    expect(what, l[USBHS_DISTANCE], d);
    expect(what, g[USBHS_ARRIVALS], greatest);
    expect(what, g[USBHS_FIRST], 1);
    expect(what, g[USBHS_DISTANCE], c);
    /* the times that come with it reach it */
    for (count = 0, at = l[USBHS_FIRST]; at <= a; at += l[USBHS_DISTANCE])
        count++;
    expect(what, count, least);
    for (count = 0, at = g[USBHS_FIRST]; at <= b; at += g[USBHS_DISTANCE])
        count++;
    expect(what, count, greatest);
}

static void visits(void)
{
    uint32_t l[USBHS_REACHED_LEN] = {7, 7, 7}, g[USBHS_REACHED_LEN] = {8, 8, 8};

    between("8 to 120, 8 to 9", 8, 120, 8, 9, 0, 15);
    between("9 to 121, 8 to 9", 9, 121, 8, 9, 1, 16);
    between("the widest", 1, 16383, 1, 16383, 0, 16383);
    refused("a distance of 0", usbhs_between_visits(0, 8, 8, 8, l, g), 23);
    refused("a distance of 16,384", usbhs_between_visits(8, 16384, 8, 8, l, g), 23);
    refused("visits: a least above", usbhs_between_visits(9, 8, 8, 8, l, g), 23);
    refused("arrivals: a least above", usbhs_between_visits(8, 8, 9, 8, l, g), 23);
    expect("refused: least", l[USBHS_ARRIVALS] + l[USBHS_FIRST] + l[USBHS_DISTANCE], 21);
    expect("refused: greatest", g[USBHS_ARRIVALS] + g[USBHS_FIRST] + g[USBHS_DISTANCE], 24);
}

/* ---- the card: three packets, of 600, 0 and 1,024 bytes, in four blocks */

#define PACKETS 3

static const unsigned lengths[PACKETS] = {600, 0, 1024};
static const unsigned endpoints[PACKETS] = {1, 15, 2};
static uint8_t data[PACKETS][1024];
static uint8_t stream[8 * USBHS_BLOCK_LEN];
static usbhs_length stored;

static void store(uint8_t *block)
{
    memcpy(stream + stored, block, USBHS_BLOCK_LEN);
    stored += USBHS_BLOCK_LEN;
    memset(block, 0xEE, USBHS_BLOCK_LEN);
}

static void written(void)
{
    uint32_t writer[USBHS_WRITER_LEN];
    uint8_t block[USBHS_BLOCK_LEN];
    uint64_t word;
    unsigned i, k;

    for (i = 0; i < PACKETS; i++)
        for (k = 0; k < lengths[i]; k++)
            data[i][k] = (uint8_t)(k * 7 + i);
    memset(block, 0xEE, sizeof block);
    usbhs_card_new(writer);
    refused("a short block", usbhs_card_write(writer, block, 511, 1, data[0], 600), 21);
    refused("a long packet", usbhs_card_write(writer, block, 512, 1, stream, 1025), 21);
    refused("endpoint 0", usbhs_card_write(writer, block, 512, 0, data[0], 600), 21);
    refused("endpoint 16", usbhs_card_write(writer, block, 512, 16, data[0], 600), 21);
    refused("endpoint 257", usbhs_card_write(writer, block, 512, 257, data[0], 600), 21);
    ended("nothing to finish", usbhs_card_finish(writer, block, 512), 0);
    refused("finish: a short block", usbhs_card_finish(writer, block, 511), 21);
    expect("refused: block", block[0], 0xEE);
    for (i = 0; i < PACKETS; i++) {
        do {
            word = usbhs_card_write(writer, block, sizeof block, endpoints[i], data[i], lengths[i]);
            expect("write: kind", USBHS_KIND(word), USBHS_END);
            if (USBHS_KIND(word) != USBHS_END)
                return;
            if (USBHS_RESULT(word) & USBHS_BLOCK_FULL)
                store(block);
        } while (!(USBHS_RESULT(word) & USBHS_PACKET_WRITTEN));
    }
    ended("finish", usbhs_card_finish(writer, block, sizeof block), USBHS_BLOCK_FULL);
    store(block);

    /* 603 + 3 + 1,027 bytes of packet data; the second block's first packet begins at 99 of its data, the third's and fourth's none */
    expect("blocks", stored, 4 * USBHS_BLOCK_LEN);
    for (k = 0; k < 4; k++) {
        const uint8_t *b = stream + k * USBHS_BLOCK_LEN;
        static const unsigned firsts[4] = {6, 6 + 99, 65535, 65535};

        expect("number", b[0] + b[1] * 256u + b[2] * 65536u + b[3] * 16777216u, k);
        expect("first", b[4] + b[5] * 256u, firsts[k]);
        expect("check", b[510] + b[511] * 256u, usbhs_data_crc(b, 510));
    }
    expect("length", stream[6] + stream[7] * 256u, 600);
    expect("endpoint", stream[8], 1);
    expect("first byte", stream[10], 7);
    expect("filler", stream[3 * USBHS_BLOCK_LEN + 6 + 121], 0);
}

/* the packets from the first on, each as it was written */
static void given(const char *what, unsigned first, unsigned last)
{
    uint8_t room[1024];
    uint32_t endpoint = 99;
    usbhs_length place = 99;
    uint64_t word;
    unsigned i;

    ended(what, usbhs_card_start(stream, stored, &place), 0);
    for (i = first; i <= last; i++) {
        if (lengths[i] > 0)
            refused(what, usbhs_card_next(stream, stored, &place, &endpoint, room, lengths[i] - 1), 21);
        word = usbhs_card_next(stream, stored, &place, &endpoint, room, sizeof room);
        expect(what, USBHS_KIND(word), USBHS_DONE);
        expect(what, word >> 8, lengths[i]);
        expect(what, endpoint, endpoints[i]);
        expect(what, memcmp(room, data[i], lengths[i]) != 0, 0);
    }
    ended(what, usbhs_card_next(stream, stored, &place, &endpoint, room, sizeof room), 0);
}

/* The same packets at once, and again with a room for each alone. */
static void given_at_once(const char *what, int first, int last)
{
    uint8_t room[4096];
    usbhs_length place = 0, count = 99, used = 99, at = 0;
    int i;

    ended(what, usbhs_card_start(stream, stored, &place), 0);
    ended(what, usbhs_card_read(stream, stored, &place, room, sizeof room, &count, &used), 1);
    expect(what, count, (uint64_t)(last - first + 1));
    for (i = first; i <= last; i++) {
        expect(what, room[at] + room[at + 1] * 256u, lengths[i]);
        expect(what, room[at + 2], endpoints[i]);
        expect(what, memcmp(room + at + 3, data[i], lengths[i]) != 0, 0);
        at += 3 + lengths[i];
    }
    expect(what, used, at);
    ended(what, usbhs_card_read(stream, stored, &place, room, sizeof room, &count, &used), 0);
    expect(what, count + used, 0);
    ended(what, usbhs_card_start(stream, stored, &place), 0);
    for (i = first; i <= last; i++) {
        refused(what, usbhs_card_read(stream, stored, &place, room, 2 + lengths[i], &count, &used), 21);
        ended(what, usbhs_card_read(stream, stored, &place, room, 3 + lengths[i], &count, &used), 1);
        expect(what, count, 1);
        expect(what, used, 3 + lengths[i]);
    }
}

static void read_back(void)
{
    usbhs_length place = 99;
    uint32_t endpoint = 99;
    uint8_t room[1];

    refused("a part of a block", usbhs_card_start(stream, 511, &place), 21);
    refused("next: a part of a block", usbhs_card_next(stream, 511, &place, &endpoint, room, 1), 21);
    expect("refused: place", place, 99);
    expect("refused: endpoint", endpoint, 99);
    given("all", 0, 2);
    given_at_once("all, at once", 0, 2);
    stream[2 * USBHS_BLOCK_LEN + 100] ^= 1; /* the third block: it cuts the last packet */
    given("third block bad", 0, 1);
    given_at_once("third block bad, at once", 0, 1);
    stream[2 * USBHS_BLOCK_LEN + 100] ^= 1;
    stream[100] ^= 1; /* the first block: it cuts the first packet */
    given("first block bad", 1, 2);
    given_at_once("first block bad, at once", 1, 2);
    stream[100] ^= 1;
    given("all again", 0, 2);
    given_at_once("all again, at once", 0, 2);
}

int main(void)
{
    channels();
    descriptors();
    visits();
    expect("crc", usbhs_data_crc((const uint8_t *)"123456789", 9), 0xB4C8);
    expect("crc of none", usbhs_data_crc(stream, 0), 0);
    written();
    read_back();
    if (!failed)
        printf("survey: passed\n");
    return failed;
}
