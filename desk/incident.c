/* SPDX-License-Identifier: MIT OR Apache-2.0
 *
 * incident LIST [FOLDER]: the incident without Rust and without Rattle. The recorded list of calls goes through the
 * proved archives; the Rust's side is what the list recorded of it. Both exports go through the card, the flat-topped
 * samples are counted. Into the folder: both cards. desk/incident compiles it where there is no cargo; with cargo the
 * Rust itself runs. */
#include <stdint.h>
#include <stdio.h>
#include <stdlib.h>
#include <string.h>

#include "usbhs.h"
#include "usbhs_survey.h"

enum { SLOTS = 18 * 64, PACKETS = 128, LONGEST = 64, CARD = 32 * USBHS_BLOCK_LEN, LINE = 1024 };

struct side {
    const char *name;
    uint8_t packets[PACKETS][LONGEST], card[CARD];
    unsigned lengths[PACKETS], count, card_length, samples, flat;
};

static uint8_t state[USBHS_STATE_LEN] __attribute__((aligned(4)));
static uint8_t slots[SLOTS] __attribute__((aligned(4))), rust_slots[SLOTS];
static uint16_t bus_time[USBHS_TIME_LEN];
static struct side sent = {.name = "sent"}, rust = {.name = "the Rust exports"}, port = {.name = "the port exports"};
static unsigned places[PACKETS]; /* the slot of each packet that was sent */

static const char *const registers[] = {"int_fg", "int_st", "mis_st", "rx_len", "frame_no", "ctrl", "int_en", "dev_ad",
    "host_ctrl", "ep_config", "ep_type", "ep_buf_mod", "ep0_dma", "ep_max_len", "ep_t_len", "ep_rx_dma", "ep_tx_dma",
    "ep_rx_ctrl", "ep_tx_ctrl"};

static void fail(const char *what, const char *line)
{
    fprintf(stderr, "incident: %s: %s\n", what, line);
    exit(1);
}

/* BYTES of a list: two digits each; "c3a5*16" is 16 times these. */
static unsigned bytes(const char *text, uint8_t *to, unsigned room, const char *line)
{
    unsigned n = 0, times = 1, digit;
    const char *star = strchr(text, '*');
    const char *end = star ? star : text + strlen(text);
    for (; text + 1 < end && sscanf(text, "%2x", &digit) == 1; text += 2) {
        if (n == room)
            fail("too many bytes", line);
        to[n++] = (uint8_t)digit;
    }
    if (star)
        times = (unsigned)strtoul(star + 1, NULL, 0);
    if (n * times > room)
        fail("too many bytes", line);
    for (unsigned k = 1; k < times; k++)
        memcpy(to + k * n, to, n);
    return n * times;
}

static void keep(struct side *s, const uint8_t *data, unsigned length)
{
    if (s->count == PACKETS || length > LONGEST)
        fail("too many packets, or too long a packet", s->name);
    memcpy(s->packets[s->count], data, length);
    s->lengths[s->count++] = length;
}

/* An answer of the port in the list's words. */
static void told(uint64_t word, char *to, size_t room)
{
    unsigned reg = USBHS_REGISTER(word), own = reg >= USBHS_EP_MAX_LEN, n;
    uint8_t woken[USBHS_MOST_WAKES];
    switch (USBHS_KIND(word)) {
    case USBHS_REFUSED: snprintf(to, room, "refused %u", USBHS_ROW(word)); break;
    case USBHS_READ:
    case USBHS_WRITE:
        n = (unsigned)snprintf(to, room, "%c %s", USBHS_KIND(word) == USBHS_READ ? 'R' : 'W', registers[reg]);
        if (own)
            n += (unsigned)snprintf(to + n, room - n, " %u", USBHS_ENDPOINT(word));
        if (USBHS_KIND(word) == USBHS_WRITE)
            snprintf(to + n, room - n, " 0x%x", (unsigned)USBHS_VALUE(word));
        break;
    case USBHS_WAIT: snprintf(to, room, "wait %u", USBHS_MICROSECONDS(word)); break;
    case USBHS_END:
        n = (unsigned)snprintf(to, room, "end %u", USBHS_RESULT(word));
        for (uint32_t i = 0, k = USBHS_WAKES(word) ? usbhs_woken(state, woken) : 0; i < k; i++)
            n += woken[i] == USBHS_BUS ? (unsigned)snprintf(to + n, room - n, " bus")
                                       : (unsigned)snprintf(to + n, room - n, " %s%u", woken[i] < 16 ? "in" : "out",
                                             woken[i] % 16u);
        break;
    case USBHS_SHOWN:
        snprintf(to, room, "shown 0x%x %u", (unsigned)USBHS_OFFSET(word), USBHS_LENGTH(word));
        break;
    default: snprintf(to, room, "kind %u", USBHS_KIND(word));
    }
}

/* Makes a call of the list; answers the port's words. */
static uint64_t call(const char *line, char *answer, size_t room)
{
    static int asks; /* a reading is awaited */
    char name[32], a[32] = "", b[32] = "";
    unsigned n[5] = {0};
    uint64_t word;
    uint16_t stamp;
    if (sscanf(line, "%31s", name) != 1)
        fail("no call", line);
    if (!strcmp(name, "start_up") && sscanf(line, "%*s %u %u", &n[0], &n[1]) == 2 && n[0] * n[1] == SLOTS)
        word = usbhs_start_up(state, slots, SLOTS, bus_time, 0, n[0], n[1], 0);
    else if (!strcmp(name, "allocate") && sscanf(line, "%*s %31s %x %u %u %31s", a, &n[0], &n[1], &n[2], b) == 5)
        word = usbhs_allocate(state, !strcmp(a, "iso") ? USBHS_ISOCHRONOUS : USBHS_BULK, n[0], n[1], n[2],
            !strcmp(b, "in"));
    else if (!strcmp(name, "start") && sscanf(line, "%*s %u", &n[0]) == 1)
        word = usbhs_start(state, n[0]);
    else if (!strcmp(name, "bus_poll"))
        word = usbhs_begin_bus_poll(state);
    else if (!strcmp(name, "bus_enable"))
        word = usbhs_begin_bus_enable(state);
    else if (!strcmp(name, "set_enabled") && sscanf(line, "%*s %u %31s %31s", &n[0], a, b) == 3)
        word = usbhs_begin_set_enabled(state, slots, SLOTS, bus_time, 0, n[0], !strcmp(a, "in"), !strcmp(b, "on"));
    else if (!strcmp(name, "interrupt")) {
        /* the port asks for the frame first (request One); the list has no such reading */
        word = usbhs_begin_interrupt(state);
        if (!USBHS_ASKS(word, USBHS_FRAME_NO))
            fail("the interrupt does not begin with the frame", line);
        word = usbhs_continue(state, slots, SLOTS, bus_time, 0, 0);
    } else if (!strcmp(name, "continue")) {
        if (asks && sscanf(line, "%*s %x", &n[0]) != 1)
            fail("a reading is missing", line);
        word = usbhs_continue(state, slots, SLOTS, bus_time, 0, n[0]);
    } else if (!strcmp(name, "open") && sscanf(line, "%*s %u", &n[0]) == 1)
        word = usbhs_open(state, slots, SLOTS, n[0], &stamp);
    else if (!strcmp(name, "close") && sscanf(line, "%*s %u", &n[0]) == 1)
        word = usbhs_close(state, n[0]);
    else if (!strcmp(name, "overruns") && sscanf(line, "%*s %u", &n[0]) == 1) {
        snprintf(answer, room, "%u", (unsigned)usbhs_overruns(state, n[0]));
        return 0;
    } else {
        fail("a call that the incident does not have", line);
        return 0;
    }
    asks = USBHS_KIND(word) == USBHS_READ;
    told(word, answer, room);
    return word;
}

/* Packets to the card and back, and what is counted in them. */
static void exported(struct side *s)
{
    uint32_t writer[USBHS_WRITER_LEN], endpoint;
    uint8_t block[USBHS_BLOCK_LEN], room[1024];
    uint64_t word;
    usbhs_length place = 0;
    unsigned read = 0;
    usbhs_card_new(writer);
    for (unsigned k = 0; k <= s->count; k++)
        do {
            word = k < s->count ? usbhs_card_write(writer, block, sizeof block, 1, s->packets[k], s->lengths[k])
                                : usbhs_card_finish(writer, block, sizeof block);
            if (USBHS_KIND(word) == USBHS_REFUSED)
                fail("the card refuses a packet", s->name);
            if (USBHS_RESULT(word) & USBHS_BLOCK_FULL) {
                if (s->card_length == CARD)
                    fail("the card is full", s->name);
                memcpy(s->card + s->card_length, block, sizeof block);
                s->card_length += sizeof block;
            }
        } while (k < s->count && !(USBHS_RESULT(word) & USBHS_PACKET_WRITTEN));
    usbhs_card_start(s->card, s->card_length, &place);
    for (;; read++) {
        word = usbhs_card_next(s->card, s->card_length, &place, &endpoint, room, sizeof room);
        if (USBHS_KIND(word) != USBHS_DONE)
            break;
        for (unsigned i = 0; i + 1 < USBHS_LENGTH(word); i += 2) {
            unsigned sample = room[i] | (unsigned)room[i + 1] << 8;
            s->samples++;
            s->flat += sample == 0x7FFF || sample == 0x8000 || sample == 0x8001; /* full scale */
        }
    }
    if (read != s->count)
        fail("the card gives other packets back", s->name);
    printf("%-16s %8u %8u %12u\n", s->name, s->count, s->samples, s->flat);
}

static void put(const char *folder, const char *name, const struct side *s)
{
    char path[LINE];
    FILE *file;
    snprintf(path, sizeof path, "%s/%s", folder, name);
    file = fopen(path, "wb");
    if (!file || fwrite(s->card, 1, s->card_length, file) != s->card_length || fclose(file))
        fail("cannot write", path);
}

int main(int argc, char **argv)
{
    char line[LINE], text[LINE] = "", differs[LINE] = "";
    unsigned answers = 0, different = 0, at, length, packet = 0;
    FILE *list = argc > 1 ? fopen(argv[1], "r") : NULL;
    if (!list)
        fail("incident LIST [FOLDER]: cannot read", argc > 1 ? argv[1] : "no list");
    while (fgets(line, sizeof line, list)) {
        char answer[LINE], *recorded;
        line[strcspn(line, "\n")] = 0;
        if (line[0] == '#' || !line[0])
            continue;
        if (sscanf(line, " slots %x %1023s", &at, text) == 2) { /* bytes that the Rust's call changed */
            if (at < SLOTS)
                bytes(text, rust_slots + at, SLOTS - at, line);
            continue;
        }
        if (sscanf(line, "store %x %1023s", &at, text) == 2 && at < SLOTS) { /* the chip stores a packet */
            length = bytes(text, slots + at, SLOTS - at, line);
            memcpy(rust_slots + at, slots + at, length);
            places[sent.count % PACKETS] = at;
            keep(&sent, slots + at, length);
            continue;
        }
        recorded = strstr(line, " -> ");
        if (!recorded)
            fail("no answer", line);
        *recorded = 0;
        recorded += 4;
        answers++;
        uint64_t word = call(line, answer, sizeof answer);
        if (sscanf(recorded, "shown %x %u", &at, &length) == 2 && at + length <= SLOTS)
            keep(&rust, rust_slots + at, length);
        if (USBHS_KIND(word) == USBHS_SHOWN)
            keep(&port, slots + USBHS_OFFSET(word), USBHS_LENGTH(word));
        if (strcmp(answer, recorded)) {
            different++;
            packet = port.count - 1;
            snprintf(differs, sizeof differs, "  the Rust  %.40s -> %.80s\n  the port  %.40s -> %.80s\n", line,
                recorded, line, answer);
        }
    }
    fclose(list);

    printf("%-16s %8s %8s %12s\n", "", "packets", "samples", "flat-topped");
    exported(&sent);
    exported(&rust);
    exported(&port);
    printf("\nof %u answers %u differ%s\n%s", answers, different, different == 1 ? "s:" : "", differs);
    if (different == 1 && packet < sent.count) {
        unsigned own = sent.lengths[packet] / 2, before = packet;
        printf("packet %u has %u samples; the Rust shows %u more", packet, own, rust.lengths[packet] / 2 - own);
        while (before-- > 0 && places[before] != places[packet])
            ;
        if (before < packet)
            printf(", which packet %u left in the slot", before);
        printf("\n");
    }
    if (argc > 2) {
        put(argv[2], "rust.card", &rust);
        put(argv[2], "port.card", &port);
    }
    return 0;
}
