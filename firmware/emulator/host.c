/* SPDX-License-Identifier: MIT OR Apache-2.0 */
#include "host.h"
#include <string.h>
#include "../console.h"
#include "../descriptors.h"
#include "block.h"
#include "usbhs_survey.h"

#define EP0_MAXIMUM 64u
#define MOST_PACKETS 256u
#define MOST_NAKS 100u

/* ---- packets of samples: the number in the first two bytes, then a pattern; 8 to 64 bytes */

static struct {
    uint8_t bytes[64];
    unsigned length;
} sent[MOST_PACKETS];
static unsigned packets, unheard;

static unsigned next_packet(void)
{
    unsigned n = packets++, length = 8 + n * 13 % 57;

    for (unsigned i = 0; i < length; i++)
        sent[n].bytes[i] = (uint8_t)(i * 5 + n);
    sent[n].bytes[0] = (uint8_t)n;
    sent[n].bytes[1] = (uint8_t)(n >> 8);
    sent[n].length = length;
    return n;
}

/* ---- control transfers */

static unsigned address, naks, due, dropped;
static enum { SETUP, DATA, STATUS_OUT, STATUS_IN_STAGE } stage;
static uint8_t answer[256];
static unsigned answered;

static void tell_bytes(const uint8_t *bytes, unsigned length)
{
    for (unsigned i = 0; i < length; i++) {
        print(" ");
        print_hex(bytes[i], 2);
    }
    print("\n");
}

/* Whether the transaction is over; a NAK is tried again with the next step. */
static int over(enum handshake handshake)
{
    if (handshake == HANDSHAKE_NAK && ++naks < MOST_NAKS)
        return 0;
    naks = 0;
    return 1;
}

/* The transfer's end, in words: 1. */
static int ended(enum handshake handshake)
{
    static const char *const words[] = {"host: done", "host: NAKed too often", "host: stalled", "host: no answer"};

    print(words[handshake]);
    if (handshake == HANDSHAKE_ACK && answered > 0) {
        print(", bytes");
        tell_bytes(answer, answered);
    } else {
        print("\n");
    }
    stage = SETUP;
    return 1;
}

/* Whether the packet has the PID that is due. Else it repeats one that the host has: acknowledged and dropped (USB 2.0,
 * 8.6.4). The next is then due all the same. */
static int is_due(unsigned toggle)
{
    if (toggle == due) {
        due ^= 1;
        return 1;
    }
    dropped++;
    print(due ? "host: DATA0 where DATA1 was due, dropped\n" : "host: DATA1 where DATA0 was due, dropped\n");
    return 0;
}

static void begin(const uint8_t setup[8])
{
    enum handshake handshake;

    print("host: to ");
    print_number(address);
    print(" setup");
    tell_bytes(setup, 8);
    answered = 0;
    due = 1;
    handshake = block_setup(address, setup);
    if (handshake != HANDSHAKE_ACK)
        ended(handshake);
    else
        stage = setup[0] & 0x80 ? DATA : STATUS_IN_STAGE;
}

/* A data packet IN; whether the whole transfer is over. */
static int data(unsigned asked)
{
    unsigned length, toggle;
    enum handshake handshake = block_in(address, 0, answer + answered, &length, &toggle);

    if (!over(handshake))
        return 0;
    if (handshake != HANDSHAKE_ACK)
        return ended(handshake);
    if (!is_due(toggle))
        return 0;
    answered += length;
    if (length < EP0_MAXIMUM || answered >= asked)
        stage = STATUS_OUT;
    return 0;
}

/* One transaction of a transfer; whether it is over. */
static int control(const uint8_t setup[8])
{
    enum handshake handshake;
    unsigned length, toggle;

    switch (stage) {
    case SETUP:
        begin(setup);
        return 0;
    case DATA:
        return data(setup[6] | (unsigned)setup[7] << 8);
    case STATUS_OUT:
        handshake = block_out(address, 0, 1, answer, 0);
        break;
    default:
        due = 1;
        handshake = block_in(address, 0, answer, &length, &toggle);
        if (handshake == HANDSHAKE_ACK && !is_due(toggle))
            return 0;
    }
    if (!over(handshake))
        return 0;
    /* USB 2.0, 9.4.6: the new address counts from here */
    if (handshake == HANDSHAKE_ACK && setup[0] == 0 && setup[1] == 5)
        address = setup[2];
    return ended(handshake);
}

/* ---- microframes, each in some steps */

static unsigned microframe = 16380;

static void start_of_frame(void)
{
    microframe = (microframe + 1) & 16383;
    block_sof(microframe);
}

static void send_samples(void)
{
    unsigned n = next_packet();

    if (block_out(address, SAMPLES_OUT, 0, sent[n].bytes, sent[n].length) == NOBODY)
        unheard++;
}

static void fetch_status(void)
{
    uint32_t numbers[16];
    unsigned length, toggle;

    if (block_in(address, STATUS_IN, (uint8_t *)numbers, &length, &toggle) != NOBODY && toggle != 0) {
        dropped++; /* one packet a microframe: DATA0 (5.9.2) */
        print("host: DATA1 of a stream, dropped\n");
        return;
    }
    if (length != 8)
        return;
    print("host: told ");
    print_number(numbers[0]);
    print(" recorded, ");
    print_number(numbers[1]);
    print(" lost\n");
}

/* Its own interrupt for each token. */
static int on_time(unsigned part)
{
    switch (part) {
    case 0: start_of_frame(); return 0;
    case 1: fetch_status(); return 0;
    default: send_samples(); return 1;
    }
}

/* The firmware comes late: it sees the IN, and the samples only by the marks in their slot. */
static int late(unsigned part)
{
    if (part == 0) {
        start_of_frame();
        return 0;
    }
    send_samples();
    fetch_status();
    return 1;
}

/* Later still: the SOF's interrupt finds the samples on the bus. */
static int later(unsigned part)
{
    unsigned n;

    (void)part;
    start_of_frame();
    n = next_packet();
    block_out_slow(SAMPLES_OUT, sent[n].bytes, sent[n].length, 3);
    return 1;
}

/* ---- the script */

enum kind { RESET, SUSPEND, RESUME, CONTROL, MICROFRAMES };

struct step {
    enum kind kind;
    const char *words;
    uint8_t setup[8];
    int (*one)(unsigned part);
    unsigned times;
    /* how many of the host's steps the card takes for the first block that it is given meanwhile */
    unsigned card_busy;
    /* a SOF after so many accesses of the firmware's, wherever they fall; 0: none */
    unsigned sof_every;
};

#define SIMPLE(kind, words) {kind, words, {0}, 0, 0, 0, 0}
#define REQUEST(words, sof_every, ...) {CONTROL, words, {__VA_ARGS__}, 0, 0, 0, sof_every}
#define STREAM(words, one, times, card_busy) {MICROFRAMES, words, {0}, one, times, card_busy, 0}

#define ENUMERATION(address)                                                               \
    REQUEST("set address", 0, 0x00, 5, address, 0, 0, 0, 0, 0),                            \
    REQUEST("get the device descriptor", 0, 0x80, 6, 0, 1, 0, 0, 18, 0),                   \
    REQUEST("get the configuration's first 9 bytes", 0, 0x80, 6, 0, 2, 0, 0, 9, 0),        \
    REQUEST("get the configuration descriptor", 0, 0x80, 6, 0, 2, 0, 0, 255, 0),           \
    REQUEST("set configuration 1", 0, 0x00, 9, 1, 0, 0, 0, 0, 0),                          \
    REQUEST("select alternate setting 1", 0, 0x01, 11, 1, 0, 0, 0, 0, 0)

static const struct step script[] = {
    SIMPLE(RESET, "bus reset"),
    REQUEST("get the device descriptor", 0, 0x80, 6, 0, 1, 0, 0, 64, 0),
    SIMPLE(RESET, "bus reset"),
    ENUMERATION(5),
    REQUEST("get the product's name: a whole packet", 0, 0x80, 6, 2, 3, 9, 4, 255, 0),
    REQUEST("get a string that there is not", 0, 0x80, 6, 9, 3, 9, 4, 255, 0),
    STREAM("samples on time", on_time, 12, 0),
    STREAM("samples seen late", late, 6, 0),
    STREAM("samples on the bus at the SOF's interrupt", later, 6, 0),
    STREAM("samples while the card is busy", on_time, 30, 60),
    REQUEST("get the configuration descriptor while SOFs come", 13, 0x80, 6, 0, 2, 0, 0, 255, 0),
    REQUEST("select alternate setting 0 while SOFs come", 13, 0x01, 11, 0, 0, 0, 0, 0, 0),
    REQUEST("select alternate setting 1 while SOFs come", 13, 0x01, 11, 1, 0, 0, 0, 0, 0),
    SIMPLE(SUSPEND, "suspend"),
    SIMPLE(RESUME, "resume"),
    REQUEST("get the device's status", 0, 0x80, 0, 0, 0, 0, 0, 2, 0),
    STREAM("samples on time", on_time, 4, 0),
    SIMPLE(RESET, "bus reset in the midst of the stream"),
    STREAM("samples to nobody", on_time, 2, 0),
    ENUMERATION(6),
    STREAM("samples on time", on_time, 6, 0),
};
#define STEPS (sizeof script / sizeof script[0])

static unsigned at, part, done, was_busy, accesses, frames_between;

void host_access(void)
{
    unsigned every = at < STEPS ? script[at].sof_every : 0;

    if (every == 0 || ++accesses % every != 0)
        return;
    frames_between++;
    start_of_frame();
}

unsigned host_card_busy(void)
{
    if (at == STEPS || was_busy)
        return 0;
    was_busy = 1;
    return script[at].card_busy;
}

static void next_step(void)
{
    at++;
    part = done = was_busy = 0;
}

static void microframes(const struct step *s)
{
    if (!s->one(part++))
        return;
    part = 0;
    if (++done == s->times)
        next_step();
}

int host_step(void)
{
    const struct step *s = &script[at];

    if (!block_attached())
        return 1;
    if (at == STEPS)
        return 0;
    if (part == 0 && done == 0 && (s->kind != CONTROL || stage == SETUP)) {
        print("host: ");
        print(s->words);
        print("\n");
    }
    switch (s->kind) {
    case RESET:
        address = 0;
        block_reset();
        next_step();
        break;
    case SUSPEND:
    case RESUME:
        block_suspend(s->kind == SUSPEND);
        next_step();
        break;
    case CONTROL:
        if (control(s->setup))
            next_step();
        break;
    default:
        microframes(s);
    }
    return 1;
}

/* ---- the card */

int host_check(const unsigned char *card, unsigned length, unsigned overruns)
{
    usbhs_length place;
    uint32_t endpoint;
    static uint8_t room[1024];
    uint64_t word = usbhs_card_start(card, length, &place);
    unsigned n, given = 0, last = 0, ends = 0, wrong = USBHS_KIND(word) != USBHS_END;

    for (;;) {
        word = usbhs_card_next(card, length, &place, &endpoint, room, sizeof room);
        if (USBHS_KIND(word) != USBHS_DONE)
            break;
        if (endpoint == USBHS_RECORDER) { /* the recorder's own: the end is the last */
            ends = USBHS_LENGTH(word) == 10 && room[0] == 3;
            continue;
        }
        ends = 0;
        given++;
        n = room[0] | (unsigned)room[1] << 8;
        if ((given > 1 && n <= last) || n >= packets || sent[n].length != USBHS_LENGTH(word) ||
            memcmp(sent[n].bytes, room, sent[n].length) != 0)
            wrong++;
        last = n;
    }
    print("host: ");
    print_number(packets);
    print(" packets sent; on the card ");
    print_number(given);
    print(", ");
    print_number(wrong);
    print(" of them wrong; ");
    print_number(overruns);
    print(" overruns, ");
    print_number(unheard);
    print(" sent to nobody\nhost: ");
    print_number(frames_between);
    print(" SOFs between the firmware's accesses; ");
    print_number(dropped);
    print(" packets with the wrong PID\n");
    return wrong != 0 || !ends || dropped != 0 || given + overruns + unheard != packets;
}
