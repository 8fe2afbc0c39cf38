/* SPDX-License-Identifier: MIT OR Apache-2.0 */
/* A host that does not wait: tokens come when they are due, wherever the firmware is. In place of ../host.c, whose
 * tokens come while the firmware sleeps.
 *
 * Time is the firmware's: on the emulator its retired instructions, those of this model left out; elsewhere whatever
 * machine.h's instructions() counts (tests/hazards counts accesses). A microframe has MICROFRAME of them; tokens follow
 * each other after SHORTEST_GAP to LONGEST_GAP.
 *
 * It resets and enumerates the device over and over, turns the streams on, polls an isochronous IN and sends an
 * isochronous OUT in each microframe, and meanwhile reads the device descriptor and clears a halt, in turns. */
#include "../host.h"
#include <string.h>
#include "../../console.h"
#include "../../descriptors.h"
#include "../block.h"
#include "../machine.h"
#include "usbhs_survey.h"

#ifndef MICROFRAME /* 125 us at 144 MHz, of an instruction a cycle */
#define MICROFRAME 18000u
#define SHORTEST_GAP 60u /* 0.4 us: a NAKed IN */
#define LONGEST_GAP 250u /* 1.7 us: an OUT of 64 bytes */
#endif
#ifndef ENUMERATIONS
#define ENUMERATIONS 20u
#endif
#ifndef READS /* control transfers of each enumeration, with the streams on */
#define READS 25u
#endif
#ifndef OUT_FIRST /* of the two streams' tokens in a microframe */
#define OUT_FIRST 0
#endif

/* In microframes. The host gives up a transfer that is NAKed for so long. */
enum { RESET_RECOVERY = 80, ADDRESS_RECOVERY = 16, TIME_OUT = 400, DRAIN = 8 };

#define EP0_MAXIMUM 64u
#define MOST_TRIES 3u

static unsigned random_number(unsigned below)
{
    static uint32_t x = 2463534242u;

    x ^= x << 13;
    x ^= x >> 17;
    x ^= x << 5;
    return x % below;
}

/* ---- packets of samples: their number, then samples of 12 bits in 16; an even length, 8 to 64 */

static unsigned packets, unheard;

static unsigned packet(unsigned n, uint8_t bytes[64])
{
    uint32_t x = n * 2654435761u + 1u;

    for (unsigned i = 4; i < 64; i += 2) {
        x = x * 1664525u + 1013904223u;
        bytes[i] = (uint8_t)(x >> 16);
        bytes[i + 1] = (uint8_t)(x >> 24 & 15);
    }
    bytes[0] = (uint8_t)n;
    bytes[1] = (uint8_t)(n >> 8);
    bytes[2] = (uint8_t)(n >> 16);
    bytes[3] = 0;
    return 8 + n * 26 % 58;
}

/* ---- the transfers */

enum failure { DONE, NO_ANSWER, TIMED_OUT, STALLED, BABBLE, WRONG_DATA, FAILURES };

static unsigned enumerations, enumerations_failed, reads, reads_failed, failures[FAILURES], dropped;

/* What the host does, in this order; READ is done READS times, every second time a request without data. */
static enum {
    FIRST_RESET, FIRST_DESCRIPTOR, SECOND_RESET, SET_ADDRESS, DESCRIPTOR, CONFIGURATION_HEAD, CONFIGURATION,
    SET_CONFIGURATION, SET_INTERFACE, READ, STOP, FINISHED
} action;

static const uint8_t setups[][8] = {
    {0}, {0x80, 6, 0, 1, 0, 0, 64, 0}, {0}, {0x00, 5, 0, 0, 0, 0, 0, 0}, {0x80, 6, 0, 1, 0, 0, 18, 0},
    {0x80, 6, 0, 2, 0, 0, 9, 0}, {0x80, 6, 0, 2, 0, 0, 255, 0}, {0x00, 9, 1, 0, 0, 0, 0, 0},
    {0x01, 11, 1, 0, 0, 0, 0, 0}, {0x80, 6, 0, 1, 0, 0, 18, 0}
};

/* Every second time in place of the read: CLEAR_FEATURE of the stream's halt, which has none; no data stage. */
static const uint8_t clear_halt[8] = {0x02, 1, 0, 0, SAMPLES_OUT, 0, 0, 0};

static enum { SETUP, DATA, STATUS_OUT, STATUS_IN_STAGE } stage;
static uint8_t setup[8], answer[320];
static unsigned address, next_address, answered, due, tries, quiet, read_number, microframe = 16000, asked_since;
static int streaming, begins;
static uint32_t now, next_token, frame_began, begin_at;

/* Of two times, modulo 2^32. */
static int before(uint32_t one, uint32_t other)
{
    return (one - other) >> 31 != 0;
}

static int right(void)
{
    switch (action) {
    case READ:
        if (setup[0] == clear_halt[0])
            return answered == 0;
        /* fall through */
    case FIRST_DESCRIPTOR:
    case DESCRIPTOR:
        return answered == DESCRIPTOR_DEVICE_LEN && memcmp(answer, descriptor_device, answered) == 0;
    case CONFIGURATION_HEAD:
        return answered == 9 && memcmp(answer, descriptor_configuration, 9) == 0;
    case CONFIGURATION:
        return answered == DESCRIPTOR_CONFIGURATION_LEN && memcmp(answer, descriptor_configuration, answered) == 0;
    default:
        return answered == 0;
    }
}

static void begin(int next)
{
    action = next;
    stage = SETUP;
    tries = 0;
    memcpy(setup, action == READ && read_number % 2 == 1 ? clear_halt : setups[action < STOP ? action : 0], 8);
    if (action == SET_ADDRESS)
        setup[2] = (uint8_t)(next_address = next_address % 127 + 1);
    begins = 0;
}

static void next_enumeration(int failed)
{
    enumerations++;
    enumerations_failed += failed != 0;
    streaming = 0;
    begin(enumerations == ENUMERATIONS ? FINISHED : FIRST_RESET);
}

/* The transfer's end. An enumeration breaks off at a failure, reads go on. */
static void over(enum failure failure)
{
    if (failure == DONE && !right())
        failure = WRONG_DATA;
    failures[failure]++;
    if (action == READ) {
        reads++;
        reads_failed += failure != DONE;
        if (++read_number < READS) {
            begin(READ);
            return;
        }
        /* packets that were sent are to be read before the reset */
        streaming = 0;
        quiet = DRAIN;
        begin(STOP);
    } else if (failure != DONE) {
        next_enumeration(1);
    } else {
        if (action == SET_ADDRESS) {
            address = setup[2];
            quiet = ADDRESS_RECOVERY;
        }
        if (action == SET_INTERFACE) {
            streaming = 1;
            read_number = 0;
        }
        begin(action + 1);
    }
}

static void reset(void)
{
    address = 0;
    quiet = RESET_RECOVERY;
    begin(action + 1);
    block_reset();
}

/* ---- one transaction on EP0 */

/* An answer that is no ACK: tried again, or the transfer's end. */
static void not_acked(enum handshake handshake)
{
    if (handshake == HANDSHAKE_STALL) {
        over(STALLED);
    } else if (handshake == HANDSHAKE_NAK) {
        if (((microframe - asked_since) & 16383) > TIME_OUT)
            over(TIMED_OUT);
    } else if (++tries == MOST_TRIES) {
        over(NO_ANSWER);
    }
}

/* Before the next stage the host is busy with something else, one time in eight: for up to 3 ms, after an address for
 * less than the firmware's watch waits, as it then writes the address (firmware/watch.c). */
static void acked(void)
{
    tries = 0;
    asked_since = microframe;
    if (random_number(8) == 0)
        quiet = random_number(action == SET_ADDRESS ? 10 : 24);
}

static void setup_token(void)
{
    enum handshake handshake = block_setup(address, setup);

    if (handshake != HANDSHAKE_ACK) {
        not_acked(handshake);
        return;
    }
    acked();
    answered = 0;
    due = 1;
    stage = setup[0] & 0x80 ? DATA : STATUS_IN_STAGE;
}

/* Whether a packet came that is no repeat. */
static int in_token(unsigned *length)
{
    unsigned toggle;
    enum handshake handshake = block_in(address, 0, answer + answered, length, &toggle);

    if (handshake != HANDSHAKE_ACK) {
        not_acked(handshake);
        return 0;
    }
    acked();
    if (toggle != due) {
        dropped++;
        return 0;
    }
    due ^= 1;
    return 1;
}

static void data_token(void)
{
    unsigned asked = setup[6] | (unsigned)setup[7] << 8, length;

    if (!in_token(&length))
        return;
    answered += length;
    if (answered > asked)
        over(BABBLE);
    else if (length < EP0_MAXIMUM || answered == asked)
        stage = STATUS_OUT;
}

static void status_in_token(void)
{
    unsigned length;

    due = 1;
    if (in_token(&length))
        over(length > 0 ? BABBLE : DONE);
}

static void status_out_token(void)
{
    enum handshake handshake = block_out(address, 0, 1, answer, 0);

    if (handshake == HANDSHAKE_ACK)
        over(DONE);
    else
        not_acked(handshake);
}

/* Transfers begin anywhere in a microframe. */
static int too_early(void)
{
    if (!begins)
        begin_at = now + random_number(MICROFRAME);
    begins = 1;
    return before(now, begin_at);
}

/* Whether there was a token to make. */
static int control_token(void)
{
    if (action == FINISHED || quiet > 0 || (stage == SETUP && too_early()))
        return 0;
    if (action == STOP) {
        next_enumeration(0);
        return 0;
    }
    if (action == FIRST_RESET || action == SECOND_RESET) {
        reset();
        return 1;
    }
    switch (stage) {
    case SETUP: setup_token(); break;
    case DATA: data_token(); break;
    case STATUS_OUT: status_out_token(); break;
    default: status_in_token();
    }
    return 1;
}

/* ---- a microframe: the SOF, the two streams, then EP0 until its end */

static unsigned place;

static void start_of_frame(void)
{
    microframe = (microframe + 1) & 16383;
    if (quiet > 0)
        quiet--;
    block_sof(microframe);
}

static void stream_in(void)
{
    uint8_t room[64];
    unsigned length, toggle;

    block_in(address, STATUS_IN, room, &length, &toggle);
    dropped += toggle != 0;
}

static void stream_out(void)
{
    uint8_t bytes[64];
    unsigned length = packet(packets, bytes);

    if (block_out(address, SAMPLES_OUT, 0, bytes, length) == NOBODY)
        unheard++;
    else
        packets++;
}

static int at_place(void)
{
    switch (place) {
    case 0:
        start_of_frame();
        place = streaming ? 1 : 3;
        return 1;
    case 1:
    case 2:
        if ((place++ == 1) == OUT_FIRST)
            stream_out();
        else
            stream_in();
        return 1;
    default:
        return control_token();
    }
}

/* What is due now. `asleep`: time goes on to the next thing. */
static void go_on(int asleep)
{
    int made = 0;

    while (!made) {
        if (now - frame_began >= MICROFRAME) {
            frame_began += MICROFRAME;
            /* far behind: the microframes in between had nothing */
            if (now - frame_began >= MICROFRAME)
                frame_began = now;
            place = 0;
        } else if (place == 3 && now - frame_began + SHORTEST_GAP >= MICROFRAME) {
            next_token = frame_began + MICROFRAME; /* no token that would not be over by the SOF */
            if (!asleep)
                return;
            now = next_token;
            continue;
        }
        made = at_place();
        if (!made) {
            if (!asleep) {
                next_token = now + SHORTEST_GAP;
                return;
            }
            now += SHORTEST_GAP;
        }
    }
    next_token = now + SHORTEST_GAP + random_number(LONGEST_GAP - SHORTEST_GAP + 1);
    /* every other microframe has packets of other devices before the streams */
    if (place == 1 && (microframe & 1) != 0)
        next_token += random_number(MICROFRAME / 4);
}

/* ---- time */

static int inside; /* the model's own accesses take no time */
static uint32_t left_at;

static void enter(void)
{
    inside = 1;
    now += instructions() - left_at;
}

static void leave(void)
{
    inside = 0;
    left_at = instructions();
}

void host_access(void)
{
    if (inside || !block_attached())
        return;
    enter();
    while (!before(now, next_token) && action != FINISHED)
        go_on(0);
    leave();
}

int host_step(void)
{
    if (action == FINISHED)
        return 0;
    if (inside || !block_attached())
        return 1;
    enter();
    if (before(now, next_token))
        now = next_token;
    go_on(1);
    leave();
    return 1;
}

unsigned host_card_busy(void)
{
    return 0;
}

/* ---- the end */

static unsigned number_of(const uint8_t *bytes)
{
    return bytes[0] | (unsigned)bytes[1] << 8 | (unsigned)bytes[2] << 16;
}

static void tell(unsigned n, const char *words)
{
    print_number(n);
    print(words);
}

/* Packets are numbered as they were sent: one that is not there was lost, one whose bytes are not its own is of two. */
int host_check(const unsigned char *card, unsigned length, unsigned overruns)
{
    usbhs_length place_on_card;
    uint32_t endpoint;
    uint8_t room[64], own[64];
    unsigned given = 0, mixed = 0, next = 0, lost = 0, n;
    uint64_t word = usbhs_card_start(card, length, &place_on_card);

    if (USBHS_KIND(word) == USBHS_END)
        for (;;) {
            word = usbhs_card_next(card, length, &place_on_card, &endpoint, room, sizeof room);
            if (USBHS_KIND(word) != USBHS_DONE)
                break;
            if (endpoint != SAMPLES_OUT)
                continue;
            given++;
            n = number_of(room);
            if (packet(n, own) != USBHS_LENGTH(word) || memcmp(own, room, USBHS_LENGTH(word)) != 0)
                mixed++;
            else if (n < next)
                mixed++;
            else
                lost += n - next;
            next = n + 1;
        }
    lost += packets - next;
    print("restless: ");
    tell(enumerations, " enumerations, ");
    tell(enumerations_failed, " failed; ");
    tell(reads, " control transfers while streams are on, ");
    tell(reads_failed, " failed; failures: no answer ");
    tell(failures[NO_ANSWER], ", timed out ");
    tell(failures[TIMED_OUT], ", stalled ");
    tell(failures[STALLED], ", babble ");
    tell(failures[BABBLE], ", wrong data ");
    tell(failures[WRONG_DATA], "\nrestless: packets lost ");
    tell(lost, ", mixed ");
    tell(mixed, ", overruns ");
    tell(overruns, ", dropped for their PID ");
    tell(dropped, "\n");
#ifdef TELL_COUNTS /* these depend on how long the firmware takes */
    print("restless: packets sent ");
    tell(packets, ", on the card ");
    tell(given, ", to nobody ");
    tell(unheard, "\n");
#endif
    (void)given;
    return enumerations_failed != 0 || reads_failed != 0 || lost != 0 || mixed != 0 || packets < READS;
}
