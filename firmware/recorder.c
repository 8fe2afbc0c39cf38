/* SPDX-License-Identifier: MIT OR Apache-2.0 */
#include "recorder.h"
#include "board.h"
#include "console.h"
#include "descriptors.h"
#include "usb.h"

/* A stamp record goes before a packet at least as often; and before each of so many packets after one was turned away:
 * those that were lost came behind the fifteen that waited then, and the stamps show the desk where. */
#define PACKETS_A_STAMP 64u
#define PACKETS_AFTER_LOSS 16u
/* A trace goes to the card when so many of its entries are new, and in records of so many. */
#define ENTRIES_TO_WRITE 256u
#define ENTRIES_A_RECORD 40u

static uint32_t recorder[USBHS_RECORDER_LEN], packets, overruns, since_stamp, after_loss;
static uint8_t room[USBHS_ROOM_LEN];
static int stopped;

/* Stores what the recorder asks for, in its order. A store that fails ends the recording: the card reads as if the
 * power had gone there. */
static void store_all(void)
{
    while (!stopped && recorder[USBHS_TO_STORE] != 0) {
        if (board_card_store(USBHS_STORE_PLACE(recorder), USBHS_STORE_BLOCK(recorder, room)))
            (void)usbhs_recorder_stored(recorder);
        else
            stopped = 1;
    }
}

void recorder_start(void)
{
    (void)usbhs_recorder_begin(recorder, room, sizeof room, board_survey_number());
    store_all();
}

uint32_t recorder_packets(void)
{
    return packets;
}

static int write(unsigned endpoint, const uint8_t *packet, unsigned length)
{
    uint64_t word;

    if (stopped)
        return 0;
    word = usbhs_record(recorder, room, sizeof room, endpoint, packet, length, overruns);
    store_all();
    return USBHS_KIND(word) != USBHS_REFUSED && !stopped;
}

/* The microframe of the packet that comes next, and what was lost so far: what the desk places samples by. */
static void write_stamp(uint16_t stamp)
{
    uint32_t survey = recorder[USBHS_SURVEY];
    uint8_t bytes[12] = {2, SAMPLES_OUT};

    for (unsigned i = 0; i < 4; i++) {
        bytes[2 + i] = (uint8_t)(survey >> 8 * i);
        bytes[8 + i] = (uint8_t)(overruns >> 8 * i);
    }
    bytes[6] = (uint8_t)stamp;
    bytes[7] = (uint8_t)(stamp >> 8);
    (void)write(USBHS_RECORDER, bytes, sizeof bytes);
    since_stamp = 0;
}

#ifdef USB_TRACE_ON_CARD

/* What the driver did since the last time, where there is so much of it: up to what there is now, as more is noted
 * while it is stored. */
static void write_trace(uint32_t least)
{
    static uint8_t record[6 + ENTRIES_A_RECORD * TRACE_ENTRY_LEN];
    static uint32_t from;
    uint32_t before, begin = from, new = usb_trace.count - from;
    unsigned length;

    if (new < least)
        return;
    while (from - begin < new) {
        before = interrupts_off();
        length = trace_record(record, sizeof record, recorder[USBHS_SURVEY], &from);
        interrupts_restore(before);
        if (!write(USBHS_RECORDER, record, length))
            return;
    }
}

#else

static void write_trace(uint32_t least)
{
    (void)least;
}

#endif

static void tell(uint16_t stamp, unsigned length)
{
    print("recorder: ");
    print_number(length);
    print(" bytes of microframe ");
    print_number(stamp);
    print("\n");
}

/* The packet goes to the card from its slot, where the chip does not write until it is closed. The interrupt is masked
 * for the open and for the close, not while the packet is read. */
void recorder_task(void)
{
    uint16_t stamp = 0;
    uint32_t lost;
    uint64_t word;

    for (;;) {
        USB_OPERATE(word, usbhs_open(usb_state, usb_slots, sizeof usb_slots, SAMPLES_OUT, &stamp));
        if (USBHS_KIND(word) != USBHS_SHOWN)
            return;
        tell(stamp, USBHS_LENGTH(word));
        lost = usbhs_overruns(usb_state, SAMPLES_OUT);
        if (lost != overruns)
            after_loss = PACKETS_AFTER_LOSS;
        if (packets == 0 || after_loss > 0 || since_stamp == PACKETS_A_STAMP) {
            overruns = lost;
            write_stamp(stamp);
        }
        if (after_loss > 0)
            after_loss--;
        if (write(SAMPLES_OUT, usb_slots + USBHS_OFFSET(word), USBHS_LENGTH(word))) {
            packets++;
            since_stamp++;
        }
        USB_OPERATE(word, usbhs_close(usb_state, SAMPLES_OUT));
        write_trace(ENTRIES_TO_WRITE);
    }
}

void recorder_finish(void)
{
    if (stopped)
        return;
    write_trace(1);
    overruns = usbhs_overruns(usb_state, SAMPLES_OUT);
    (void)usbhs_recorder_finish(recorder, room, sizeof room, overruns);
    store_all();
}
