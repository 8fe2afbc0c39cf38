/* SPDX-License-Identifier: MIT OR Apache-2.0 */
#include "watch.h"
#include "board.h"
#include "control.h"
#include "usb.h"

/* In microframes of 125 us. The host may use a new address 2 ms after its status stage (USB 2.0, 9.2.6.3). */
#define PATIENCE 8u
#define ADDRESS_PATIENCE 12u

/* Begun again so often and no more: whoever has not asked for 50 ms does not wait. */
#define MOST_TIMES 50u

static enum { NOTHING, PACKET, ADDRESS, STATUS } watched;
static const uint8_t *bytes;
static unsigned count, since, times;
static int is_last;

static unsigned microframe(void)
{
    uint32_t frame = register_read(USBHS_FRAME_NO, 0);

    return (frame & 0x7FF) << 3 | frame >> 13;
}

static void begin(int what)
{
    watched = what;
    since = microframe();
    times = 0;
}

void watch_packet(const uint8_t *packet, unsigned length, int first, int last)
{
    bytes = packet;
    count = length;
    is_last = last;
    begin(first ? PACKET : NOTHING);
}

void watch_address(void)
{
    begin(ADDRESS);
}

void watch_status(void)
{
    begin(STATUS);
}

void watch_nothing(void)
{
    watched = NOTHING;
}

/* Refused where a setup packet waits: EP0's task was woken then, and ends the stage. */
static void again(void)
{
    uint64_t word;

    if (watched == PACKET) {
        USB_OPERATE(word, usbhs_begin_data_in(usb_state, usb_slots, sizeof usb_slots, bytes, count, 1,
                                              (uint32_t)is_last));
        (void)word;
    } else if (watched == ADDRESS) {
        /* ends the stage; the poll then hands out the write of the address */
        USB_OPERATE(word, usbhs_begin_set_stalled(usb_state, 0, USBHS_IN, 0));
        (void)word;
        control_task();
    } else {
        /* once: if it is NAKed again, it seems to be over again */
        watched = NOTHING;
        control_accept();
    }
}

int watch_look(void)
{
    unsigned now;

    if (watched == NOTHING)
        return 0;
    now = microframe();
    if (((now - since) & 16383) < (watched == ADDRESS ? ADDRESS_PATIENCE : PATIENCE))
        return 1;
    since = now;
    if (++times > MOST_TIMES)
        watched = NOTHING;
    else
        again();
    return watched != NOTHING;
}
