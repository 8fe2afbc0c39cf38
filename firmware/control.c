/* SPDX-License-Identifier: MIT OR Apache-2.0 */
#include "control.h"
#include "chapter9.h"
#include "console.h"
#include "sof.h"
#include "usb.h"
#include "watch.h"

#define EP0_MAXIMUM 64u

/* Which poll comes next. */
static enum { SETUP, DATA_IN, DATA_OUT, STATUS } stage;

/* A data stage IN: what is left of it, and whether an empty packet ends it. */
static const uint8_t *data;
static unsigned left;
static int empty_last;

/* A data stage OUT: where its next packet goes, and how much is still to come. */
static uint8_t *room;
static unsigned awaited;

void control_restart(void)
{
    uint64_t word;

    stage = SETUP;
    watch_nothing();
    USB_OPERATE(word, usbhs_begin_setup(usb_state));
    (void)word;
    sof_transfer(0);
}

/* A begin that was refused (9: the host has sent a new setup packet) ends the transfer. */
static void begun(uint64_t word, int next)
{
    if (USBHS_KIND(word) == USBHS_REFUSED)
        control_restart();
    else
        stage = next;
}

static unsigned packet(unsigned length)
{
    return length < EP0_MAXIMUM ? length : EP0_MAXIMUM;
}

static void send(int first)
{
    unsigned length = packet(left);
    int last = length == left && !(empty_last && length == EP0_MAXIMUM);
    uint64_t word;

    USB_OPERATE(word, usbhs_begin_data_in(usb_state, usb_slots, sizeof usb_slots, data, length, (uint32_t)first,
                                          (uint32_t)last));
    watch_packet(data, length, first, last);
    data += length;
    left -= length;
    if (last)
        empty_last = 0;
    begun(word, DATA_IN);
}

static void receive(int first)
{
    uint64_t word;

    USB_OPERATE(word, usbhs_begin_data_out(usb_state, packet(awaited), (uint32_t)first));
    begun(word, DATA_OUT);
}

/* An answer that is shorter than what was asked and whole packets long is ended by an empty packet. Where nothing is
 * asked there is no data stage. */
void control_answer(const uint8_t *bytes, unsigned length, unsigned asked)
{
    if (asked == 0) {
        control_accept();
        return;
    }
    data = bytes;
    left = length < asked ? length : asked;
    empty_last = left < asked && left % EP0_MAXIMUM == 0;
    send(1);
}

void control_receive(uint8_t *to, unsigned length)
{
    room = to;
    awaited = length;
    receive(1);
}

void control_accept(void)
{
    uint64_t word;

    USB_OPERATE(word, usbhs_begin_accept(usb_state));
    begun(word, STATUS);
}

void control_accept_address(unsigned address)
{
    uint64_t word;

    USB_OPERATE(word, usbhs_begin_accept_set_address(usb_state, address));
    watch_address();
    begun(word, STATUS);
}

void control_reject(void)
{
    uint64_t word;

    USB_OPERATE(word, usbhs_begin_reject(usb_state));
    (void)word;
    print("control: rejected\n");
    control_restart();
}

/* Each of these polls says whether the host has come further. */

static int poll_setup(void)
{
    uint8_t setup[8];
    uint64_t word;

    USB_OPERATE(word, usbhs_poll_setup(usb_state, setup));
    if (USBHS_KIND(word) != USBHS_DONE)
        return 0;
    watch_nothing(); /* whatever it waited for, the host has gone on */
    sof_transfer(1);
    chapter9_serve(setup);
    return 1;
}

/* Not yet, or the transfer is over: the last packet has gone, or the host has broken it off. */
static int over(uint64_t word)
{
    if (USBHS_KIND(word) == USBHS_NOT_YET)
        return 0;
    control_restart();
    return 1;
}

static int poll_data_in(void)
{
    uint64_t word;

    USB_OPERATE(word, usbhs_poll_data_in(usb_state));
    if (USBHS_KIND(word) != USBHS_DONE || (left == 0 && !empty_last))
        return over(word);
    send(0);
    return 1;
}

static int poll_data_out(void)
{
    uint64_t word;

    USB_OPERATE(word, usbhs_poll_data_out(usb_state, usb_slots, sizeof usb_slots, room, packet(awaited)));
    if (USBHS_KIND(word) != USBHS_DONE)
        return over(word);
    room += USBHS_LENGTH(word);
    awaited -= USBHS_LENGTH(word);
    if (awaited > 0)
        receive(0);
    else
        control_accept();
    return 1;
}

/* After an address its write is handed out here. */
static int poll_status(void)
{
    uint64_t word;

    USB_OPERATE(word, usbhs_poll_accept(usb_state));
    if (!over(word))
        return 0;
    if (USBHS_KIND(word) == USBHS_DONE && sof_is_on())
        watch_status();
    return 1;
}

static int poll(void)
{
    switch (stage) {
    case SETUP: return poll_setup();
    case DATA_IN: return poll_data_in();
    case DATA_OUT: return poll_data_out();
    default: return poll_status();
    }
}

void control_task(void)
{
    while (poll())
        ;
}
