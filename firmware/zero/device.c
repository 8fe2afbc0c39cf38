/* SPDX-License-Identifier: MIT OR Apache-2.0 */
/* A device of all transfer types, to copy from: what the host sends is taken and looked at (sinks), what it fetches is
 * a pattern (sources); or each packet that it sends on bulk or interrupt OUT comes back on IN (a loop). On EP0 it
 * stores up to 4,096 bytes and gives them back. It is what Linux's gadget zero is, so that usbtest can try it. */
#include "../device.h"
#include <string.h>
#include "../console.h"
#include "../control.h"
#include "../tasks.h"
#include "../usb.h"

/* Byte i of every packet is i % 63. */
static uint8_t pattern[BULK_MAXIMUM];

static struct {
    unsigned out, in, streamed, wrong;
} counts;

static unsigned looping;

void device_start(void)
{
    for (unsigned i = 0; i < sizeof pattern; i++)
        pattern[i] = (uint8_t)(i % 63);
}

/* The host sends the pattern or zeros. */
static void look(const uint8_t *bytes, unsigned length)
{
    unsigned nonzero = 0;

    for (unsigned i = 0; i < length; i++)
        nonzero += bytes[i] != 0;
    if (nonzero > 0 && memcmp(bytes, pattern, length) != 0)
        counts.wrong++;
}

/* ---- bulk and interrupt: a read and a write are begun, then polled whenever the endpoint's task is woken */

static struct pipe {
    int reading, writing;
    uint8_t packet[BULK_MAXIMUM]; /* the last one that was read */
    const uint8_t *written;       /* the one that goes out: a poll brings it again */
    unsigned length;
} pipes[INTERRUPT + 1];

static unsigned maximum(unsigned endpoint)
{
    return endpoint == BULK ? BULK_MAXIMUM : INTERRUPT_MAXIMUM;
}

static void begin_read(unsigned endpoint)
{
    uint64_t word;

    USB_OPERATE(word, usbhs_begin_read(usb_state, endpoint, maximum(endpoint)));
    pipes[endpoint].reading = USBHS_KIND(word) != USBHS_REFUSED;
}

static void begin_write(unsigned endpoint, const uint8_t *bytes, unsigned length)
{
    struct pipe *p = &pipes[endpoint];
    uint64_t word;

    USB_OPERATE(word, usbhs_begin_write(usb_state, usb_slots, sizeof usb_slots, endpoint, bytes, length));
    p->writing = USBHS_KIND(word) != USBHS_REFUSED;
    p->written = bytes;
    p->length = length;
}

/* Packets that have come. In a loop the next is read when this one has gone back. */
static void poll_read(unsigned endpoint)
{
    struct pipe *p = &pipes[endpoint];
    uint64_t word;

    while (p->reading) {
        USB_OPERATE(word, usbhs_poll_read(usb_state, usb_slots, sizeof usb_slots, endpoint, p->packet,
                                          maximum(endpoint)));
        if (USBHS_KIND(word) == USBHS_NOT_YET)
            return;
        p->reading = 0;
        if (USBHS_KIND(word) == USBHS_REFUSED) /* disabled: the host's next setting begins anew */
            return;
        counts.out++;
        if (looping) {
            begin_write(endpoint, p->packet, USBHS_LENGTH(word));
        } else {
            look(p->packet, USBHS_LENGTH(word));
            begin_read(endpoint);
        }
    }
}

/* Packets that have gone. */
static void poll_write(unsigned endpoint)
{
    struct pipe *p = &pipes[endpoint];
    uint64_t word;

    while (p->writing) {
        USB_OPERATE(word, usbhs_poll_write(usb_state, usb_slots, sizeof usb_slots, endpoint, p->written, p->length));
        if (USBHS_KIND(word) == USBHS_NOT_YET)
            return;
        p->writing = 0;
        if (USBHS_KIND(word) == USBHS_REFUSED)
            return;
        counts.in++;
        if (looping)
            begin_read(endpoint);
        else
            begin_write(endpoint, pattern, maximum(endpoint));
    }
}

/* ---- isochronous: packets are opened where they lie, and queued by the callback */

static void take_stream(void)
{
    uint16_t stamp = 0;
    uint64_t word;

    for (;;) {
        USB_OPERATE(word, usbhs_open(usb_state, usb_slots, sizeof usb_slots, STREAM, &stamp));
        if (USBHS_KIND(word) != USBHS_SHOWN)
            return;
        counts.streamed++;
        look(usb_slots + USBHS_OFFSET(word), USBHS_LENGTH(word));
        USB_OPERATE(word, usbhs_close(usb_state, STREAM));
    }
}

void usb_start_of_frame(void)
{
    (void)usbhs_queue(usb_state, usb_slots, sizeof usb_slots, STREAM, pattern, STREAM_MAXIMUM);
}

void device_task(unsigned task)
{
    switch (task) {
    case TASK_OUT(BULK):
    case TASK_OUT(INTERRUPT):
        poll_read(task - TASK_OUT(0));
        break;
    case TASK_IN(BULK):
    case TASK_IN(INTERRUPT):
        poll_write(task - TASK_IN(0));
        break;
    case TASK_OUT(STREAM):
        take_stream();
        break;
    default: /* the stream IN is fed by the callback */
        break;
    }
}

/* ---- what the host selects */

void device_suspended(void)
{
}

void device_reset(void)
{
    for (unsigned endpoint = 1; endpoint <= INTERRUPT; endpoint++)
        pipes[endpoint].reading = pipes[endpoint].writing = 0;
}

static void begin(unsigned endpoint)
{
    begin_read(endpoint);
    if (!looping)
        begin_write(endpoint, pattern, maximum(endpoint));
}

void device_selected(unsigned interface, unsigned alternate)
{
    (void)interface;
    device_reset();
    begin(BULK);
    if (alternate == 1)
        begin(INTERRUPT);
}

/* A packet may have come or gone before the halt. */
void device_resumed(unsigned endpoint, unsigned dir)
{
    device_task(dir == USBHS_IN ? TASK_IN(endpoint) : TASK_OUT(endpoint));
}

/* ---- requests of its own */

#define STORE 0x5B /* bRequest: data OUT, kept */
#define FETCH 0x5C /* data IN: what was kept */
#define LOOP 0x60  /* wValue 1 or 0: the loop, from the next alternate setting that is selected on */
#define TO_DEVICE 0x40
#define FROM_DEVICE 0xC0

void device_request(const uint8_t setup[8])
{
    static uint8_t kept[4096];
    unsigned length = setup[6] | (unsigned)setup[7] << 8;

    if (setup[0] == TO_DEVICE && setup[1] == STORE && length > 0 && length <= sizeof kept) {
        control_receive(kept, length);
    } else if (setup[0] == FROM_DEVICE && setup[1] == FETCH && length <= sizeof kept) {
        control_answer(kept, sizeof kept, length);
    } else if (setup[0] == TO_DEVICE && setup[1] == LOOP && length == 0) {
        looping = setup[2];
        control_accept();
    } else {
        control_reject();
    }
}

void device_finish(void)
{
    print("device: ");
    print_number(counts.out);
    print(" packets OUT, ");
    print_number(counts.in);
    print(" IN, ");
    print_number(counts.streamed);
    print(" of the stream, ");
    print_number(counts.wrong);
    print(" wrong, ");
    print_number(usbhs_overruns(usb_state, STREAM));
    print(" overruns\n");
}
