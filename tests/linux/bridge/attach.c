/* SPDX-License-Identifier: MIT OR Apache-2.0 */
/* The device is enumerated here first, as by a host that redirects it; then the guest is told of it. */
#include "bridge.h"
#include <stdlib.h>
#include <string.h>

struct attached attached;
unsigned next_address = 1, self_left;
static unsigned self_failed;

/* Which answer is awaited. */
static enum { DONE, FIRST_LOOK, ADDRESSED, DEVICE, CONFIGURATION_HEAD, CONFIGURATION, STATES } at;

#define DEVICE_DESCRIPTOR 0x0100
#define CONFIGURATION_DESCRIPTOR 0x0200

static void get_descriptor(unsigned which, unsigned length)
{
    push_standard(OWN, 0, 0x80, 6, which, 0, length);
}

/* Requests that Linux never sends: to a device that has an address and no configuration (USB 2.0, 9.4). */
#define STALL (-1)
static const struct {
    unsigned type, request, value, index, length;
    int answer;
} states[] = {
    {0x80, 8, 0, 0, 1, 1},               /* GET_CONFIGURATION: 0 */
    {0x80, 0, 0, 0, 2, 2},               /* GET_STATUS of the device */
    {0x82, 0, 0, 0x00, 2, 2},            /* of EP0 */
    {0x82, 0, 0, 0x01, 2, STALL},        /* of an endpoint that is not there yet */
    {0x81, 0, 0, 0, 2, STALL},           /* of an interface */
    {0x81, 10, 0, 0, 1, STALL},          /* GET_INTERFACE */
    {0x01, 11, 1, 0, 0, STALL},          /* SET_INTERFACE */
    {0x02, 1, 0, 0x01, 0, STALL},        /* CLEAR_FEATURE of such an endpoint */
    {0x02, 3, 0, 0x00, 0, STALL},        /* SET_FEATURE halt of EP0 */
    {0x00, 3, 2, 0x0100, 0, STALL},      /* SET_FEATURE test mode */
    {0x00, 5, 200, 0, 0, STALL},         /* SET_ADDRESS 200 */
    {0x00, 9, 2, 0, 0, STALL},           /* SET_CONFIGURATION 2 */
    {0x82, 12, 0, 0x01, 2, STALL},       /* SYNCH_FRAME */
    {0x80, 6, 0x0100, 0, 18, 18},        /* and the device goes on */
};
#define STATE_COUNT (sizeof states / sizeof states[0])
static unsigned state;

static void ask_state(void)
{
    push_standard(OWN, 0, states[state].type, states[state].request, states[state].value, states[state].index,
                  states[state].length);
}

/* Whether there is another one to ask. */
static int next_state(int status)
{
    int due = states[state].answer;

    if (due == STALL ? status != usb_redir_stall : status != usb_redir_success || (int)transfer.moved != due)
        tell("request %u without a configuration: another answer was due", state);
    return ++state < STATE_COUNT;
}

int attaching(void)
{
    return at != DONE;
}

void attach(void)
{
    at = FIRST_LOOK;
    push(RESET, 0, NULL);
    get_descriptor(DEVICE_DESCRIPTOR, 64);
}

/* For statistics: another one. */
static void again(int failed)
{
    self_failed += (unsigned)failed;
    next_address = next_address % 127 + 1;
    if (--self_left > 0) {
        attach();
        return;
    }
    tell("SELF: %u failed", self_failed);
    guest_gone = 1;
}

void attach_step(int status)
{
    if (status != usb_redir_success && at != STATES) {
        tell("own enumeration failed at %d with %d", at, status);
        if (self_left == 0)
            exit(1);
        again(1);
        return;
    }
    switch (at) {
    case FIRST_LOOK:
        ep0_maximum = transfer.data[7];
        push(RESET, 0, NULL);
        push_standard(SET_ADDRESS, 0, 0, 5, next_address, 0, 0);
        at = ADDRESSED;
        break;
    case ADDRESSED:
        get_descriptor(DEVICE_DESCRIPTOR, 18);
        at = DEVICE;
        break;
    case DEVICE:
        memcpy(attached.device, transfer.data, 18);
        get_descriptor(CONFIGURATION_DESCRIPTOR, 9);
        at = CONFIGURATION_HEAD;
        break;
    case CONFIGURATION_HEAD:
        get_descriptor(CONFIGURATION_DESCRIPTOR, transfer.data[2] | (unsigned)transfer.data[3] << 8);
        at = CONFIGURATION;
        break;
    case CONFIGURATION:
        attached.length = transfer.moved;
        memcpy(attached.configuration, transfer.data, transfer.moved);
        state = 0;
        ask_state();
        at = STATES;
        break;
    default:
        if (next_state(status)) {
            ask_state();
            break;
        }
        at = DONE;
        if (self_left > 0)
            again(0);
        else
            connect_device();
    }
}

void unplug(void)
{
    tell("unplugged");
    counts.unplugged++;
    drop_all();
    disconnect_device();
}
