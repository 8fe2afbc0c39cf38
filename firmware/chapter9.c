/* SPDX-License-Identifier: MIT OR Apache-2.0 */
#include "chapter9.h"
#include "control.h"
#include "device.h"
#include "usb.h"
#include <string.h>

enum { DEVICE = 1, CONFIGURATION, STRING, INTERFACE, ENDPOINT, QUALIFIER, OTHER_SPEED }; /* table 9-5 */
#define TRANSFER(endpoint) ((endpoint)[3] & 3)
#define ENGLISH 0x0409u
#define CONFIGURATION_VALUE descriptor_configuration[5]
#define ENDPOINT_HALT 0u
#define FULL_SPEED_BULK 64u

/* What the host has selected; the settings count while `configured`. */
static unsigned configured;
static uint8_t settings[DESCRIPTOR_INTERFACES];

/* An answer that is not stored but made. A string's length is one byte: at most 126 characters. */
#define MOST_STRING 254u
static uint8_t made[DESCRIPTOR_CONFIGURATION_LEN > MOST_STRING ? DESCRIPTOR_CONFIGURATION_LEN : MOST_STRING];

/* ---- the configuration, one descriptor after the other */

struct place {
    unsigned at, interface, alternate;
};

/* 0 behind the last. */
static const uint8_t *next(struct place *place)
{
    const uint8_t *found = descriptor_configuration + place->at;

    if (place->at >= DESCRIPTOR_CONFIGURATION_LEN)
        return 0;
    place->at += found[0];
    if (found[1] == INTERFACE) {
        place->interface = found[2];
        place->alternate = found[3];
    }
    return found;
}

static int exists(unsigned interface, unsigned alternate)
{
    struct place place = {0, 0, 0};
    const uint8_t *found;

    while ((found = next(&place)) != 0)
        if (found[1] == INTERFACE && found[2] == interface && found[3] == alternate)
            return 1;
    return 0;
}

/* The descriptor of an endpoint that the host has selected, or 0. */
static const uint8_t *endpoint(unsigned address)
{
    struct place place = {0, 0, 0};
    const uint8_t *found;

    while (configured && (found = next(&place)) != 0)
        if (found[1] == ENDPOINT && found[2] == address && settings[place.interface] == place.alternate)
            return found;
    return 0;
}

/* ---- configuration and alternate settings */

static int set_enabled(unsigned address, unsigned on)
{
    uint64_t word;

    USB_OPERATE(word, usbhs_begin_set_enabled(usb_state, usb_slots, sizeof usb_slots, usb_time, 0, address & 15,
                                              address >> 7, on));
    return USBHS_KIND(word) != USBHS_REFUSED;
}

static void disable(unsigned interface)
{
    struct place place = {0, 0, 0};
    const uint8_t *found;

    while ((found = next(&place)) != 0)
        if (found[1] == ENDPOINT && place.interface == interface)
            set_enabled(found[2], 0);
}

/* 0: refused, as the bus time does not suffice (row 19). */
static int enable(unsigned interface, unsigned alternate)
{
    struct place place = {0, 0, 0};
    const uint8_t *found;
    int all = 1;

    while ((found = next(&place)) != 0)
        if (found[1] == ENDPOINT && place.interface == interface && place.alternate == alternate)
            all &= set_enabled(found[2], 1);
    return all;
}

/* The endpoints begin anew, also where the setting is as before (9.1.1.5). */
static int select_setting(unsigned interface, unsigned alternate)
{
    disable(interface);
    if (!enable(interface, alternate)) {
        disable(interface);
        return 0;
    }
    settings[interface] = (uint8_t)alternate;
    device_selected(interface, alternate);
    return 1;
}

static void deconfigure(void)
{
    configured = 0;
    for (unsigned i = 0; i < DESCRIPTOR_INTERFACES; i++)
        disable(i);
    device_reset();
}

/* Each interface begins with alternate setting 0. */
static int set_configuration(unsigned value)
{
    if (value != 0 && value != CONFIGURATION_VALUE)
        return 0;
    deconfigure();
    configured = value;
    for (unsigned i = 0; configured && i < DESCRIPTOR_INTERFACES; i++)
        if (!select_setting(i, 0)) {
            deconfigure();
            return 0;
        }
    return 1;
}

static int set_interface(unsigned interface, unsigned alternate)
{
    return configured && exists(interface, alternate) && select_setting(interface, alternate);
}

void chapter9_reset(void)
{
    configured = 0;
}

/* ---- descriptors */

/* Bulk endpoints have 64 bytes at full speed, the others what they have here. */
static void answer_other_speed(unsigned asked)
{
    memcpy(made, descriptor_configuration, DESCRIPTOR_CONFIGURATION_LEN);
    made[1] = OTHER_SPEED;
    for (unsigned at = 0; at < DESCRIPTOR_CONFIGURATION_LEN; at += made[at])
        if (made[at + 1] == ENDPOINT && TRANSFER(made + at) == USBHS_BULK) {
            made[at + 4] = FULL_SPEED_BULK;
            made[at + 5] = 0;
        }
    control_answer(made, DESCRIPTOR_CONFIGURATION_LEN, asked);
}

/* 9.6.2: the device descriptor's fields at the other speed, which are the same. */
static void answer_qualifier(unsigned asked)
{
    made[0] = 10;
    made[1] = QUALIFIER;
    memcpy(made + 2, descriptor_device + 2, 6); /* release, class, EP0's maximum */
    made[8] = descriptor_device[17];
    made[9] = 0;
    control_answer(made, 10, asked);
}

/* String 0 lists the languages. */
static void answer_string(unsigned index, unsigned language, unsigned asked)
{
    const char *text = index == 0 ? "" : descriptor_string(index);
    unsigned length = 2;

    if (text == 0 || (index != 0 && language != ENGLISH)) {
        control_reject();
        return;
    }
    for (; *text != 0 && length < MOST_STRING; length += 2) {
        made[length] = (uint8_t)*text++;
        made[length + 1] = 0;
    }
    if (index == 0) {
        made[length++] = ENGLISH & 0xFF;
        made[length++] = ENGLISH >> 8;
    }
    made[0] = (uint8_t)length;
    made[1] = STRING;
    control_answer(made, length, asked);
}

static void get_descriptor(unsigned kind, unsigned number, unsigned language, unsigned asked)
{
    if (kind == STRING)
        answer_string(number, language, asked);
    else if (number != 0)
        control_reject();
    else if (kind == DEVICE)
        control_answer(descriptor_device, DESCRIPTOR_DEVICE_LEN, asked);
    else if (kind == CONFIGURATION)
        control_answer(descriptor_configuration, DESCRIPTOR_CONFIGURATION_LEN, asked);
    else if (kind == QUALIFIER)
        answer_qualifier(asked);
    else if (kind == OTHER_SPEED)
        answer_other_speed(asked);
    else
        control_reject();
}

/* ---- status and features */

static void answer_or_reject(int there, unsigned first, unsigned length, unsigned asked)
{
    if (!there) {
        control_reject();
        return;
    }
    made[0] = (uint8_t)first;
    made[1] = 0;
    control_answer(made, length, asked);
}

static void accept_or_reject(int there)
{
    if (there)
        control_accept();
    else
        control_reject();
}

/* EP0, in both directions, and isochronous endpoints have no halt (9.4.5). */
static int is_default_pipe(unsigned address)
{
    return (address & ~0x80u) == 0;
}

static int may_halt(unsigned address)
{
    const uint8_t *found = endpoint(address);

    return found != 0 && TRANSFER(found) != USBHS_ISOCHRONOUS;
}

static unsigned halted(unsigned address)
{
    uint64_t word;

    if (!may_halt(address))
        return 0;
    USB_OPERATE(word, usbhs_begin_is_stalled(usb_state, address & 15, address >> 7));
    return USBHS_RESULT(word);
}

/* The toggle begins at DATA0 again when a halt is cleared, also where there was none. */
static int set_halt(unsigned address, unsigned on)
{
    uint64_t word;

    if (!may_halt(address))
        return !on && (is_default_pipe(address) || endpoint(address) != 0);
    USB_OPERATE(word, usbhs_begin_set_stalled(usb_state, address & 15, address >> 7, on));
    if (!on)
        device_resumed(address & 15, address >> 7);
    return USBHS_KIND(word) != USBHS_REFUSED;
}

/* ---- the requests */

/* bmRequestType and bRequest in one number. */
#define REQUEST(type, request) ((type) << 8 | (request))
#define GET_STATUS_OF_DEVICE REQUEST(0x80u, 0u)
#define GET_STATUS_OF_INTERFACE REQUEST(0x81u, 0u)
#define GET_STATUS_OF_ENDPOINT REQUEST(0x82u, 0u)
#define CLEAR_FEATURE_OF_ENDPOINT REQUEST(0x02u, 1u)
#define SET_FEATURE_OF_ENDPOINT REQUEST(0x02u, 3u)
#define SET_ADDRESS REQUEST(0x00u, 5u)
#define GET_DESCRIPTOR REQUEST(0x80u, 6u)
#define GET_CONFIGURATION REQUEST(0x80u, 8u)
#define SET_CONFIGURATION REQUEST(0x00u, 9u)
#define GET_INTERFACE REQUEST(0x81u, 10u)
#define SET_INTERFACE REQUEST(0x01u, 11u)
#define STANDARD(type) (((type) & 0x60) == 0)

/* Not here, so rejected: remote wake-up and self power, which no descriptor announces; test modes, SET_DESCRIPTOR,
 * SYNCH_FRAME. */
static void serve(unsigned request, unsigned value, unsigned index, unsigned asked)
{
    int interface = configured && index < DESCRIPTOR_INTERFACES;

    switch (request) {
    case GET_STATUS_OF_DEVICE: /* powered by the bus, no remote wake-up */
        answer_or_reject(index == 0, 0, 2, asked);
        break;
    case GET_STATUS_OF_INTERFACE:
        answer_or_reject(interface, 0, 2, asked);
        break;
    case GET_STATUS_OF_ENDPOINT:
        answer_or_reject(is_default_pipe(index) || endpoint(index) != 0, halted(index), 2, asked);
        break;
    case CLEAR_FEATURE_OF_ENDPOINT:
    case SET_FEATURE_OF_ENDPOINT:
        accept_or_reject(value == ENDPOINT_HALT && set_halt(index, request == SET_FEATURE_OF_ENDPOINT));
        break;
    case SET_ADDRESS:
        if (value > 127)
            control_reject();
        else
            control_accept_address(value);
        break;
    case GET_DESCRIPTOR:
        get_descriptor(value >> 8, value & 255, index, asked);
        break;
    case GET_CONFIGURATION:
        answer_or_reject(1, configured, 1, asked);
        break;
    case SET_CONFIGURATION:
        accept_or_reject(set_configuration(value));
        break;
    case GET_INTERFACE:
        answer_or_reject(interface, interface ? settings[index] : 0, 1, asked);
        break;
    case SET_INTERFACE:
        accept_or_reject(set_interface(index, value));
        break;
    default:
        control_reject();
    }
}

/* No standard request that is served has a data stage OUT. */
void chapter9_serve(const uint8_t setup[8])
{
    unsigned type = setup[0], value = setup[2] | (unsigned)setup[3] << 8, index = setup[4] | (unsigned)setup[5] << 8,
             asked = setup[6] | (unsigned)setup[7] << 8;

    if (!STANDARD(type))
        device_request(setup);
    else if (!(type & 0x80) && asked > 0)
        control_reject();
    else
        serve(REQUEST(type, (unsigned)setup[1]), value, index, asked);
}
