/* SPDX-License-Identifier: MIT OR Apache-2.0 */
#include "driver.h"
#include "board.h"

uint8_t usb_state[USBHS_STATE_LEN] __attribute__((aligned(4)));
uint8_t usb_slots[BUFFER * BUFFERS] __attribute__((aligned(4)));
uint16_t usb_time[USBHS_TIME_LEN];

static const uint8_t device[18] = {18, 1, 0x00, 0x02, 0xFF, 0, 0, 64, 0x09, 0x12, 0x01, 0x00, 0x00, 0x01, 0, 0, 0, 1};

uint64_t usb_to_end(uint64_t word)
{
    uint8_t tasks[USBHS_MOST_WAKES];

    while (USBHS_KIND(word) >= USBHS_READ && USBHS_KIND(word) <= USBHS_CALLBACK) {
        unsigned reg = USBHS_REGISTER(word);
        uint32_t reading = 0;
        if (USBHS_KIND(word) == USBHS_READ)
            reading = board_read(reg, USBHS_ENDPOINT(word)) & USBHS_MASK(reg);
        else if (USBHS_KIND(word) == USBHS_WRITE)
            board_write(reg, USBHS_ENDPOINT(word), USBHS_VALUE(word));
        else if (USBHS_KIND(word) == USBHS_WAIT)
            board_wait(USBHS_MICROSECONDS(word));
        word = usbhs_continue(usb_state, usb_slots, sizeof usb_slots, usb_time, 0, reading);
    }
    if (USBHS_KIND(word) == USBHS_END && USBHS_WAKES(word) > 0)
        for (uint32_t i = 0, n = usbhs_woken(usb_state, tasks); i < n; i++)
            woken(tasks[i]);
    return word;
}

void usb_interrupt(void) { usb_to_end(usbhs_begin_interrupt(usb_state)); }

/* Endpoint 0: which poll comes next. */
static enum { SETUP, DATA_IN, STATUS } stage;
static const uint8_t *data;
static unsigned left;

static void begin_setup(void)
{
    uint64_t word;
    stage = SETUP;
    USB_OPERATE(word, usbhs_begin_setup(usb_state));
    (void)word;
}

unsigned usb_start(void)
{
    uint64_t word;

    USB_OPERATE(word, usbhs_start_up(usb_state, usb_slots, sizeof usb_slots, usb_time, 0, BUFFER, BUFFERS, 0));
    if (USBHS_KIND(word) != USBHS_REFUSED)
        USB_OPERATE(word, usbhs_allocate_all(usb_state, configuration, configuration_length));
    if (USBHS_KIND(word) != USBHS_REFUSED)
        USB_OPERATE(word, usbhs_start(usb_state, BUFFER));
    if (USBHS_KIND(word) != USBHS_REFUSED)
        USB_OPERATE(word, usbhs_begin_bus_enable(usb_state));
    if (USBHS_KIND(word) == USBHS_REFUSED)
        return USBHS_ROW(word);
    begin_setup();
    return 0;
}

/* A packet of the data stage. No answer here is whole packets long: one that is, and is shorter than what the host
 * asked for, needs an empty packet behind it (firmware/control.c). */
static void send(int first)
{
    unsigned length = left < BUFFER ? left : BUFFER;
    uint64_t word;

    USB_OPERATE(word, usbhs_begin_data_in(usb_state, usb_slots, sizeof usb_slots, data, length, (uint32_t)first,
                          length == left));
    data += length;
    left -= length;
    stage = DATA_IN;
    if (USBHS_KIND(word) == USBHS_REFUSED) /* 9: the host has sent another setup packet */
        begin_setup();
}

static void answer(const uint8_t *bytes, unsigned length, unsigned asked)
{
    data = bytes;
    left = length < asked ? length : asked;
    send(1);
}

/* Enables the example's endpoints: each endpoint descriptor of the configuration. */
static void enable_all(int on)
{
    uint64_t word;

    for (unsigned at = 0; at + 2 < configuration_length && configuration[at] > 1; at += configuration[at])
        if (configuration[at + 1] == 5)
            USB_OPERATE(word, usbhs_begin_set_enabled(usb_state, usb_slots, sizeof usb_slots, usb_time, 0,
                                  configuration[at + 2] & 15u, configuration[at + 2] >> 7, (uint32_t)on));
    (void)word;
}

static void serve(const uint8_t p[8])
{
    unsigned asked = p[6] | (unsigned)p[7] << 8;
    uint64_t word;

    if (p[0] == 0x80 && p[1] == 6 && p[3] == 1 && asked > 0) /* GET_DESCRIPTOR, device */
        answer(device, sizeof device, asked);
    else if (p[0] == 0x80 && p[1] == 6 && p[3] == 2 && asked > 0) /* configuration */
        answer(configuration, configuration_length, asked);
    else if (p[0] == 0 && (p[1] == 5 || p[1] == 9)) { /* SET_ADDRESS, SET_CONFIGURATION */
        if (p[1] == 9)
            enable_all(p[2] != 0);
        USB_OPERATE(word, p[1] == 5 ? usbhs_begin_accept_set_address(usb_state, p[2]) : usbhs_begin_accept(usb_state));
        stage = STATUS;
        if (USBHS_KIND(word) == USBHS_REFUSED)
            begin_setup();
    } else { /* all else is stalled */
        USB_OPERATE(word, usbhs_begin_reject(usb_state));
        begin_setup();
    }
}

void usb_poll(void)
{
    uint8_t packet[8];
    uint64_t word;

    USB_OPERATE(word, usbhs_begin_bus_poll(usb_state)); /* its result: 1 power, 2 reset, 3 suspend, 4 resume */
    if (USBHS_KIND(word) == USBHS_END && USBHS_RESULT(word) == 2)
        begin_setup();
    switch (stage) {
    case SETUP:
        USB_OPERATE(word, usbhs_poll_setup(usb_state, packet));
        if (USBHS_KIND(word) == USBHS_DONE)
            serve(packet);
        break;
    case DATA_IN:
        USB_OPERATE(word, usbhs_poll_data_in(usb_state));
        if (USBHS_KIND(word) == USBHS_DONE && left > 0)
            send(0);
        else if (USBHS_KIND(word) != USBHS_NOT_YET)
            begin_setup();
        break;
    case STATUS:
        USB_OPERATE(word, usbhs_poll_accept(usb_state));
        if (USBHS_KIND(word) != USBHS_NOT_YET)
            begin_setup();
        break;
    }
}
