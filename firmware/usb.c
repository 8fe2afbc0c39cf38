/* SPDX-License-Identifier: MIT OR Apache-2.0 */
#include "usb.h"
#include "board.h"
#include "look.h"
#include "sof.h"
#include "tasks.h"

/* The chip wants the slots on a word boundary, and copies are faster with the state on one. */
uint8_t usb_state[USBHS_STATE_LEN] __attribute__((aligned(4)));
uint8_t usb_slots[USB_BUFFERS * USB_BUFFER] __attribute__((aligned(4)));
uint16_t usb_time[USBHS_TIME_LEN];

/* look.c and sof.c know of a few registers; the others are written right away. */
static void write(unsigned number, unsigned endpoint, uint32_t value)
{
    switch (number) {
    case USBHS_INT_EN:
        sof_write(number, value);
        break;
    case USBHS_EP_CONFIG:
        look_written(number, endpoint, value);
        sof_write(number, value);
        break;
    case USBHS_EP_TYPE:
    case USBHS_EP_RX_DMA:
        look_written(number, endpoint, value);
        register_write(number, endpoint, value);
        break;
    default:
        register_write(number, endpoint, value);
    }
}

/* Made readings are brought (look.h). */
static int looking;

/* Makes what is handed out: the reading, 0 where there is none. */
static uint32_t make(uint64_t word)
{
    switch (USBHS_KIND(word)) {
    case USBHS_READ:
        if (looking && USBHS_REGISTER(word) == USBHS_INT_ST)
            return look_token();
        return register_read(USBHS_REGISTER(word), USBHS_ENDPOINT(word));
    case USBHS_WRITE:
        if (!looking || USBHS_REGISTER(word) != USBHS_INT_FG)
            write(USBHS_REGISTER(word), USBHS_ENDPOINT(word), USBHS_VALUE(word));
        return 0;
    case USBHS_WAIT:
        board_wait(USBHS_MICROSECONDS(word));
        return 0;
    default:
        usb_start_of_frame();
        return 0;
    }
}

void usb_wake_tasks(uint64_t word)
{
    uint8_t woken[USBHS_MOST_WAKES];
    unsigned n;

    if (USBHS_KIND(word) != USBHS_END || USBHS_WAKES(word) == 0)
        return;
    n = usbhs_woken(usb_state, woken);
    for (unsigned i = 0; i < n; i++)
        task_wake(woken[i]);
}

/* The driver waits for the SIE: looks until it is free, or as often as the driver would, and brings all looks that read
 * the same at once. */
__attribute__((noinline)) static uint64_t wait_for_sie(void)
{
    uint32_t busy = register_read(USBHS_MIS_ST, 0), last = busy, looks = 0;

    if ((busy & LOOK_FREE) == 0) {
        do {
            last = register_read(USBHS_MIS_ST, 0);
            looks++;
        } while (last == busy && looks < USBHS_MOST_LOOKS - 2);
    }
    return usbhs_continue_looks(usb_state, usb_slots, sizeof usb_slots, usb_time, 0, looks, busy, last);
}

/* mis_st is asked for twice in a row. A trace has each look by itself. */
static int waits(uint64_t before, uint64_t word)
{
    return !TRACED_EACH && USBHS_ASKS(before, USBHS_MIS_ST) && USBHS_ASKS(word, USBHS_MIS_ST);
}

uint64_t usb_to_end(uint64_t word)
{
    uint32_t *reading = trace_word(word);

    while (USBHS_KIND(word) >= USBHS_READ && USBHS_KIND(word) <= USBHS_CALLBACK) {
        uint64_t before = word;

        *reading = make(word);
        word = usbhs_continue(usb_state, usb_slots, sizeof usb_slots, usb_time, 0, *reading);
        if (waits(before, word))
            word = wait_for_sie();
        reading = trace_word(word);
    }
    usb_wake_tasks(word);
    return word;
}

/* The write that clears the transfer's flag. */
#define RELEASE (USBHS_WRITE | USBHS_INT_FG << 8 | (uint64_t)LOOK_TRANSFER << 32)

/* Not in line, called twice: the calls of the driver are then in line here, once. The flag is cleared as early as can
 * be: until then a packet may lose its interrupt. frame_no is what the driver wants next, unless the SIE is busy. */
__attribute__((noinline)) static void serve(uint32_t frame, uint32_t flags, uint32_t mis, uint32_t status, uint32_t length)
{
    uint64_t word = usbhs_interrupt_transfer(usb_state, usb_slots, sizeof usb_slots, usb_time, 0, frame, flags, mis,
                                             status, length);

    if (word == RELEASE && !TRACED_EACH) {
        if (!looking)
            register_write(USBHS_INT_FG, 0, LOOK_TRANSFER);
        frame = register_read(USBHS_FRAME_NO, 0);
        word = usbhs_continue_released(usb_state, usb_slots, sizeof usb_slots, usb_time, 0, frame);
    }
    usb_to_end(word);
}

/* What the chip shows is overwritten by the next token, so all five registers are read first, in the order in which the
 * driver asks for them, and one call brings them. Then once more, of made readings, where a packet was left. */
void usb_interrupt(void)
{
    uint32_t frame = register_read(USBHS_FRAME_NO, 0), flags = register_read(USBHS_INT_FG, 0);
    uint32_t mis = register_read(USBHS_MIS_ST, 0), status = register_read(USBHS_INT_ST, 0);
    uint32_t length = register_read(USBHS_RX_LEN, 0);

    serve(frame, flags, mis, status, length);
    if (!look_wanted())
        return;
    looking = 1;
    serve(register_read(USBHS_FRAME_NO, 0), LOOK_TRANSFER, LOOK_FREE, LOOK_TOKEN, 0);
    looking = 0;
}

/* 0, or the row of a refusal. */
static unsigned refusal(uint64_t word)
{
    return USBHS_KIND(word) == USBHS_REFUSED ? USBHS_ROW(word) : 0;
}

unsigned usb_start(void)
{
    uint64_t word;
    unsigned row;

    USB_OPERATE(word, usbhs_start_up(usb_state, usb_slots, sizeof usb_slots, usb_time, 0, USB_BUFFER, USB_BUFFERS, 1));
    if ((row = refusal(word)) != 0)
        return row;
    USB_OPERATE(word, usbhs_allocate_all(usb_state, descriptor_configuration, DESCRIPTOR_CONFIGURATION_LEN));
    if ((row = refusal(word)) != 0)
        return row;
    USB_OPERATE(word, usbhs_start(usb_state, 64));
    if ((row = refusal(word)) != 0)
        return row;
    USB_OPERATE(word, usbhs_begin_bus_enable(usb_state));
    return refusal(word);
}
