/* SPDX-License-Identifier: MIT OR Apache-2.0
 *
 * Shared by the examples: the driver's state, the access loop, the start, and endpoint 0. */
#ifndef DRIVER_H
#define DRIVER_H

#include "usbhs.h"

enum { BUFFER = 64, BUFFERS = 17 }; /* EP0, and sixteen for an isochronous OUT */

extern uint8_t usb_state[USBHS_STATE_LEN], usb_slots[BUFFER * BUFFERS];
extern uint16_t usb_time[USBHS_TIME_LEN];

/* Makes what the driver hands out until the operation is over. With the block's interrupt masked. */
uint64_t usb_to_end(uint64_t word);

/* An operation from its begin to its end, the block's interrupt masked meanwhile. */
#define USB_OPERATE(word, begin)      \
    do {                              \
        int before_ = board_mask();   \
        (word) = usb_to_end(begin);   \
        board_restore(before_);       \
    } while (0)

/* Start-up, the endpoints of the configuration descriptor, EP0's start, the pull-up: 0, or the row of a refusal. */
unsigned usb_start(void);

/* The block's interrupt. */
void usb_interrupt(void);

/* Events of the bus and control requests as far as the host has brought them. Never waits. */
void usb_poll(void);

/* The example's: its configuration descriptor; a task that the driver wakes (usbhs_woken has the numbers). */
extern const uint8_t configuration[];
extern const unsigned configuration_length;
void woken(unsigned task);

#endif
