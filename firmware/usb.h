/* SPDX-License-Identifier: MIT OR Apache-2.0 */
/* The driver: its state, its buffers, and operations made from begin to end. */
#ifndef USB_H
#define USB_H

#include <descriptors.h> /* the device's: where the compiler's -I finds it */
#include "interrupts.h"
#include "trace.h"
#include "usbhs.h"

extern uint8_t usb_state[USBHS_STATE_LEN];
extern uint8_t usb_slots[USB_BUFFERS * USB_BUFFER];
extern uint16_t usb_time[USBHS_TIME_LEN];

/* Wakes the tasks that an end names. */
void usb_wake_tasks(uint64_t word);

/* The access loop: makes each access that the driver hands out until the operation is over; wakes the tasks that
 * its end names. With interrupts off. */
uint64_t usb_to_end(uint64_t word);

/* An operation, from its begin to its end, or a call that is over at once, the interrupt masked meanwhile. */
#define USB_OPERATE(word, begin)             \
    do {                                     \
        uint32_t before_ = interrupts_off(); \
        (word) = usb_to_end(begin);          \
        interrupts_restore(before_);         \
    } while (0)

/* Start-up, all endpoints of the configuration descriptor, EP0's start, the pull-up: 0, or the row of a refusal. */
unsigned usb_start(void);

/* The block's interrupt. */
void usb_interrupt(void);

/* The start-of-frame callback, in the midst of the interrupt: it may open, close and queue packets, nothing else. */
void usb_start_of_frame(void);

#endif
