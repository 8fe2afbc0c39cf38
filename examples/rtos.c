/* SPDX-License-Identifier: MIT OR Apache-2.0
 *
 * With an RTOS's tasks: one for endpoint 0 and the bus, one for the stream. The driver says whom to wake; a task that
 * finds nothing to do waits for its wake-up. rtos_wait and rtos_wake are a binary semaphore (FreeRTOS: task
 * notifications), rtos_wake callable from the interrupt. Operations of tasks run with the block's interrupt masked;
 * give the tasks one mutex around USB_OPERATE and usb_poll if the scheduler may switch between them. */
#include "board.h"
#include "driver.h"

enum { STREAM = 1, CONTROL_TASK = 0, STREAM_TASK = 1 };

void rtos_wait(unsigned task), rtos_wake(unsigned task);
void rtos_run(void (*control)(void), void (*stream)(void)); /* starts both tasks and the scheduler */

const uint8_t configuration[] = {
    9, 2, 25, 0, 1, 1, 0, 0x80, 50, /* a configuration of 25 bytes, one interface */
    9, 4, 0, 0, 1, 0xFF, 0, 0, 0,   /* the interface, one endpoint */
    7, 5, STREAM, 1, 64, 0, 1,      /* isochronous OUT 1, 64 bytes, every microframe */
};
const unsigned configuration_length = sizeof configuration;

/* 0 to 15 is IN 0 to 15, 16 to 31 OUT 0 to 15, USBHS_BUS the bus. */
void woken(unsigned task) { rtos_wake(task == 16 + STREAM ? STREAM_TASK : CONTROL_TASK); }

static void control(void)
{
    for (;;) {
        usb_poll();
        rtos_wait(CONTROL_TASK);
    }
}

/* The only reader of the stream: two would get one packet twice. */
static void stream(void)
{
    for (;;) {
        uint16_t stamp;
        uint64_t word;
        int before = board_mask();
        word = usbhs_open(usb_state, usb_slots, sizeof usb_slots, STREAM, &stamp);
        board_restore(before);
        if (USBHS_KIND(word) != USBHS_SHOWN) {
            rtos_wait(STREAM_TASK);
            continue;
        }
        /* yours, unmasked: USBHS_LENGTH(word) bytes at usb_slots + USBHS_OFFSET(word); the slot is kept until: */
        before = board_mask();
        usbhs_close(usb_state, STREAM);
        board_restore(before);
    }
}

int main(void)
{
    if (usb_start() != 0)
        return 1;
    rtos_run(control, stream);
    return 0;
}
