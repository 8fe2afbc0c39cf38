/* SPDX-License-Identifier: MIT OR Apache-2.0 */
/* The firmware of any device: the driver's interrupt wakes tasks; the main loop runs them in the order in which they
 * were woken. */
#include "board.h"
#include "chapter9.h"
#include "console.h"
#include "control.h"
#include "device.h"
#include "tasks.h"
#include "usb.h"
#include "watch.h"

void trap(uint32_t cause);

void trap(uint32_t cause)
{
    if (board_usb_interrupt(cause)) {
        usb_interrupt();
        return;
    }
    print("trap ");
    print_hex(cause, 8);
    print("\n");
    for (;;)
        board_sleep();
}

static void bus_task(void)
{
    static const char *const events[] = {"", "power", "reset", "suspend", "resume"};
    uint64_t word;

    for (;;) {
        USB_OPERATE(word, usbhs_begin_bus_poll(usb_state));
        if (USBHS_KIND(word) != USBHS_END || USBHS_RESULT(word) == USBHS_NO_EVENT)
            return;
        print("bus: ");
        print(events[USBHS_RESULT(word)]);
        print("\n");
        if (USBHS_RESULT(word) == USBHS_RESET) {
            chapter9_reset();
            device_reset();
            control_restart();
        }
        if (USBHS_RESULT(word) == USBHS_SUSPEND) {
            watch_nothing(); /* no microframes pass */
            device_suspended();
        }
    }
}

static void run(unsigned task)
{
    switch (task) {
    case USBHS_BUS:
        bus_task();
        break;
    case TASK_IN(0):
    case TASK_OUT(0):
        control_task();
        break;
    default:
        device_task(task);
    }
}

/* The next task, or sleep, unless the watch waits for a microframe, which no interrupt may tell. Interrupts are off
 * from the look to the sleep, which a pending interrupt ends all the same. */
static void next(void)
{
    int awake = watch_look();
    uint32_t before = interrupts_off();
    unsigned task = task_next();

    if (task == NO_TASK) {
        if (awake)
            board_pause();
        else
            board_sleep();
    }
    interrupts_restore(before);
    if (task != NO_TASK)
        run(task);
}

int main(void)
{
    unsigned row;

    board_start();
    device_start();
    row = usb_start();
    if (row != 0) {
        print("start: refused with ");
        print_number(row);
        print("\n");
        return 1;
    }
    control_restart();
    task_wake(USBHS_BUS);
    interrupts_restore(MSTATUS_MIE);
    for (;;)
        next();
}
