// SPDX-License-Identifier: MIT OR Apache-2.0
/* How long after the firmware's interrupt begins the status is read, and the transfer flag released: what the chip
 * shows may be overwritten until the one, and a packet may lose its interrupt until the other. And how long after it
 * the task of an isochronous OUT is woken for its packet. Lines as those of measure.c. */
#define register_read chip_read
#define register_write chip_write
#include "../../firmware/ch32v30x/registers.c"
#undef register_read
#undef register_write
#include "../../firmware/console.h"
#include "../../firmware/emulator/machine.h"
#include "../../firmware/tasks.h"

enum { TRANSFER = 2, OUT = 0, SOF = 0x10, TOGGLE_OK = 0x40, FREE = 0x20 };

static uint32_t began, status, released, woken;

uint32_t register_read(unsigned number, unsigned endpoint)
{
    uint32_t value = chip_read(number, endpoint);

    if (number == USBHS_INT_ST && status == 0)
        status = instructions();
    return value;
}

void register_write(unsigned number, unsigned endpoint, uint32_t value)
{
    chip_write(number, endpoint, value);
    if (number == USBHS_INT_FG && released == 0)
        released = instructions();
}

void task_wake(unsigned task)
{
    (void)task;
    if (woken == 0)
        woken = instructions();
}

void board_wait(unsigned microseconds)
{
    (void)microseconds;
}

void usb_start_of_frame(void)
{
}

static void tell(const char *name, uint32_t took)
{
    print("op ");
    print(name);
    print(" 1 ");
    print_number(took);
    print(" ");
    print_number(took);
    print("\n");
}

/* The interrupt, and when it did what; alone, so that usb_interrupt is in line here, as in the flashed handler. */
__attribute__((noinline)) static void interrupt(void)
{
    status = released = woken = 0;
    began = instructions();
    usb_interrupt();
}

int main(void)
{
    uint64_t end;

    for (unsigned i = 0; i < 0x200; i += 4)
        WORD(i) = 0;
    BYTE(MIS_ST) = FREE;
    if (usb_start() != 0)
        return 1;
    BYTE(INT_FG) = TRANSFER;
    BYTE(INT_ST) = SOF;
    SHORT(FRAME_NO) = 1;
    interrupt();
    tell("firmware-status-read", status - began);
    tell("firmware-flag-released", released - began);
    USB_OPERATE(end, usbhs_begin_set_enabled(usb_state, usb_slots, sizeof usb_slots, usb_time, 0, SAMPLES_OUT,
                                             USBHS_OUT, 1));
    if (USBHS_KIND(end) != USBHS_END)
        return 1;
    for (unsigned i = 0; i < USB_BUFFER; i++)
        ((volatile uint8_t *)(uintptr_t)WORD(EP_RX_DMA(SAMPLES_OUT)))[i] = 7;
    BYTE(INT_ST) = OUT | SAMPLES_OUT | TOGGLE_OK;
    SHORT(RX_LEN) = USB_BUFFER;
    interrupt();
    tell("firmware-task-woken", woken - began);
    return 0;
}
