/* SPDX-License-Identifier: MIT OR Apache-2.0 */
/* The firmware's whole interrupt as it is flashed, but for the entry in start.S: the access loop and the accesses
 * in the chip's layout, here over plain memory, with the driver's calls. Lines as those of measure.c. */
#include <string.h>
#include "../../firmware/board.h"
#include "../../firmware/ch32v30x/layout.h"
#include "../../firmware/console.h"
#include "../../firmware/descriptors.h"
#include "../../firmware/emulator/machine.h"
#include "../../firmware/usb.h"

#define BYTE(offset) (*(volatile uint8_t *)(USBHS_BASE + (offset)))
#define SHORT(offset) (*(volatile uint16_t *)(USBHS_BASE + (offset)))
#define WORD(offset) (*(volatile uint32_t *)(USBHS_BASE + (offset)))

/* In the chip's bits. */
enum { TRANSFER = 2, SETUP = 0x20, OUT = 0, SOF = 0x10, IN = 0x20, TOGGLE_OK = 0x40, FREE = 0x20 };

void board_wait(unsigned microseconds)
{
    (void)microseconds;
}

void usb_start_of_frame(void)
{
    static const uint8_t status[8];

    (void)usbhs_queue(usb_state, usb_slots, sizeof usb_slots, STATUS_IN, status, sizeof status);
}

static void shows(uint8_t flags, uint8_t status, uint16_t length)
{
    BYTE(INT_FG) = flags;
    BYTE(INT_ST) = status;
    SHORT(RX_LEN) = length;
}

static void next_microframe(void)
{
    static unsigned index;

    index++;
    SHORT(FRAME_NO) = (uint16_t)(index >> 3 | (index & 7) << 13);
}

/* The chip stores samples where the endpoint's register points. */
static void arrive(void)
{
    memset((void *)(uintptr_t)WORD(EP_RX_DMA(SAMPLES_OUT)), 7, USB_BUFFER);
}

static void tell(const char *name, unsigned interrupts, uint32_t took, uint32_t worst)
{
    print("op ");
    print(name);
    print(" ");
    print_number(interrupts);
    print(" ");
    print_number(took);
    print(" ");
    print_number(worst);
    print("\n");
}

static uint32_t interrupt(const char *name)
{
    uint32_t began = instructions(), took;

    usb_interrupt();
    took = instructions() - began;
    tell(name, 1, took, took);
    return took;
}

static int started(void)
{
    uint64_t out, in;

    memset((void *)USBHS_BASE, 0, 0x200);
    BYTE(MIS_ST) = FREE;
    if (usb_start() != 0)
        return 0;
    USB_OPERATE(out, usbhs_begin_set_enabled(usb_state, usb_slots, sizeof usb_slots, usb_time, 0, SAMPLES_OUT,
                                             USBHS_OUT, 1));
    USB_OPERATE(in, usbhs_begin_set_enabled(usb_state, usb_slots, sizeof usb_slots, usb_time, 0, STATUS_IN,
                                            USBHS_IN, 1));
    return USBHS_KIND(out) == USBHS_END && USBHS_KIND(in) == USBHS_END;
}

/* SOF, IN and OUT, each with an interrupt of its own. */
static void on_time(void)
{
    uint32_t sof, in, out;

    next_microframe();
    shows(TRANSFER, SOF, 0);
    sof = interrupt("firmware-sof");
    shows(TRANSFER, IN | STATUS_IN, 0);
    in = interrupt("firmware-iso-in");
    arrive();
    shows(TRANSFER, OUT | SAMPLES_OUT | TOGGLE_OK, USB_BUFFER);
    out = interrupt("firmware-iso-out-64");
    tell("firmware-microframe", 3, sof + in + out, sof);
    shows(TRANSFER, SOF, 0);
    interrupt("firmware-sof-again");
}

/* One interrupt that comes late and stands for all three. */
static void late(void)
{
    next_microframe();
    arrive();
    shows(TRANSFER, IN | STATUS_IN, 0);
    interrupt("firmware-microframe-late");
}

/* The SIE is busy at the interrupt's first look: an isochronous IN, whose only interrupt it is. */
static void busy(void)
{
    next_microframe();
    shows(TRANSFER, SOF, 0);
    usb_interrupt();
    BYTE(MIS_ST) = 0;
    shows(TRANSFER, IN | STATUS_IN, 0);
    interrupt("firmware-iso-in-busy");
    BYTE(MIS_ST) = FREE;
}

/* The SIE is never free: the driver gives up after its looks. */
static void stuck(void)
{
    BYTE(MIS_ST) = 0;
    arrive();
    shows(TRANSFER, OUT | SAMPLES_OUT | TOGGLE_OK, USB_BUFFER);
    interrupt("firmware-iso-out-64-stuck");
    BYTE(MIS_ST) = FREE;
}

int main(void)
{
    if (!started())
        return 1;
    on_time();
    late();
    shows(SETUP, 0x30, 8);
    interrupt("firmware-setup");
    busy();
    stuck();
    return 0;
}
