/* SPDX-License-Identifier: MIT OR Apache-2.0 */
/* The firmware's longest interrupts and masked operations, with as many isochronous endpoints as the lent buffers hold:
 * OUTS and INS of USB_BUFFER bytes, compiled with USB_BUFFERS for all of them. Lines as those of measure.c. */
#include <string.h>
#include "../../firmware/board.h"
#include "../../firmware/ch32v30x/layout.h"
#include "../../firmware/console.h"
#include "../../firmware/emulator/machine.h"
#include "../../firmware/usb.h"

#define BYTE(offset) (*(volatile uint8_t *)(USBHS_BASE + (offset)))
#define SHORT(offset) (*(volatile uint16_t *)(USBHS_BASE + (offset)))
#define WORD(offset) (*(volatile uint32_t *)(USBHS_BASE + (offset)))

enum { RESET = 1, TRANSFER = 2, SOF = 0x10, IN = 0x20, FREE = 0x20 };

static uint16_t frame;

void board_wait(unsigned microseconds)
{
    (void)microseconds;
}

void usb_start_of_frame(void)
{
}

static void ended(uint64_t end)
{
    if (USBHS_KIND(end) == USBHS_REFUSED) {
        print("worst: refused with ");
        print_number(USBHS_ROW(end));
        print("\n");
        emulator_end(1);
    }
}

static void begun(uint64_t word)
{
    uint64_t end;

    USB_OPERATE(end, word);
    ended(end);
}

static uint64_t enable(uint32_t endpoint, uint32_t direction)
{
    return usbhs_begin_set_enabled(usb_state, usb_slots, sizeof usb_slots, usb_time, 0, endpoint, direction, 1);
}

static void start(void)
{
    memset((void *)USBHS_BASE, 0, 0x200);
    BYTE(MIS_ST) = FREE;
    begun(usbhs_start_up(usb_state, usb_slots, sizeof usb_slots, usb_time, 0, USB_BUFFER, USB_BUFFERS, 0));
    for (uint32_t e = 1; e <= OUTS; e++)
        begun(usbhs_allocate(usb_state, USBHS_ISOCHRONOUS, e, USB_BUFFER, 1, USBHS_OUT));
    for (uint32_t e = 1; e <= INS; e++)
        begun(usbhs_allocate(usb_state, USBHS_ISOCHRONOUS, 0x80 | e, USB_BUFFER, 1, USBHS_IN));
    begun(usbhs_start(usb_state, 64));
    begun(usbhs_begin_bus_poll(usb_state));
}

static void enabled(void)
{
    for (uint32_t e = 1; e <= OUTS; e++)
        begun(enable(e, USBHS_OUT));
    for (uint32_t e = 1; e <= INS; e++)
        begun(enable(e, USBHS_IN));
}

static void shows(uint8_t status)
{
    BYTE(INT_FG) = TRANSFER;
    BYTE(INT_ST) = status;
    SHORT(RX_LEN) = 0;
    SHORT(FRAME_NO) = (uint16_t)((frame >> 3 & 0x7FF) | (frame & 7) << 13);
}

#define TEXT_(x) #x
#define TEXT(x) TEXT_(x)

static void tell(const char *before, const char *name, uint32_t took)
{
    print("op ");
    print(before);
    print(name);
    print(" 1 ");
    print_number(took);
    print(" ");
    print_number(took);
    print("\n");
}

/* From the masking to its end. */
#define MASKED(name, begin)                                            \
    do {                                                               \
        uint64_t end_;                                                 \
        uint32_t began_ = instructions(), took_;                       \
        USB_OPERATE(end_, begin);                                      \
        took_ = instructions() - began_;                               \
        ended(end_);                                                   \
        tell("masked-", name, took_);                                  \
    } while (0)

/* Every OUT holds a packet of so many bytes that no interrupt has come for; this one, an IN's, stands for all. */
static void late(const char *before, const char *name, unsigned length)
{
    uint32_t began, took;

    for (uint32_t e = 1; e <= OUTS; e++)
        memset((void *)(uintptr_t)WORD(EP_RX_DMA(e)), 7, length);
    frame++;
    shows(IN | STATUS_IN);
    began = instructions();
    usb_interrupt();
    took = instructions() - began;
    tell(before, name, took);
}

/* Every IN has two packets queued. */
static void queued(void)
{
    static const uint8_t packet[USB_BUFFER];

    for (uint32_t e = 1; e <= INS; e++) {
        (void)usbhs_queue(usb_state, usb_slots, sizeof usb_slots, e, packet, sizeof packet);
        (void)usbhs_queue(usb_state, usb_slots, sizeof usb_slots, e, packet, sizeof packet);
    }
}

#define ENDPOINTS TEXT(INS) "-in-" TEXT(OUTS) "-out"

int main(void)
{
    start();
    MASKED("enable-" TEXT(SIZE), enable(1, USBHS_OUT));
    enabled();
    frame++;
    shows(SOF);
    usb_interrupt();
    queued();
#if SIZE == 64
    late("firmware-", ENDPOINTS, USB_BUFFER);
    queued();
    late("firmware-short-", ENDPOINTS, 4);
    BYTE(INT_FG) = RESET;
    MASKED("bus-reset-" ENDPOINTS, usbhs_begin_bus_poll(usb_state));
#else
    late("firmware-", ENDPOINTS "-" TEXT(SIZE), USB_BUFFER);
    queued();
    late("firmware-short-", ENDPOINTS "-" TEXT(SIZE), 4);
#endif
    return 0;
}
