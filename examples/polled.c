/* SPDX-License-Identifier: MIT OR Apache-2.0
 *
 * Without interrupts: the loop looks at the flags itself, serves them, and takes the packets of an isochronous OUT in
 * place. The loop must come by more often than packets do (125 us), or they are overwritten before the driver sees
 * them; between two looks up to sixteen wait in the ring. Keep the block's interrupt off. */
#include "board.h"
#include "driver.h"

enum { STREAM = 1 };

const uint8_t configuration[] = {
    9, 2, 25, 0, 1, 1, 0, 0x80, 50, /* a configuration of 25 bytes, one interface */
    9, 4, 0, 0, 1, 0xFF, 0, 0, 0,   /* the interface, one endpoint */
    7, 5, STREAM, 1, 64, 0, 1,      /* isochronous OUT 1, 64 bytes, every microframe */
};
const unsigned configuration_length = sizeof configuration;

void woken(unsigned task) { (void)task; }

/* One reader per endpoint: two would get one packet twice. */
static void take(void)
{
    uint16_t stamp; /* the microframe in which the packet was admitted */
    uint64_t word;

    while (USBHS_KIND(word = usbhs_open(usb_state, usb_slots, sizeof usb_slots, STREAM, &stamp)) == USBHS_SHOWN) {
        const uint8_t *bytes = usb_slots + USBHS_OFFSET(word);
        unsigned length = USBHS_LENGTH(word);
        (void)bytes, (void)length; /* yours: the packet's bytes, where the chip put them */
        usbhs_close(usb_state, STREAM);
    }
}

int main(void)
{
    if (usb_start() != 0)
        return 1;
    for (;;) {
        if (board_read(USBHS_INT_FG, 0) & USBHS_MASK(USBHS_INT_FG))
            usb_interrupt();
        take();
        usb_poll();
        board_idle();
    }
}
