/* SPDX-License-Identifier: MIT OR Apache-2.0
 *
 * The smallest device: it enumerates and has no endpoint but 0. Its interrupt handler is usb_interrupt. */
#include "board.h"
#include "driver.h"

const uint8_t configuration[] = {
    9, 2, 18, 0, 1, 1, 0, 0x80, 50, /* a configuration of 18 bytes, one interface, 100 mA */
    9, 4, 0, 0, 0, 0xFF, 0, 0, 0,   /* the interface, no endpoints */
};
const unsigned configuration_length = sizeof configuration;

void woken(unsigned task) { (void)task; } /* all is polled in the loop below */

int main(void)
{
    if (usb_start() != 0)
        return 1;
    for (;;) {
        usb_poll();
        board_idle();
    }
}
