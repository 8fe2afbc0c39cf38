/* SPDX-License-Identifier: MIT OR Apache-2.0 */
/* A board with a CH32V30x. NOT TRIED ON SILICON, as layout.h says.
 *
 * Left to the board, as weak functions that do nothing: clocks (the system's and the USB PHY's PLL, for which the
 * driver's Rust has ch32-hal), a console, a card. */
#include "../board.h"
#include "../console.h"
#include "layout.h"

#define HARDWARE(address) (*(volatile uint32_t *)(address))
#define CYCLES_PER_MICROSECOND 144u

void board_clocks(void);
void main_ended(int result);

__attribute__((weak)) void board_clocks(void)
{
}

__attribute__((weak)) void console_put(char c)
{
    (void)c;
}

__attribute__((weak)) int board_card_store(uint32_t place, const uint8_t block[USBHS_BLOCK_LEN])
{
    (void)place;
    (void)block;
    return 0;
}

__attribute__((weak)) uint32_t board_survey_number(void)
{
    return 0;
}

void board_start(void)
{
    board_clocks();
    HARDWARE(RCC_AHB_ENABLE) |= RCC_AHB_USBHS;
    HARDWARE(PFIC_ENABLE(USBHS_INTERRUPT)) = 1u << USBHS_INTERRUPT % 32u;
}

/* At least so long: a round takes more than a cycle. */
void board_wait(unsigned microseconds)
{
    for (unsigned n = microseconds * CYCLES_PER_MICROSECOND; n > 0; n--)
        __asm__ volatile("nop");
}

/* The chip's unique number of 96 bits, in 24 digits. */
const char *board_serial_number(void)
{
    static char digits[25];

    for (unsigned i = 0; i < 24; i++)
        digits[i] = "0123456789ABCDEF"[HARDWARE(UNIQUE_ID + i / 8 * 4) >> (28 - i % 8 * 4) & 15];
    return digits;
}

void board_sleep(void)
{
    __asm__ volatile("wfi");
}

void board_pause(void)
{
}

int board_usb_interrupt(uint32_t cause)
{
    return cause == (0x80000000u | USBHS_INTERRUPT);
}

/* The driver refused the start: nothing to run. */
void main_ended(int result)
{
    (void)result;
    for (;;)
        board_sleep();
}
