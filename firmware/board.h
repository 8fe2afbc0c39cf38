/* SPDX-License-Identifier: MIT OR Apache-2.0 */
/* What the firmware asks of the board. Two back ends: ch32v30x/ and emulator/. */
#ifndef BOARD_H
#define BOARD_H

#include <stdint.h>
#include "usbhs_survey.h"

/* One access to the USBHS block: `number` and `value` as include/usbhs.h has them, an address being an offset into the
 * slots. */
uint32_t register_read(unsigned number, unsigned endpoint);
void register_write(unsigned number, unsigned endpoint, uint32_t value);

/* Clocks, pins and the interrupt controller; the hart's interrupts are still off. */
void board_start(void);

void board_wait(unsigned microseconds);

/* The board's own, for the host to tell two apart. */
const char *board_serial_number(void);

/* Until an interrupt is pending. Called with interrupts off, so that none is taken between the look for work and
 * this. */
void board_sleep(void);

/* In place of the sleep while something waits for time to pass: returns soon, interrupt or not. */
void board_pause(void);

/* Whether this mcause is the USBHS block's interrupt. */
int board_usb_interrupt(uint32_t cause);

/* Stores a block at a place of the card, and returns when it is stored: 1, or 0 where it failed or the card has no such
 * place. May take long: interrupts are taken meanwhile. */
int board_card_store(uint32_t place, const uint8_t block[USBHS_BLOCK_LEN]);

/* The number of the survey that begins; the older survey on the card should have another. */
uint32_t board_survey_number(void);

#endif
