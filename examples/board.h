/* SPDX-License-Identifier: MIT OR Apache-2.0
 *
 * What your board has for the examples. firmware/ch32v30x/registers.c is the register access of a CH32V30x: the packed
 * words of usbhs.h as the chip's registers, an offset into the slots as an address. */
#ifndef BOARD_H
#define BOARD_H

#include <stdint.h>

uint32_t board_read(unsigned reg, unsigned endpoint);
void board_write(unsigned reg, unsigned endpoint, uint32_t value);
void board_wait(unsigned microseconds);

/* The USBHS block's interrupt: board_mask answers whether it was masked before. */
int board_mask(void);
void board_restore(int before);

/* Nothing to do: wait for an interrupt, or return at once. */
void board_idle(void);

#endif
