/* SPDX-License-Identifier: MIT OR Apache-2.0 */
/* In place of firmware/interrupts.h, whose guard it takes (-include): the hart's interrupt bit is a variable of
 * board.c, and an interrupt is taken where it is set again while the block's line is up. */
#ifndef INTERRUPTS_H
#define INTERRUPTS_H

#include <stdint.h>

#define MSTATUS_MIE 8u

uint32_t interrupts_off(void);
void interrupts_restore(uint32_t before);

#endif
