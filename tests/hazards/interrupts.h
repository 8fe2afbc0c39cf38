/* SPDX-License-Identifier: MIT OR Apache-2.0 */
/* In place of firmware/interrupts.h, for a process: given with -include, so that its guard is taken. The hart's
 * interrupt bit is a variable; an interrupt is taken where the bit is set again while the block's line is up. */
#ifndef INTERRUPTS_H
#define INTERRUPTS_H

#include <stdint.h>

#define MSTATUS_MIE 8u

uint32_t interrupts_off(void);
void interrupts_restore(uint32_t before);

#endif
