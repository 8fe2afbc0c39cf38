/* SPDX-License-Identifier: MIT OR Apache-2.0 */
/* The hart's interrupts off and on again: masking. What one call of the driver is lent no other call may touch, and
 * while an operation is continued the driver's interrupt is to wait (include/usbhs.h). */
#ifndef INTERRUPTS_H
#define INTERRUPTS_H

#include <stdint.h>

#define MSTATUS_MIE 8u

static inline uint32_t interrupts_off(void)
{
    uint32_t before;

    __asm__ volatile("csrrci %0, mstatus, 8" : "=r"(before) : : "memory");
    return before & MSTATUS_MIE;
}

/* As they were before that. */
static inline void interrupts_restore(uint32_t before)
{
    __asm__ volatile("csrs mstatus, %0" : : "r"(before) : "memory");
}

#endif
