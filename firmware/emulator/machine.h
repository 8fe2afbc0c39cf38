/* SPDX-License-Identifier: MIT OR Apache-2.0 */
/* What the emulator's machine (qemu, virt) gives beside RAM. */
#ifndef MACHINE_H
#define MACHINE_H

#include <stdint.h>

/* Ends the emulator: with 0, or with 1 where something failed. */
__attribute__((noreturn)) void emulator_end(int failed);

/* The hart's software interrupt, which stands for the chip's USBHS interrupt. */
void emulator_interrupt(int raised);
#define EMULATOR_INTERRUPT 3u

/* Called by start.S: on every trap, with mcause; when main returns. */
void trap(uint32_t cause);
__attribute__((noreturn)) void main_ended(int result);

/* Instructions retired, modulo 2^32; exact under -icount. */
static inline uint32_t instructions(void)
{
    uint32_t n;

    __asm__ volatile("csrr %0, minstret" : "=r"(n) : : "memory");
    return n;
}

#endif
