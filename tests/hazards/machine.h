/* SPDX-License-Identifier: MIT OR Apache-2.0 */
/* In place of firmware/emulator/machine.h, for a process: given with -include. */
#ifndef MACHINE_H
#define MACHINE_H

#include <stdint.h>

__attribute__((noreturn)) void emulator_end(int failed);
void emulator_interrupt(int raised);
#define EMULATOR_INTERRUPT 3u

void trap(uint32_t cause);

/* Time in the firmware's accesses: the model asks when it leaves one and when the next one enters it. */
static inline uint32_t instructions(void)
{
    static uint32_t n;

    return ++n;
}

#endif
