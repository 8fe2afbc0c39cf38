/* SPDX-License-Identifier: MIT OR Apache-2.0 */
/* The emulator's machine: serial port, end, software interrupt. */
#include "machine.h"
#include "../console.h"
#include "../trace.h"

#define SERIAL ((volatile uint8_t *)0x10000000)
#define FINISHER ((volatile uint32_t *)0x00100000)
#define PASS 0x5555u
#define FAIL 0x13333u /* exit code 1 in the upper half */
#define SOFTWARE_INTERRUPT ((volatile uint32_t *)0x02000000)

void console_put(char c)
{
    *SERIAL = (uint8_t)c;
}

/* The ring as a debugger would read it, behind the log: a line of 12 bytes for its front and for each entry. */
static void print_trace(void)
{
#ifdef USB_TRACE
    const uint8_t *bytes = (const uint8_t *)&usb_trace;

    for (unsigned i = 0; i < sizeof usb_trace && i < (usb_trace.count + 1) * TRACE_ENTRY_LEN; i++) {
        print(i % TRACE_ENTRY_LEN == 0 ? "trace " : "");
        print_hex(bytes[i], 2);
        print(i % TRACE_ENTRY_LEN == TRACE_ENTRY_LEN - 1 ? "\n" : "");
    }
#endif
}

void emulator_end(int failed)
{
    print_trace();
    *FINISHER = failed ? FAIL : PASS;
    for (;;)
        ;
}

void main_ended(int result)
{
    emulator_end(result != 0);
}

void emulator_interrupt(int raised)
{
    *SOFTWARE_INTERRUPT = (uint32_t)raised;
}

/* Programs that take no interrupt: any trap is a fault. */
__attribute__((weak)) void trap(uint32_t cause)
{
    print("trap ");
    print_hex(cause, 8);
    print("\n");
    emulator_end(1);
}
