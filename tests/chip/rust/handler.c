/* SPDX-License-Identifier: MIT OR Apache-2.0 */
/* The interrupts of tests/chip/handler.c, by the unchanged Rust or by the drop-in: the same endpoints, the same
 * readings, the same names.
 *
 *   SIDE NAME INSTRUCTIONS
 */
#include <string.h>
#include "../../../firmware/console.h"
#include "../../../firmware/emulator/machine.h"

#define BASE 0x88000000u
#define BYTE(offset) (*(volatile uint8_t *)(BASE + (offset)))
#define SHORT(offset) (*(volatile uint16_t *)(BASE + (offset)))
#define WORD(offset) (*(volatile uint32_t *)(BASE + (offset)))

enum { FRAME_NO = 0x04, MIS_ST = 0x09, INT_FG = 0x0A, INT_ST = 0x0B, RX_LEN = 0x0C, RX_DMA = 0x1C };
/* In document 01's bits, as the Rust's register crate here has them. */
enum { TRANSFER = 2, SETUP = 0x20, OUT = 0, SOF = 0x10, IN = 0x20, TOGGLE_OK = 0x40, FREE = 1 };
enum { SAMPLES_OUT = 1, STATUS_IN = 2, BUFFER = 64, ISOCHRONOUS = 1 };

void rust_start_up(void), rust_start(void), rust_interrupt(void), rust_callback(void (*callback)(void));
void rust_allocate(uint32_t kind, uint32_t endpoint, _Bool in, uint32_t most, uint32_t interval);
void rust_set_enabled(uint32_t endpoint, _Bool in, _Bool on);
int rust_take(uint32_t endpoint);
_Bool rust_queue(uint32_t endpoint, const uint8_t *bytes, uint32_t length);
uint32_t rust_others(uint32_t n, uint8_t *bytes, uint32_t length);

_Noreturn void rust_panics(void)
{
    print("the Rust panics\n");
    emulator_end(1);
    for (;;)
        ;
}

static void start_of_frame(void)
{
    static const uint8_t status[8];

    (void)rust_queue(STATUS_IN, status, sizeof status);
}

static void shows(uint8_t flags, uint8_t status, uint16_t length)
{
    BYTE(INT_FG) = flags;
    BYTE(INT_ST) = status;
    SHORT(RX_LEN) = length;
}

static void next_microframe(void)
{
    static unsigned index;

    index++;
    SHORT(FRAME_NO) = (uint16_t)(index >> 3 | (index & 7) << 13);
}

static void arrive(unsigned endpoint)
{
    memset((void *)(uintptr_t)WORD(RX_DMA + 4 * endpoint), 7, BUFFER);
}

#ifndef SIDE
#define SIDE "rust"
#endif

static void tell(const char *name, uint32_t took)
{
    print(SIDE " ");
    print(name);
    print(" ");
    print_number(took);
    print("\n");
}

static uint32_t interrupt(const char *name)
{
    uint32_t began = instructions(), took;

    rust_interrupt();
    took = instructions() - began;
    if (name)
        tell(name, took);
    return took;
}

static void started(unsigned outs, unsigned ins)
{
    memset((void *)BASE, 0, 0x200);
    BYTE(MIS_ST) = FREE;
    rust_start_up();
    for (unsigned e = 1; e <= outs; e++)
        rust_allocate(ISOCHRONOUS, SAMPLES_OUT + e - 1, 0, BUFFER, 1);
    for (unsigned e = 1; e <= ins; e++)
        rust_allocate(ISOCHRONOUS, ins == 1 ? STATUS_IN : e, 1, BUFFER, 1);
    rust_start();
    for (unsigned e = 1; e <= outs; e++)
        rust_set_enabled(e, 0, 1);
    for (unsigned e = 1; e <= ins; e++)
        rust_set_enabled(ins == 1 ? STATUS_IN : e, 1, 1);
}

/* SOF, IN and OUT, each with an interrupt of its own. */
static void on_time(void)
{
    uint32_t sof, in, out;

    next_microframe();
    shows(TRANSFER, SOF, 0);
    sof = interrupt("firmware-sof");
    shows(TRANSFER, IN | STATUS_IN, 0);
    in = interrupt("firmware-iso-in");
    arrive(SAMPLES_OUT);
    shows(TRANSFER, OUT | SAMPLES_OUT | TOGGLE_OK, BUFFER);
    out = interrupt("firmware-iso-out-64");
    tell("firmware-microframe", sof + in + out);
    shows(TRANSFER, SOF, 0);
    interrupt("firmware-sof-again");
}

/* One interrupt that comes late and stands for all three. */
static void late(void)
{
    next_microframe();
    arrive(SAMPLES_OUT);
    shows(TRANSFER, IN | STATUS_IN, 0);
    interrupt("firmware-microframe-late");
}

/* The SIE is never free: the driver gives up after its looks. */
static void stuck(void)
{
    BYTE(MIS_ST) = 0;
    arrive(SAMPLES_OUT);
    shows(TRANSFER, OUT | SAMPLES_OUT | TOGGLE_OK, BUFFER);
    interrupt("firmware-iso-out-64-stuck");
    BYTE(MIS_ST) = FREE;
}

/* Fifteen isochronous IN and fifteen OUT, all due in one interrupt. */
static void crowded(void)
{
    static const uint8_t packet[BUFFER];

    started(15, 15);
    next_microframe();
    shows(TRANSFER, SOF, 0);
    interrupt(0);
    for (unsigned e = 1; e <= 15; e++) {
        (void)rust_queue(e, packet, sizeof packet);
        (void)rust_queue(e, packet, sizeof packet);
        arrive(e);
    }
    next_microframe();
    shows(TRANSFER, IN | STATUS_IN, 0);
    interrupt("firmware-15-in-15-out");
}

#ifdef WINDOWS
extern uint32_t WINDOWS_AT[3] __asm__("WINDOWS");

/* When, after the interrupt's begin, the status is read, the flag released, the task of a packet woken. */
static void windows(void)
{
    uint32_t began;

    next_microframe();
    shows(TRANSFER, SOF, 0);
    WINDOWS_AT[0] = WINDOWS_AT[1] = 0;
    began = instructions();
    rust_interrupt();
    tell("firmware-status-read", WINDOWS_AT[0] - began);
    tell("firmware-flag-released", WINDOWS_AT[1] - began);
    arrive(SAMPLES_OUT);
    shows(TRANSFER, OUT | SAMPLES_OUT | TOGGLE_OK, BUFFER);
    WINDOWS_AT[2] = 0;
    began = instructions();
    rust_interrupt();
    tell("firmware-task-woken", WINDOWS_AT[2] - began);
}
#endif

int main(void)
{
#ifdef WINDOWS
    started(1, 1);
    windows();
    return 0;
#endif
    started(1, 1);
    rust_callback(start_of_frame);
    on_time();
    late();
    shows(SETUP, 0x30, 8);
    interrupt("firmware-setup");
    stuck();
    (void)rust_take(SAMPLES_OUT);
    crowded();
    if (BYTE(FRAME_NO) == 0xEE) /* never: keeps the other calls in the image */
        (void)rust_others(BYTE(MIS_ST), (uint8_t *)BASE, 64);
    return 0;
}
