/* SPDX-License-Identifier: MIT OR Apache-2.0
 *
 * A board for the examples on a PC: a chip that is free, and a host that asks once for the device descriptor. The
 * example passes when its answer is armed: 18 bytes, those of the descriptor. */
#include <setjmp.h>
#include <stdio.h>
#include <stdlib.h>
#include <string.h>

#include "board.h"
#include "driver.h"

static unsigned idle, flags, armed, ep0_at, masked;

static void fail(const char *why)
{
    printf("example: %s\n", why);
    exit(1);
}

uint32_t board_read(unsigned reg, unsigned endpoint)
{
    (void)endpoint;
    switch (reg) {
    case USBHS_MIS_ST: return 1;
    case USBHS_INT_FG: return flags | 1u << 31; /* a bit that the packing has not */
    case USBHS_INT_ST: return 0x30;             /* SETUP of endpoint 0 */
    case USBHS_RX_LEN: return 8;
    default: return 0;
    }
}

void board_write(unsigned reg, unsigned endpoint, uint32_t value)
{
    if (reg == USBHS_INT_FG)
        flags &= ~value;
    if (reg == USBHS_EP0_DMA)
        ep0_at = value;
    if (reg == USBHS_EP_T_LEN && endpoint == 0)
        armed = value;
}

void board_wait(unsigned microseconds) { (void)microseconds; }
int board_mask(void)
{
    int before = (int)masked;
    masked = 1;
    return before;
}
void board_restore(int before) { masked = (unsigned)before; }

void board_idle(void)
{
    static const uint8_t setup[8] = {0x80, 6, 0, 1, 0, 0, 64, 0};

    if (++idle == 3) {
        memcpy(usb_slots + ep0_at, setup, sizeof setup);
        flags = 0x20;
#ifndef POLLED
        usb_interrupt();
#endif
    }
    if (armed == 18) {
        if (usb_slots[ep0_at] != 18 || usb_slots[ep0_at + 1] != 1)
            fail("another answer than the device descriptor");
        puts("example: answered with its device descriptor");
        exit(0);
    }
    if (idle > 20)
        fail("the host's question was not answered");
}

/* A scheduler of two tasks that never switches between them but where one waits. */
static jmp_buf back;
static unsigned wakes[2];
void rtos_wait(unsigned task)
{
    board_idle();
    if (!wakes[task])
        longjmp(back, 1);
    wakes[task] = 0;
}
void rtos_wake(unsigned task) { wakes[task] = 1; }
void rtos_run(void (*control)(void), void (*stream)(void))
{
    volatile unsigned turn = 0;
    setjmp(back);
    for (;;)
        (turn++ % 2 == 0 ? control : stream)();
}
