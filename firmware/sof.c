/* SPDX-License-Identifier: MIT OR Apache-2.0 */
#include "sof.h"
#include "board.h"
#include "interrupts.h"
#include "usbhs.h"

#define ENABLE_SOF 64u

/* int_en and ep_config as the driver wrote them last. */
static uint32_t wanted, endpoints;
static int transfer, on;

static uint32_t allowed(void)
{
    return on ? wanted : wanted & ~ENABLE_SOF;
}

/* Whether SOFs are wanted now; int_en is written where that changes what it holds. */
static void decide(void)
{
    uint32_t before = allowed();

    if (endpoints == 0)
        on = 0;
    else if (!transfer)
        on = 1;
    if (allowed() != before)
        register_write(USBHS_INT_EN, 0, allowed());
}

void sof_write(unsigned number, uint32_t value)
{
    if (number == USBHS_INT_EN) {
        wanted = value;
        register_write(USBHS_INT_EN, 0, allowed());
        return;
    }
    register_write(USBHS_EP_CONFIG, 0, value);
    endpoints = value;
    decide();
}

int sof_is_on(void)
{
    return on;
}

void sof_transfer(int under_way)
{
    uint32_t before = interrupts_off();

    transfer = under_way;
    decide();
    interrupts_restore(before);
}
