/* SPDX-License-Identifier: MIT OR Apache-2.0 */
/* The emulator's board for a process on x86-64: the same firmware, block and host, in a fraction of the time. */
#include "../../firmware/board.h"
#include <stdio.h>
#include <stdlib.h>
#include <string.h>
#include "../../firmware/console.h"
#include "../../firmware/descriptors.h"
#include "../../firmware/emulator/block.h"
#include "../../firmware/emulator/host.h"
#include "../../firmware/recorder.h"
#include "../../firmware/usb.h"

static uint8_t *card;
static unsigned stored, room;

/* ---- the hart */

static uint32_t enabled;
static int line;

static void take(void)
{
    while (enabled && line) {
        enabled = 0;
        trap(0x80000000u | EMULATOR_INTERRUPT);
        enabled = MSTATUS_MIE;
    }
}

uint32_t interrupts_off(void)
{
    uint32_t before = enabled;

    enabled = 0;
    return before;
}

void interrupts_restore(uint32_t before)
{
    enabled |= before;
    take();
}

void emulator_interrupt(int raised)
{
    line = raised;
    take();
}

void emulator_end(int failed)
{
    exit(failed);
}

/* ---- the board */

void console_put(char c)
{
    putchar(c);
}

void board_start(void)
{
}

void board_wait(unsigned microseconds)
{
    (void)microseconds;
}

const char *board_serial_number(void)
{
    return "PROCESS";
}

int board_usb_interrupt(uint32_t cause)
{
    return cause == (0x80000000u | EMULATOR_INTERRUPT);
}

void board_sleep(void)
{
    if (block_interrupt_pending() || host_step())
        return;
    recorder_finish();
    emulator_end(host_check(card, stored, usbhs_overruns(usb_state, SAMPLES_OUT)));
}

void board_pause(void)
{
    board_sleep();
}

uint32_t board_survey_number(void)
{
    return 1;
}

int board_card_store(uint32_t place, const uint8_t block[USBHS_BLOCK_LEN])
{
    unsigned busy = host_card_busy();
    unsigned end = (place + 1) * USBHS_BLOCK_LEN;

    while (end > room) {
        room = room == 0 ? 1u << 20 : 2 * room;
        card = realloc(card, room);
        if (card == NULL)
            emulator_end(2);
    }
    memcpy(card + end - USBHS_BLOCK_LEN, block, USBHS_BLOCK_LEN);
    if (end > stored)
        stored = end;
    for (; busy > 0; busy--)
        host_step();
    return 1;
}
