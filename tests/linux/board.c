/* SPDX-License-Identifier: MIT OR Apache-2.0 */
/* The board as a process: the bus goes on while the firmware sleeps or waits for its card, which is a file. */
#include "board.h"
#include <stdio.h>
#include <stdlib.h>
#include "bridge/bridge.h"
#include "console.h"
#include "device.h"
#include "emulator/block.h"
#include "emulator/machine.h"
#include "interrupts.h"
#include "usbhs.h"

#define STORM 10000u

static FILE *card, *console;
static unsigned card_busy;

/* ---- the hart: one interrupt line, taken where interrupts are on */

static uint32_t enabled;
static int line, in_interrupt;
static unsigned taken;

/* An interrupt that is taken and not served would be taken for ever. */
static void check_storm(void)
{
    static unsigned served_last, count;

    count = taken == served_last + 1 && line ? count + 1 : 0;
    served_last = taken;
    if (count < STORM)
        return;
    fprintf(console, "board: an interrupt is not served\n");
    fclose(console);
    exit(3);
}

static void take(void)
{
    while (enabled && line) {
        enabled = 0;
        in_interrupt = 1;
        taken++;
        trap(0x80000000u | EMULATOR_INTERRUPT);
        in_interrupt = 0;
        enabled = MSTATUS_MIE;
        check_storm();
    }
}

uint32_t interrupts_off(void)
{
    uint32_t before = enabled;

    enabled = 0;
    return before;
}

void interrupts_restore(uint32_t before)
{
    enabled |= before;
    take();
}

void emulator_interrupt(int raised)
{
    line = raised;
    take();
}

int board_masked(void)
{
    return !enabled;
}

int board_in_interrupt(void)
{
    return in_interrupt;
}

/* ---- the firmware's accesses, in the log with TRACE=2 (linked with --wrap) */

static const char *const registers[] = {"int_fg", "int_st", "mis_st", "rx_len", "frame_no", "ctrl", "int_en", "dev_ad",
    "host_ctrl", "ep_config", "ep_type", "ep_buf_mod", "ep0_dma", "ep_max_len", "ep_t_len", "ep_rx_dma", "ep_tx_dma",
    "ep_rx_ctrl", "ep_tx_ctrl"};

uint32_t __real_register_read(unsigned number, unsigned endpoint);
void __real_register_write(unsigned number, unsigned endpoint, uint32_t value);
uint32_t __wrap_register_read(unsigned number, unsigned endpoint);
void __wrap_register_write(unsigned number, unsigned endpoint, uint32_t value);

uint32_t __wrap_register_read(unsigned number, unsigned endpoint)
{
    uint32_t value = __real_register_read(number, endpoint);

    if (bridge_of_interest())
        fprintf(console, "        %s %u -> %X\n", registers[number], endpoint, value);
    return value;
}

void __wrap_register_write(unsigned number, unsigned endpoint, uint32_t value)
{
    if (bridge_of_interest())
        fprintf(console, "        %s %u <- %X\n", registers[number], endpoint, value);
    __real_register_write(number, endpoint, value);
}

/* ---- the board */

static FILE *opened(const char *variable)
{
    const char *name = getenv(variable);
    FILE *file = fopen(name != NULL ? name : "/dev/null", "wb");

    if (file == NULL) {
        perror(name);
        exit(2);
    }
    return file;
}

void console_put(char c)
{
    putc(c, console);
}

void board_start(void)
{
    card = opened("CARD");
    console = opened("CONSOLE");
    card_busy = number_of("CARD_BUSY");
    bridge_start(console);
}

void board_wait(unsigned microseconds)
{
    (void)microseconds;
}

const char *board_serial_number(void)
{
    return "LINUX-0001";
}

int board_usb_interrupt(uint32_t cause)
{
    return cause == (0x80000000u | EMULATOR_INTERRUPT);
}

static void finish(void)
{
    device_finish();
    fclose(card);
    bridge_end(taken);
    fclose(console);
    exit(0);
}

void board_sleep(void)
{
    if (!block_interrupt_pending() && !bridge_step())
        finish();
}

/* The bus goes on here too. */
void board_pause(void)
{
    board_sleep();
}

/* A slow card (CARD_BUSY=n): up to n steps of the bus pass, with interrupts on. */
int board_card_store(uint32_t place, const uint8_t block[USBHS_BLOCK_LEN])
{
    if (fseek(card, (long)place * USBHS_BLOCK_LEN, SEEK_SET) != 0 || fwrite(block, USBHS_BLOCK_LEN, 1, card) != 1)
        return 0;
    for (unsigned busy = card_busy > 0 ? random_number(card_busy) : 0; busy > 0; busy--)
        bridge_step();
    return 1;
}

uint32_t board_survey_number(void)
{
    return 1;
}
