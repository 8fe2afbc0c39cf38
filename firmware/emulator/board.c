/* SPDX-License-Identifier: MIT OR Apache-2.0 */
/* The emulator's board: the host goes on while the firmware sleeps or waits for the card, which is memory.
 * -DPRINT_CARD: at the end the card's blocks go out behind the log, a line each, for the desk's tool.
 * -DCUT: the power goes in the midst of a store (tests/chip/cuts). */
#include "../board.h"
#include <string.h>
#include "../console.h"
#include "../descriptors.h"
#include "../interrupts.h"
#include "../recorder.h"
#include "../usb.h"
#include "block.h"
#include "host.h"
#include "machine.h"

#define MIE_SOFTWARE 8u

#ifdef CUT
/* Loaded by the emulator: the card as it is before, how many stores end well, what the next one leaves there, and the
 * survey's number. */
#define PRINT_CARD
#define CARD_BLOCKS 24u
#define CARD ((uint8_t *)0x86000000)
#define STORES_UNTIL (*(volatile uint32_t *)0x85000000)
#define SEED (*(volatile uint32_t *)0x85000004)
#define SURVEY (*(volatile uint32_t *)0x85000008)
#else
#define CARD_BLOCKS 8192u
#define SURVEY 1u
static uint8_t memory[CARD_BLOCKS * USBHS_BLOCK_LEN];
#define CARD memory
#endif

void board_start(void)
{
    __asm__ volatile("csrs mie, %0" : : "r"(MIE_SOFTWARE));
}

void board_wait(unsigned microseconds)
{
    (void)microseconds;
}

const char *board_serial_number(void)
{
    return "EMULATOR";
}

int board_usb_interrupt(uint32_t cause)
{
    return cause == (0x80000000u | EMULATOR_INTERRUPT);
}

/* How many blocks from the card's begin on are to be printed. */
static uint32_t blocks;

static void print_card(void)
{
#ifdef PRINT_CARD
    for (uint32_t i = 0; i < blocks * USBHS_BLOCK_LEN; i++) {
        print(i % USBHS_BLOCK_LEN == 0 ? "card-bytes " : "");
        print_hex(CARD[i], 2);
        print(i % USBHS_BLOCK_LEN == USBHS_BLOCK_LEN - 1 ? "\n" : "");
    }
#endif
}

static void finish(void)
{
    int failed;

    recorder_finish();
    failed = host_check(CARD, CARD_BLOCKS * USBHS_BLOCK_LEN, usbhs_overruns(usb_state, SAMPLES_OUT));
    print_card();
    emulator_end(failed);
}

void board_sleep(void)
{
    if (!block_interrupt_pending() && !host_step())
        finish();
}

/* The bus goes on here too. */
void board_pause(void)
{
    board_sleep();
}

uint32_t board_survey_number(void)
{
    return SURVEY;
}

#ifdef CUT

static uint32_t random_number(void)
{
    SEED = SEED * 1664525u + 1013904223u;
    return SEED >> 8;
}

/* What a store leaves that does not end: a front, a rear or some bytes of the new block, or anything at all. */
static void tear(uint8_t *to, const uint8_t *from)
{
    unsigned kind = random_number() % 4, at = random_number() % (USBHS_BLOCK_LEN + 1);

    for (unsigned i = 0; i < USBHS_BLOCK_LEN; i++) {
        if (kind == 0 ? i < at : kind == 1 ? i >= at : kind == 2 && random_number() % 2 == 0)
            to[i] = from[i];
        if (kind == 3)
            to[i] = (uint8_t)random_number();
    }
}

/* So many stores later the power goes. */
static void cut(uint32_t place, const uint8_t block[USBHS_BLOCK_LEN])
{
    static uint32_t stores;

    if (stores++ < STORES_UNTIL)
        return;
    tear(CARD + place * USBHS_BLOCK_LEN, block);
    blocks = CARD_BLOCKS;
    print_card();
    emulator_end(0);
}

#else

static void cut(uint32_t place, const uint8_t block[USBHS_BLOCK_LEN])
{
    (void)place;
    (void)block;
}

#endif

int board_card_store(uint32_t place, const uint8_t block[USBHS_BLOCK_LEN])
{
    unsigned busy = host_card_busy();

    print("card: block ");
    print_number(place);
    print("\n");
    if (place >= CARD_BLOCKS)
        emulator_end(1);
    cut(place, block);
    memcpy(CARD + place * USBHS_BLOCK_LEN, block, USBHS_BLOCK_LEN);
    if (place >= blocks)
        blocks = place + 1;
    for (; busy > 0; busy--)
        host_step();
    return 1;
}
