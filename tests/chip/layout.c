/* SPDX-License-Identifier: MIT OR Apache-2.0 */
/* The chip's layout (firmware/ch32v30x) over plain memory: what is written is read back, and no two registers share
 * a bit. Whether the layout is the chip's own no test here can tell. */
#include <string.h>
#include "../../firmware/console.h"
#include "../../firmware/emulator/machine.h"
#include "../../firmware/board.h"
#include "../../firmware/usb.h"

#define BLOCK ((uint8_t *)USBHS_BASE)
#define BLOCK_LENGTH 0x200u

/* An address is written with the slots' own added: 0 here would hide it. */
uint8_t usb_slots[USB_BUFFERS * USB_BUFFER] __attribute__((aligned(4)));

static uint8_t used[BLOCK_LENGTH];
static int wrong;

static void expect(int holds, const char *what, unsigned number, unsigned endpoint)
{
    if (holds)
        return;
    print(what);
    print(": register ");
    print_number(number);
    print(", endpoint ");
    print_number(endpoint);
    print("\n");
    wrong = 1;
}

static int is_address(unsigned number)
{
    return number == USBHS_EP0_DMA || number == USBHS_EP_RX_DMA || number == USBHS_EP_TX_DMA;
}

/* Bits that the driver reads and writes; 0 for the others. */
static uint32_t readable(unsigned number)
{
    switch (number) {
    case USBHS_INT_FG: return 0x3F;
    case USBHS_CTRL: return 0x3F;
    case USBHS_EP_RX_CTRL:
    case USBHS_EP_TX_CTRL: return 0x1F;
    default: return 0;
    }
}

/* The greatest value that a register is written. */
static uint32_t greatest(unsigned number)
{
    switch (number) {
    case USBHS_INT_EN:
    case USBHS_DEV_AD: return 0x7F;
    case USBHS_HOST_CTRL: return 1;
    case USBHS_EP_MAX_LEN:
    case USBHS_EP_T_LEN: return 0xFFFF;
    case USBHS_EP_CONFIG:
    case USBHS_EP_TYPE:
    case USBHS_EP_BUF_MOD: return 0xFFFFFFFFu;
    default: return is_address(number) ? 0xFFFFFFFFu - (uint32_t)(uintptr_t)usb_slots : readable(number);
    }
}

static void written(unsigned number, unsigned endpoint)
{
    int any = 0;

    memset(BLOCK, 0, BLOCK_LENGTH);
    register_write(number, endpoint, greatest(number));
    for (unsigned i = 0; i < BLOCK_LENGTH; i++) {
        expect((BLOCK[i] & used[i]) == 0, "two share a bit", number, endpoint);
        used[i] |= BLOCK[i];
        any |= BLOCK[i];
    }
    expect(any, "nothing is written", number, endpoint);
    for (uint32_t v = 0; v <= readable(number) && readable(number) != 0; v++) {
        register_write(number, endpoint, v);
        expect(register_read(number, endpoint) == v, "read back otherwise", number, endpoint);
    }
}

int main(void)
{
    for (unsigned number = 0; number <= USBHS_EP_TX_CTRL; number++) {
        unsigned first = is_address(number) && number != USBHS_EP0_DMA ? 1 : 0;
        unsigned last = number >= USBHS_EP_MAX_LEN ? 15 : 0;

        /* read only */
        if (number >= USBHS_INT_ST && number <= USBHS_FRAME_NO)
            continue;
        for (unsigned endpoint = first; endpoint <= last; endpoint++)
            written(number, endpoint);
    }
    return wrong;
}
