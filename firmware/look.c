/* SPDX-License-Identifier: MIT OR Apache-2.0 */
#include "look.h"
#include "board.h"
#include "usb.h"

/* The first word of an armed slot until a packet lands there; on the chip in this order of bytes. */
#define MARK 0x5A3CA5C3u

static uint32_t slots[16], isochronous, enabled;

void look_written(unsigned number, unsigned endpoint, uint32_t value)
{
    switch (number) {
    case USBHS_EP_RX_DMA: slots[endpoint] = value; break;
    case USBHS_EP_TYPE: isochronous = value; break;
    case USBHS_EP_CONFIG: enabled = value; break;
    default: break;
    }
}

/* The chip stores there too. */
static int landed(uint32_t offset)
{
    return *(const volatile uint32_t *)(usb_slots + offset) != MARK;
}

static int left(void)
{
    uint32_t out = (isochronous & enabled) >> 16;

    for (unsigned endpoint = 1; out >> endpoint != 0; endpoint++)
        if ((out >> endpoint & 1) != 0 && landed(slots[endpoint]))
            return 1;
    return 0;
}

/* Not in line: the interrupt is 30 instructions shorter so. */
__attribute__((noinline)) int look_wanted(void)
{
    return left() && (register_read(USBHS_INT_FG, 0) & LOOK_TRANSFER) == 0;
}

uint32_t look_token(void)
{
    return register_read(USBHS_MIS_ST, 0) & LOOK_FREE ? LOOK_TOKEN : register_read(USBHS_INT_ST, 0);
}
