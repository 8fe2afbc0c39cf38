/* SPDX-License-Identifier: MIT OR Apache-2.0 */
/* The one file that touches the USBHS block's registers: an access as include/usbhs.h packs it, made in the chip's
 * layout.
 *
 * NOT TRIED ON SILICON: layout.h says what is not verified. The emulator's back end is emulator/block.c. */
#include "../board.h"
#include "../usb.h"
#include "layout.h"

#define BYTE(offset) (*(volatile uint8_t *)(USBHS_BASE + (offset)))
#define SHORT(offset) (*(volatile uint16_t *)(USBHS_BASE + (offset)))
#define WORD(offset) (*(volatile uint32_t *)(USBHS_BASE + (offset)))

static const uint8_t control[] = CONTROL_BITS, int_en[] = INT_EN_BITS, int_fg[] = INT_FG_BITS, int_st[] = INT_ST_BITS,
                     mis_st[] = MIS_ST_BITS, host_ctrl[] = HOST_CTRL_BITS, ep_ctrl[] = EP_CTRL_BITS;

/* From the chip's bits to the packing's; others, which the driver would refuse (row 16), are left out. */
static uint32_t packed(uint32_t chip, const uint8_t *bits, unsigned count)
{
    uint32_t value = 0;

    for (unsigned i = 0; i < count; i++)
        value |= (chip >> bits[i] & 1u) << i;
    return value;
}

/* The other way; other bits become 0, as with the Rust's `write`. */
static uint8_t unpacked(uint32_t value, const uint8_t *bits, unsigned count)
{
    uint32_t chip = 0;

    for (unsigned i = 0; i < count; i++)
        chip |= (value >> i & 1u) << bits[i];
    return (uint8_t)chip;
}

#define PACKED(offset, bits) packed(BYTE(offset), bits, sizeof bits)
#define UNPACK(offset, bits, value) (BYTE(offset) = unpacked(value, bits, sizeof bits))

/* The driver reads these and no others. */
uint32_t register_read(unsigned number, unsigned e)
{
    switch (number) {
    case USBHS_INT_FG: return PACKED(INT_FG, int_fg);
    case USBHS_INT_ST: return PACKED(INT_ST, int_st);
    case USBHS_MIS_ST: return PACKED(MIS_ST, mis_st);
    case USBHS_RX_LEN: return SHORT(RX_LEN);
    case USBHS_FRAME_NO: return SHORT(FRAME_NO);
    case USBHS_CTRL: return PACKED(CONTROL, control);
    case USBHS_EP_RX_CTRL: return PACKED(EP_RX_CTRL(e), ep_ctrl);
    case USBHS_EP_TX_CTRL: return PACKED(EP_TX_CTRL(e), ep_ctrl);
    default: return 0;
    }
}

/* A buffer's register takes an address: the slots' and the offset. */
static uint32_t address(uint32_t offset)
{
    return (uint32_t)(uintptr_t)usb_slots + offset;
}

void register_write(unsigned number, unsigned e, uint32_t value)
{
    switch (number) {
    case USBHS_INT_FG: UNPACK(INT_FG, int_fg, value); break;
    case USBHS_CTRL: UNPACK(CONTROL, control, value); break;
    case USBHS_INT_EN: UNPACK(INT_EN, int_en, value); break;
    case USBHS_DEV_AD: BYTE(DEV_AD) = (uint8_t)value; break;
    case USBHS_HOST_CTRL: UNPACK(HOST_CTRL, host_ctrl, value); break;
    case USBHS_EP_CONFIG: WORD(EP_CONFIG) = value; break;
    case USBHS_EP_TYPE: WORD(EP_TYPE) = value; break;
    case USBHS_EP_BUF_MOD: WORD(EP_BUF_MOD) = value; break;
    case USBHS_EP0_DMA: WORD(EP0_DMA) = address(value); break;
    case USBHS_EP_MAX_LEN: SHORT(EP_MAX_LEN(e)) = (uint16_t)value; break;
    case USBHS_EP_T_LEN: SHORT(EP_T_LEN(e)) = (uint16_t)value; break;
    case USBHS_EP_RX_DMA: WORD(EP_RX_DMA(e)) = address(value); break;
    case USBHS_EP_TX_DMA: WORD(EP_TX_DMA(e)) = address(value); break;
    case USBHS_EP_RX_CTRL: UNPACK(EP_RX_CTRL(e), ep_ctrl, value); break;
    case USBHS_EP_TX_CTRL: UNPACK(EP_TX_CTRL(e), ep_ctrl, value); break;
    default: break;
    }
}
