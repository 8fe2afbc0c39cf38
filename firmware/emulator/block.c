/* SPDX-License-Identifier: MIT OR Apache-2.0 */
#include "block.h"
#include "../board.h"
#include "../usb.h"
#include "host.h"
#include "machine.h"

/* Bits of the packing in include/usbhs.h. */
enum {
    FLAG_BUS_RESET = 1, FLAG_TRANSFER = 2, FLAG_SUSPEND = 4, FLAG_SETUP = 32,
    ENABLE_SETUP = 4, ENABLE_SUSPEND = 8, ENABLE_BUS_RESET = 16, ENABLE_TRANSFER = 32, ENABLE_SOF = 64,
    TOKEN_OUT = 0 << 4, TOKEN_SOF = 1 << 4, TOKEN_IN = 2 << 4, TOKEN_SETUP = 3 << 4, TOGGLE_OK = 1 << 6,
    MISC_FREE = 1, MISC_SUSPENDED = 2,
    CTRL_CLEAR = 1, CTRL_INT_BUSY = 4, CTRL_PULL_UP = 32,
    RESPONSE = 3, RESPONSE_ACK = 0, RESPONSE_STALL = 3, TOGGLE = 3 << 2, TOGGLE_DATA1 = 1 << 2, AUTOMATIC = 16
};

/* Three questions that no document answers (docs/SILICON.md): a build may choose the other answer. */

/* INT_ST shows NAKed tokens too: a comment of the Rust's says so, not whether of those that INT_BUSY NAKs. */
#ifndef NAKED_TOKENS_SHOW
#define NAKED_TOKENS_SHOW 1
#endif

/* INT_ST shows a SOF while its interrupt is off: nobody says. */
#ifndef SOFS_ALWAYS_SHOW
#define SOFS_ALWAYS_SHOW 0
#endif

/* INT_BUSY holds off tokens while a setup packet waits too, not only while a transfer does. Else an IN right after a
 * SETUP would be answered with what the transfer before left armed or stalled (USB 2.0, 8.5.3: a setup packet ends
 * that transfer, and nothing of it may come after), and EP0 has one buffer, so that even the setup packet's own bytes
 * could go out as data. Neither the Rust nor any firmware for this chip does anything against that. */
#ifndef SETUP_HOLDS_OFF
#define SETUP_HOLDS_OFF 1
#endif

static uint32_t written[19][16];
static uint32_t flags, status, received, frame, suspended;

/* A packet that is still on the bus. */
static struct {
    unsigned endpoint, length, looks;
    const uint8_t *bytes;
} slow;

static uint32_t enabled_flags(void)
{
    uint32_t on = written[USBHS_INT_EN][0], mask = 0;

    if (on & ENABLE_BUS_RESET)
        mask |= FLAG_BUS_RESET;
    if (on & ENABLE_TRANSFER)
        mask |= FLAG_TRANSFER;
    if (on & ENABLE_SUSPEND)
        mask |= FLAG_SUSPEND;
    if (on & ENABLE_SETUP)
        mask |= FLAG_SETUP;
    return mask;
}

int block_interrupt_pending(void)
{
    return (flags & enabled_flags()) != 0;
}

int block_attached(void)
{
    return (written[USBHS_CTRL][0] & CTRL_PULL_UP) != 0;
}

static void raise(uint32_t flag)
{
    flags |= flag;
    emulator_interrupt(block_interrupt_pending());
}

static int is(unsigned number, unsigned bit)
{
    return (written[number][0] >> bit & 1) != 0;
}

/* Where an endpoint's bytes lie: EP0 has one buffer for both directions. */
static uint8_t *buffer(unsigned number, unsigned endpoint)
{
    return usb_slots + (endpoint == 0 ? written[USBHS_EP0_DMA][0] : written[number][endpoint]);
}

static void take(unsigned endpoint, const uint8_t *bytes, unsigned length)
{
    uint8_t *to = buffer(USBHS_EP_RX_DMA, endpoint);

    for (unsigned i = 0; i < length && i < written[USBHS_EP_MAX_LEN][endpoint]; i++)
        to[i] = bytes[i];
    received = length;
}

static void flip(unsigned number, unsigned endpoint)
{
    if (written[number][endpoint] & AUTOMATIC)
        written[number][endpoint] ^= TOGGLE_DATA1;
}

/* ---- the bus */

void block_reset(void)
{
    raise(FLAG_BUS_RESET);
}

void block_suspend(int now)
{
    suspended = now ? MISC_SUSPENDED : 0;
    raise(FLAG_SUSPEND);
}

void block_sof(unsigned microframe)
{
    frame = (microframe >> 3 & 0x7FF) | (microframe & 7) << 13;
    if (SOFS_ALWAYS_SHOW || (written[USBHS_INT_EN][0] & ENABLE_SOF))
        status = TOKEN_SOF;
    if (written[USBHS_INT_EN][0] & ENABLE_SOF)
        raise(FLAG_TRANSFER);
}

enum handshake block_setup(unsigned address, const uint8_t packet[8])
{
    if (address != written[USBHS_DEV_AD][0])
        return NOBODY;
    for (unsigned i = 0; i < 8; i++)
        buffer(USBHS_EP_RX_DMA, 0)[i] = packet[i];
    status = TOKEN_SETUP | TOGGLE_OK;
    raise(FLAG_SETUP);
    return HANDSHAKE_ACK;
}

/* Whether a token reaches this endpoint, `enable` being its bit in ep_config. */
static int reached(unsigned address, unsigned endpoint, unsigned enable)
{
    return address == written[USBHS_DEV_AD][0] && (endpoint == 0 || is(USBHS_EP_CONFIG, enable));
}

/* The answer of an endpoint that is not isochronous. While one of these flags stands all are NAKed (int_busy). */
static enum handshake answer(uint32_t control)
{
    uint32_t holding = SETUP_HOLDS_OFF ? FLAG_TRANSFER | FLAG_SETUP : FLAG_TRANSFER;

    if ((written[USBHS_CTRL][0] & CTRL_INT_BUSY) && (flags & holding))
        return HANDSHAKE_NAK;
    if ((control & RESPONSE) == RESPONSE_STALL)
        return HANDSHAKE_STALL;
    return (control & RESPONSE) == RESPONSE_ACK ? HANDSHAKE_ACK : HANDSHAKE_NAK;
}

/* INT_ST after a token that was answered so. */
static void show(uint32_t token, enum handshake handshake)
{
    if (NAKED_TOKENS_SHOW || handshake == HANDSHAKE_ACK || handshake == UNACKNOWLEDGED)
        status = token;
}

enum handshake block_out(unsigned address, unsigned endpoint, unsigned toggle, const uint8_t *bytes, unsigned length)
{
    uint32_t control = written[USBHS_EP_RX_CTRL][endpoint];
    enum handshake handshake = UNACKNOWLEDGED;
    int isochronous = is(USBHS_EP_TYPE, 16 + endpoint), expected = (control & TOGGLE) >> 2 == toggle;

    if (!reached(address, endpoint, 16 + endpoint))
        return NOBODY;
    if (!isochronous)
        handshake = answer(control);
    show(TOKEN_OUT | endpoint, handshake);
    if (!isochronous && handshake != HANDSHAKE_ACK)
        return handshake;
    take(endpoint, bytes, length);
    if (isochronous || expected)
        status |= TOGGLE_OK;
    if (expected)
        flip(USBHS_EP_RX_CTRL, endpoint);
    raise(FLAG_TRANSFER);
    return handshake;
}

enum handshake block_in(unsigned address, unsigned endpoint, uint8_t *room, unsigned *length, unsigned *toggle)
{
    uint32_t control = written[USBHS_EP_TX_CTRL][endpoint];
    enum handshake handshake = UNACKNOWLEDGED;
    int isochronous = is(USBHS_EP_TYPE, endpoint);

    *length = 0;
    *toggle = (control & TOGGLE) >> 2;
    if (!reached(address, endpoint, endpoint))
        return NOBODY;
    if (!isochronous)
        handshake = answer(control);
    show(TOKEN_IN | endpoint, handshake);
    if (!isochronous && handshake != HANDSHAKE_ACK)
        return handshake;
    *length = written[USBHS_EP_T_LEN][endpoint];
    for (unsigned i = 0; i < *length; i++)
        room[i] = buffer(USBHS_EP_TX_DMA, endpoint)[i];
    flip(USBHS_EP_TX_CTRL, endpoint);
    raise(FLAG_TRANSFER);
    return handshake;
}

void block_out_slow(unsigned endpoint, const uint8_t *bytes, unsigned length, unsigned looks)
{
    status = TOKEN_OUT | endpoint;
    slow.endpoint = endpoint;
    slow.bytes = bytes;
    slow.length = length;
    slow.looks = looks;
    raise(FLAG_TRANSFER);
}

/* A look at mis_st: the packet on the bus comes nearer to its end. */
static uint32_t look(void)
{
    if (slow.looks > 0 && --slow.looks == 0) {
        take(slow.endpoint, slow.bytes, slow.length);
        status = TOKEN_OUT | slow.endpoint | TOGGLE_OK;
        raise(FLAG_TRANSFER);
    }
    return suspended | (slow.looks == 0 ? MISC_FREE : 0u);
}

/* ---- the firmware */

uint32_t register_read(unsigned number, unsigned endpoint)
{
    host_access();
    switch (number) {
    case USBHS_INT_FG: return flags;
    case USBHS_INT_ST: return status;
    case USBHS_MIS_ST: return look();
    case USBHS_RX_LEN: return received;
    case USBHS_FRAME_NO: return frame;
    default: return written[number][endpoint];
    }
}

void register_write(unsigned number, unsigned endpoint, uint32_t value)
{
    if (number == USBHS_INT_FG) {
        flags &= ~value;
        /* the release of a transfer clears the length */
        if (value & FLAG_TRANSFER)
            received = 0;
    } else {
        written[number][endpoint] = value;
        if (number == USBHS_CTRL && (value & CTRL_CLEAR))
            flags = 0;
    }
    emulator_interrupt(block_interrupt_pending());
    host_access();
}
