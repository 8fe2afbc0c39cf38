/* SPDX-License-Identifier: MIT OR Apache-2.0 */
#include "bridge.h"
#include <string.h>
#include "board.h"
#include "emulator/block.h"
#include "usb.h"

#define MOST_NAKS 8000u
#define RESET_RECOVERY 80u
#define PACKET 2048u

struct transfer transfer;
unsigned address, ep0_maximum = 64, quiet;

/* With TRACE: each token of EP0, and the time; NAKs that follow each other once. */
static void trace(const char *token, enum handshake handshake)
{
    static const char *const words[] = {"ACK", "NAK", "STALL", "nobody", "unacknowledged"};
    static const char *before;

    if (!tracing || (handshake == HANDSHAKE_NAK && before == token))
        return;
    before = handshake == HANDSHAKE_NAK ? token : NULL;
    fprintf(bridge_log, "      %lu: %s %s\n", now, token, words[handshake]);
}

static enum handshake in(unsigned endpoint, uint8_t *room, unsigned *length, unsigned *pid)
{
    counts.ins++;
    return block_in(address, endpoint, room, length, pid);
}

static enum handshake out(unsigned endpoint, unsigned pid, const uint8_t *bytes, unsigned length)
{
    counts.outs++;
    return block_out(address, endpoint, pid, bytes, length);
}

/* A packet with another PID than the one that is due is a repeat: hosts ACK and drop it. */
static int expected(unsigned endpoint, unsigned pid, unsigned due)
{
    if (pid == due)
        return 1;
    counts.wrong_pids++;
    tell("IN %u: DATA%u where DATA%u was due, dropped", endpoint, pid, due);
    return 0;
}

/* ---- EP0 */

/* An answer that is no ACK: the token is tried again, or the transfer is over. */
static void not_acked(enum handshake handshake)
{
    if (handshake == HANDSHAKE_NAK) {
        counts.naks++;
        if (++transfer.naks >= MOST_NAKS)
            request_over(usb_redir_timeout);
    } else if (handshake == HANDSHAKE_STALL) {
        request_over(usb_redir_stall);
    } else if (++transfer.tries >= 3) {
        request_over(usb_redir_ioerror);
    }
}

/* A status stage begins with DATA1. */
static void next_stage(int stage)
{
    transfer.stage = stage;
    transfer.naks = transfer.tries = 0;
    transfer.toggle = 1;
}

static void reset(void)
{
    counts.resets++;
    tell("bus reset");
    address = 0;
    attached.value = 0;
    memset(attached.alternates, 0, sizeof attached.alternates);
    for (unsigned i = 0; i < ENDPOINTS; i++)
        endpoints[i].toggle = 0;
    quiet = RESET_RECOVERY;
    pop();
    block_reset();
}

static unsigned asked(const struct request *r)
{
    return r->setup[6] | (unsigned)r->setup[7] << 8;
}

static void setup_token(struct request *r)
{
    enum handshake handshake;

    counts.setups++;
    handshake = block_setup(address, r->setup);
    trace("SETUP", handshake);
    if (handshake != HANDSHAKE_ACK) {
        not_acked(handshake);
        return;
    }
    transfer.moved = 0;
    next_stage(asked(r) == 0 ? STATUS_IN_STAGE : r->setup[0] & 0x80 ? DATA_IN : DATA_OUT);
}

static void data_in_token(struct request *r)
{
    unsigned length, pid;
    uint8_t room[PACKET];
    enum handshake handshake = in(0, room, &length, &pid);

    trace("IN 0", handshake);
    if (handshake != HANDSHAKE_ACK) {
        not_acked(handshake);
        return;
    }
    transfer.naks = transfer.tries = 0;
    if (!expected(0, pid, transfer.toggle))
        return;
    transfer.toggle ^= 1;
    if (transfer.moved + length > asked(r)) {
        request_over(usb_redir_babble);
        return;
    }
    memcpy(transfer.data + transfer.moved, room, length);
    transfer.moved += length;
    if (length < ep0_maximum || transfer.moved == asked(r))
        next_stage(STATUS_OUT_STAGE);
}

static void data_out_token(struct request *r)
{
    unsigned left = r->length - transfer.moved, length = left < ep0_maximum ? left : ep0_maximum;
    enum handshake handshake = out(0, transfer.toggle, r->data + transfer.moved, length);

    trace("OUT 0", handshake);
    if (handshake != HANDSHAKE_ACK) {
        not_acked(handshake);
        return;
    }
    transfer.naks = transfer.tries = 0;
    transfer.toggle ^= 1;
    transfer.moved += length;
    if (transfer.moved == r->length)
        next_stage(STATUS_IN_STAGE);
}

static void status_in_token(void)
{
    unsigned length, pid;
    uint8_t room[PACKET];
    enum handshake handshake = in(0, room, &length, &pid);

    trace("IN 0 status", handshake);
    if (handshake != HANDSHAKE_ACK)
        not_acked(handshake);
    else if (expected(0, pid, 1))
        request_over(length > 0 ? usb_redir_babble : usb_redir_success);
}

static void status_out_token(void)
{
    enum handshake handshake = out(0, 1, transfer.data, 0);

    trace("OUT 0 status", handshake);
    if (handshake != HANDSHAKE_ACK)
        not_acked(handshake);
    else
        request_over(usb_redir_success);
}

int control_token(void)
{
    struct request *r = requests;

    if (r == NULL || quiet > 0 || (long)(r->after - iso_gone) > 0)
        return 0;
    if (r->not_before == 0)
        r->not_before = now + 1 + (clock_length > 0 ? random_number(clock_length) : 0);
    if (clock_length > 0 && transfer.stage == SETUP_STAGE && now < r->not_before)
        return 0;
    if (r->kind == RESET) {
        reset();
        return 1;
    }
    switch (transfer.stage) {
    case SETUP_STAGE: setup_token(r); break;
    case DATA_IN: data_in_token(r); break;
    case DATA_OUT: data_out_token(r); break;
    case STATUS_IN_STAGE: status_in_token(); break;
    default: status_out_token();
    }
    return 1;
}

/* ---- bulk, and interrupt OUT */

/* The packet's part that is on the bus. */
static void moved(unsigned i, struct packet *p, unsigned length, int last)
{
    p->done += length;
    endpoints[i].toggle ^= 1;
    if (last || p->done == p->length)
        packet_over(i, usb_redir_success);
}

static enum handshake bulk_in(unsigned i, struct packet *p)
{
    struct endpoint *e = &endpoints[i];
    unsigned length, pid;
    uint8_t room[PACKET];
    enum handshake handshake = in(i & 15, room, &length, &pid);

    if (handshake != HANDSHAKE_ACK || !expected(i & 15, pid, e->toggle))
        return handshake;
    if (p->done + length > p->length) {
        packet_over(i, usb_redir_babble);
        return handshake;
    }
    memcpy(p->bytes + p->done, room, length);
    moved(i, p, length, length < e->maximum);
    return handshake;
}

static enum handshake bulk_out(unsigned i, struct packet *p)
{
    struct endpoint *e = &endpoints[i];
    unsigned left = p->length - p->done, length = left < e->maximum ? left : e->maximum;
    enum handshake handshake = out(i, e->toggle, p->bytes + p->done, length);

    if (handshake == HANDSHAKE_ACK)
        moved(i, p, length, 0);
    return handshake;
}

/* A bulk endpoint may NAK for ever. */
int bulk_token(unsigned i)
{
    struct packet *p = endpoints[i].first;
    enum handshake handshake;

    if (p == NULL || quiet > 0)
        return 0;
    handshake = i & 16 ? bulk_in(i, p) : bulk_out(i, p);
    if (handshake == HANDSHAKE_NAK)
        counts.naks++;
    else if (handshake != HANDSHAKE_ACK)
        packet_over(i, handshake == HANDSHAKE_STALL ? usb_redir_stall : usb_redir_ioerror);
    return 1;
}

/* ---- interrupt IN, polled once a microframe */

int interrupt_in_token(unsigned i)
{
    struct endpoint *e = &endpoints[i];
    unsigned length, pid;
    uint8_t room[PACKET];
    enum handshake handshake = in(i & 15, room, &length, &pid);

    if (handshake == HANDSHAKE_NAK) {
        counts.naks++;
    } else if (handshake != HANDSHAKE_ACK) {
        e->receiving = 0;
        interrupt_in(i, handshake == HANDSHAKE_STALL ? usb_redir_stall : usb_redir_ioerror, NULL, 0);
    } else if (expected(i & 15, pid, e->toggle)) {
        e->toggle ^= 1;
        interrupt_in(i, usb_redir_success, room, length);
    }
    return 1;
}

/* ---- isochronous */

/* With SLOW=n one of n packets comes while the firmware looks; its bytes stay here meanwhile. */
static int comes_slowly(unsigned i, const struct packet *p)
{
    static uint8_t bytes[PACKET];

    if (slow_share == 0 || p->length == 0 || !usbhs_enabled(usb_state, i, USBHS_OUT) || random_number(slow_share) != 0)
        return 0;
    memcpy(bytes, p->bytes, p->length);
    slow_pending = 1;
    counts.iso_out_slow++;
    block_out_slow(i, bytes, p->length, 1 + random_number(4));
    return 1;
}

/* Whether a slot's first word is the mark with these bytes in it too: the driver cannot see such a packet
 * (docs/DIFFERENCES.md 3). */
static int is_as_mark(const struct packet *p)
{
    static const uint8_t mark[4] = {0xC3, 0xA5, 0x3C, 0x5A};

    return p->length > 0 && memcmp(p->bytes, mark, p->length < 4 ? p->length : 4) == 0;
}

int iso_out_token(unsigned i)
{
    struct packet *p = endpoints[i].first;
    int heard;

    if (p == NULL)
        return 0;
    counts.iso_out++;
    iso_gone++;
    heard = comes_slowly(i, p) || block_out(address, i, 0, p->bytes, p->length) != NOBODY;
    if (p->length == 0)
        counts.iso_out_empty++;
    else if (!heard)
        counts.iso_out_unheard++;
    else if (is_as_mark(p))
        counts.iso_out_marked++;
    remove_packet(&endpoints[i], p);
    return 1;
}

int iso_in_token(unsigned i)
{
    uint8_t room[PACKET];
    unsigned length, pid;

    block_in(address, i & 15, room, &length, &pid);
    counts.iso_in++;
    counts.iso_in_bytes += length;
    stream_in(i, room, length);
    return 1;
}

/* ---- endpoints that the setting does not have */

void probe_disabled(void)
{
    int interface = 0, used = 0;
    uint32_t there = 0, any = 0;
    uint8_t room[PACKET];
    unsigned length, pid;

    for (unsigned at = 0; at + 2 <= attached.length && attached.configuration[at] >= 2;) {
        const uint8_t *d = attached.configuration + at;

        at += d[0];
        if (d[1] == 4) {
            interface = d[2];
            used = attached.value != 0 && attached.alternates[interface & 31] == d[3];
        } else if (d[1] == 5) {
            any |= 1u << INDEX(d[2]);
            there |= used ? 1u << INDEX(d[2]) : 0;
        }
    }
    for (unsigned i = 1; i < ENDPOINTS; i++)
        if ((any & ~there) >> i & 1 &&
            (i & 16 ? block_in(address, i & 15, room, &length, &pid) : block_out(address, i, 0, room, 0)) != NOBODY)
            tell("endpoint %02X answers, and is not in the setting", ADDRESS(i));
}
