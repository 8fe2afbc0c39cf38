/* SPDX-License-Identifier: MIT OR Apache-2.0 */
/* A model of the USBHS block, as the Rust's comments and document 01 describe it: the side of the bus. The
 * firmware's side are register_read and register_write (board.h). */
#ifndef BLOCK_H
#define BLOCK_H

#include <stdint.h>

/* What becomes of a token. NOBODY: another address, or an endpoint that is not enabled. UNACKNOWLEDGED: an isochronous
 * packet, taken or given; on the bus it looks like NOBODY. */
enum handshake { HANDSHAKE_ACK, HANDSHAKE_NAK, HANDSHAKE_STALL, NOBODY, UNACKNOWLEDGED };

int block_attached(void);
int block_interrupt_pending(void);

void block_reset(void);
void block_suspend(int suspended);
void block_sof(unsigned microframe);
enum handshake block_setup(unsigned address, const uint8_t packet[8]);
enum handshake block_out(unsigned address, unsigned endpoint, unsigned toggle, const uint8_t *bytes, unsigned length);

/* `toggle`: the PID that the packet came with, 0 DATA0, 1 DATA1. */
enum handshake block_in(unsigned address, unsigned endpoint, uint8_t *room, unsigned *length, unsigned *toggle);

/* An isochronous OUT whose token is on the bus and whose data come while the firmware looks: after so many looks. */
void block_out_slow(unsigned endpoint, const uint8_t *bytes, unsigned length, unsigned looks);

#endif
