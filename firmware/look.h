/* SPDX-License-Identifier: MIT OR Apache-2.0 */
/* A look after the interrupt for a packet that it left.
 *
 * An isochronous OUT that lands between an interrupt's reading of INT_ST and its release of the flag loses its own
 * interrupt: the release takes its flag, and the driver leaves a packet whose OUT is the latest token to the interrupt
 * that ought to follow (docs/DIFFERENCES.md, q). The next packet would land on it. So, where a packet lies in an armed
 * slot and no flag stands, the driver is given one more interrupt, of made readings: a transfer, the SIE free, a token
 * that is nobody's. All that it does then is to look at the slots.
 *
 * This takes a free SIE for the sign that the packet's bytes are all in memory, which only silicon can say
 * (docs/SILICON.md). While the SIE is busy the driver is shown the chip's own token, and leaves the packet. */
#ifndef LOOK_H
#define LOOK_H

#include <stdint.h>

/* A write of ep_rx_dma, ep_type or ep_config that the driver hands out: which slots are armed, which endpoints are
 * isochronous, which enabled. */
void look_written(unsigned number, unsigned endpoint, uint32_t value);

/* At the interrupt's end: whether the driver is to be given that interrupt, whose flags are a transfer's, whose SIE is
 * free and whose token is LOOK_TOKEN. With interrupts off. */
#define LOOK_TRANSFER 2u
#define LOOK_FREE 1u
#define LOOK_TOKEN 0x30u
int look_wanted(void);

/* The token where the driver asks for it again. The release of the flag is not made: it may be a later transfer's. */
uint32_t look_token(void);

#endif
