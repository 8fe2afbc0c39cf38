/* SPDX-License-Identifier: MIT OR Apache-2.0 */
/* A watch over the control pipe: a stage in which the host does not come further is begun again.
 *
 * The driver may believe that a packet was sent that the chip NAKed, or not see one that was (docs/DIFFERENCES.md, k
 * and l). The host then asks for ever, each time NAKed without an interrupt, until it gives up after seconds. After a
 * millisecond the watch begins the packet once more, or the status stage, which may seem to be over; the host takes
 * it, or has had it, and then its next setup packet ends the stage in any case. An address whose status stage nobody
 * saw end is written after a millisecond and a half.
 *
 * Only the first packet of an answer can be begun again: what came of those before is not known. So an answer that is
 * asked while streams are on should have no more than 64 bytes. */
#ifndef WATCH_H
#define WATCH_H

#include <stdint.h>

/* What is watched from now on: an answer's packet, as it was begun; the status stage of an address; another that seems
 * to be over; nothing. */
void watch_packet(const uint8_t *packet, unsigned length, int first, int last);
void watch_address(void);
void watch_status(void);
void watch_nothing(void);

/* Called where the main loop has nothing to do: whether it is to come again at once and not to sleep. */
int watch_look(void);

#endif
