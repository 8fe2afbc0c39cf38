/* SPDX-License-Identifier: MIT OR Apache-2.0 */
/* SOF interrupts only where they are needed: while streams are on.
 *
 * A SOF that comes between EP0's transaction and the reading of INT_ST hides that transaction, and one that raises the
 * flag before the host's IN makes the driver take a NAKed packet for sent (docs/DIFFERENCES.md, k and l). During
 * enumeration nobody needs SOFs. So the bit that enables them is kept out of int_en until an endpoint is enabled and
 * the transfer that enabled it is over; with the last endpoint it goes again. The driver keeps int_en itself and never
 * reads it. */
#ifndef SOF_H
#define SOF_H

#include <stdint.h>

/* Makes a write of int_en or ep_config that the driver hands out, int_en's without that bit where it is kept out. With
 * interrupts off. */
void sof_write(unsigned number, uint32_t value);

/* A control transfer begins, or is over. */
void sof_transfer(int under_way);

/* Whether SOFs interrupt now. */
int sof_is_on(void);

#endif
