/* SPDX-License-Identifier: MIT OR Apache-2.0 */
/* A host, and what it does with the device: a script, a step each time the firmware sleeps or the card is busy. */
#ifndef HOST_H
#define HOST_H

/* 0 at the script's end. */
int host_step(void);

/* The firmware has made an access: meanwhile time has passed on the bus. */
void host_access(void);

/* How many steps the card takes for the block that it is given now. */
unsigned host_card_busy(void);

/* Holds the blocks on the card against the packets that were sent; 0 where all is well. */
int host_check(const unsigned char *card, unsigned length, unsigned overruns);

#endif
