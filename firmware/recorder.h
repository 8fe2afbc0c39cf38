/* SPDX-License-Identifier: MIT OR Apache-2.0 */
/* Samples from the bus to the card. */
#ifndef RECORDER_H
#define RECORDER_H

#include <stdint.h>

/* A survey begins: from here on the card has an end behind what is recorded, whatever it held before. */
void recorder_start(void);

/* Writes every packet that waits to the card, from where it lies; to be called when the endpoint's task is woken. */
void recorder_task(void);

/* What is not stored yet goes to the card. You may record on behind it. */
void recorder_finish(void);

/* Packets written since the start. */
uint32_t recorder_packets(void);

#endif
