/* SPDX-License-Identifier: MIT OR Apache-2.0 */
/* The control pipe's stages (USB 2.0, 8.5.3): a setup packet, a data stage, a status stage. Which answer a setup packet
 * gets is said in chapter9.c and by the device. */
#ifndef CONTROL_H
#define CONTROL_H

#include <stdint.h>

/* After EP0's start and after each bus reset: waits for a setup packet. */
void control_restart(void);

/* Goes on as far as the host has come; to be called when EP0's tasks are woken. */
void control_task(void);

/* What serves a setup packet makes one of these calls for it. `asked` is the packet's wLength. */

/* A data stage IN: these bytes, or the first `asked` of them. They stay as they are until the next setup packet. */
void control_answer(const uint8_t *bytes, unsigned length, unsigned asked);

/* A data stage OUT of `length` bytes, 1 or more, to `room`. */
void control_receive(uint8_t *room, unsigned length);

/* No data stage: the request is done. */
void control_accept(void);

/* As the one before; the address counts once the host has seen that. */
void control_accept_address(unsigned address);

/* A STALL (9.2.7, request error). */
void control_reject(void);

#endif
