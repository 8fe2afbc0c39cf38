/* SPDX-License-Identifier: MIT OR Apache-2.0 */
/* What a device has of its own beside its descriptors: main.c and chapter9.c call these. */
#ifndef DEVICE_H
#define DEVICE_H

#include <stdint.h>

/* Before the bus. */
void device_start(void);

/* After a bus reset, and when the host takes the configuration back: all endpoints are disabled. */
void device_reset(void);

/* The host has selected this alternate setting, with the configuration or by itself: the setting's endpoints are
 * enabled anew, requests on them are to be begun; the interface's others are disabled. */
void device_selected(unsigned interface, unsigned alternate);

/* A task was woken: TASK_IN or TASK_OUT of an endpoint (tasks.h). */
void device_task(unsigned task);

/* The host has cleared the endpoint's halt; dir: USBHS_OUT or USBHS_IN. */
void device_resumed(unsigned endpoint, unsigned dir);

/* A vendor's or class's request: makes one of the calls of control.h. */
void device_request(const uint8_t setup[8]);

/* The bus is suspended: the host may have gone, and the power may go too. */
void device_suspended(void);

/* Before the power goes: stores what is still in hand. */
void device_finish(void);

#endif
