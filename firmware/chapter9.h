/* SPDX-License-Identifier: MIT OR Apache-2.0 */
/* USB 2.0, chapter 9: the standard requests, answered by the device's descriptors (descriptors.h). Endpoints are
 * enabled and disabled as the host selects the configuration and alternate settings. */
#ifndef CHAPTER9_H
#define CHAPTER9_H

#include <stdint.h>

/* After a bus reset: the device is not configured. */
void chapter9_reset(void);

/* Serves a setup packet; those that are not standard requests go to the device (device.h). */
void chapter9_serve(const uint8_t setup[8]);

#endif
