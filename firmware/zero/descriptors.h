/* SPDX-License-Identifier: MIT OR Apache-2.0 */
/* USB 2.0, 9.6: what the device says of itself, and the buffers that its endpoints take. */
#ifndef DESCRIPTORS_H
#define DESCRIPTORS_H

#include <stdint.h>

#define DESCRIPTOR_DEVICE_LEN 18
#define DESCRIPTOR_CONFIGURATION_LEN (9 + 9 + 2 * 7 + 9 + 6 * 7)
#define DESCRIPTOR_INTERFACES 1

/* Endpoints, each in both directions. */
#define BULK 1u
#define STREAM 2u
#define INTERRUPT 3u
#define BULK_MAXIMUM 512u
#define STREAM_MAXIMUM 512u
#define INTERRUPT_MAXIMUM 64u

/* Bulk and interrupt take a buffer in each direction, an isochronous OUT 16, an isochronous IN 2, EP0 one. */
#define USB_BUFFER 512u
#define USB_BUFFERS (2u + 2u + 16u + 2u + 1u)

extern const uint8_t descriptor_device[DESCRIPTOR_DEVICE_LEN];
extern const uint8_t descriptor_configuration[DESCRIPTOR_CONFIGURATION_LEN];

/* The text of a string, from 1 on; 0 where there is none. */
const char *descriptor_string(unsigned index);

#endif
