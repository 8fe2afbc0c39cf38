/* SPDX-License-Identifier: MIT OR Apache-2.0 */
/* USB 2.0, 9.6: what the device says of itself, and the buffers that its endpoints take. */
#ifndef DESCRIPTORS_H
#define DESCRIPTORS_H

#include <stdint.h>

#define DESCRIPTOR_DEVICE_LEN 18
#define DESCRIPTOR_CONFIGURATION_LEN (9 + 9 + 9 + 7 + 7)
#define DESCRIPTOR_INTERFACES 1

/* Samples come on isochronous OUT 1, what was recorded is told on isochronous IN 2. */
#define SAMPLES_OUT 1u
#define STATUS_IN 2u

/* An isochronous OUT takes 16 buffers, an isochronous IN 2, EP0 one. */
#ifndef USB_BUFFER
#define USB_BUFFER 64u
#endif
#ifndef USB_BUFFERS
#define USB_BUFFERS (16u + 2u + 1u)
#endif

extern const uint8_t descriptor_device[DESCRIPTOR_DEVICE_LEN];
extern const uint8_t descriptor_configuration[DESCRIPTOR_CONFIGURATION_LEN];

/* The text of a string, from 1 on; 0 where there is none. */
const char *descriptor_string(unsigned index);

#endif
