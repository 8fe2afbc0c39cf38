/* SPDX-License-Identifier: MIT OR Apache-2.0 */
/* Packet n of the stream of samples: what the guest sends and the check on the card knows. Every length from 1 to 64,
 * now and then an empty one; random bytes, the number in front where it has room. */
#ifndef PACKETS_H
#define PACKETS_H

#include <stdint.h>

#define PACKET_MOST 64

static inline unsigned make_packet(unsigned n, uint8_t *to)
{
    unsigned length = n % 97 == 50 ? 0 : 1 + n * 13 % PACKET_MOST;
    uint32_t x = n * 2654435761u + 12345;

    for (unsigned i = 0; i < length; i++) {
        x = x * 1664525u + 1013904223u;
        to[i] = (uint8_t)(x >> 24);
    }
    if (length >= 4) {
        to[0] = (uint8_t)n;
        to[1] = (uint8_t)(n >> 8);
        to[2] = (uint8_t)(n >> 16);
        to[3] = 0xA5;
    }
    return length;
}

#endif
