/* SPDX-License-Identifier: MIT OR Apache-2.0 */
/* 64-bit division, which libsurvey_c.a calls, for those who link no compiler runtime. Numbers of 32 bits are divided by
 * the machine; else bit by bit. By 0, which the library never asks, it answers as the machine does. */
#include <stdint.h>

uint64_t __udivdi3(uint64_t number, uint64_t by);

uint64_t __udivdi3(uint64_t number, uint64_t by)
{
    uint64_t quotient = 0, rest = 0;

    if ((number | by) >> 32 == 0)
        return (uint32_t)by == 0 ? UINT64_MAX : (uint32_t)number / (uint32_t)by;
    for (int i = 63; i >= 0; i--) {
        /* the bit that leaves rest at the top, where there is one, makes it greater than any divisor */
        uint64_t top = rest >> 63;

        rest = rest << 1 | (number >> i & 1);
        if (top != 0 || rest >= by) {
            rest -= by;
            quotient |= (uint64_t)1 << i;
        }
    }
    return quotient;
}
