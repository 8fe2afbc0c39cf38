/* SPDX-License-Identifier: MIT OR Apache-2.0 */
/* In place of firmware/look.c: a packet that its interrupt left stays. */
#include "../../../firmware/look.h"

void look_written(unsigned number, unsigned endpoint, uint32_t value)
{
    (void)number;
    (void)endpoint;
    (void)value;
}

int look_wanted(void)
{
    return 0;
}

uint32_t look_token(void)
{
    return 0;
}
