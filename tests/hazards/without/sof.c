/* SPDX-License-Identifier: MIT OR Apache-2.0 */
/* In place of firmware/sof.c: SOF interrupts from the start on. */
#include "../../../firmware/sof.h"
#include "../../../firmware/board.h"

void sof_write(unsigned number, uint32_t value)
{
    register_write(number, 0, value);
}

int sof_is_on(void)
{
    return 1;
}

void sof_transfer(int under_way)
{
    (void)under_way;
}
