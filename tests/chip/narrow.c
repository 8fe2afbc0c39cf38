/* SPDX-License-Identifier: MIT OR Apache-2.0 */
/* Compiled with LENGTH=usbhs_length, and not with LENGTH=size_t, where that has 32 bits. */
#include "usbhs_survey.h"

int main(void)
{
    static const uint8_t stream[USBHS_BLOCK_LEN];
    LENGTH place;

    return USBHS_KIND(usbhs_card_start(stream, sizeof stream, &place)) != USBHS_END;
}
