/* SPDX-License-Identifier: MIT OR Apache-2.0 */
/* What the programs of this folder that check values have in common. */
#ifndef EXPECT_H
#define EXPECT_H

#include <stdio.h>
#include "usbhs.h"

static int failed;

static void expect(const char *what, uint64_t got, uint64_t wanted)
{
    if (got != wanted) {
        printf("%s: %llu, not %llu\n", what, (unsigned long long)got, (unsigned long long)wanted);
        failed = 1;
    }
}

static void refused(const char *what, uint64_t word, unsigned row)
{
    expect(what, USBHS_KIND(word), USBHS_REFUSED);
    expect(what, USBHS_ROW(word), row);
}

/* IN 1 isochronous and OUT 2 bulk in setting 0; IN 1 again, smaller and more often, and OUT 3 interrupt in setting 1 */
static const uint8_t board[] = {
    9, 2, 55, 0, 1, 1, 0, 0x80, 50,
    9, 4, 0, 0, 2, 0xFF, 0, 0, 0,
    7, 5, 0x81, 1, 0x00, 0x02, 4,
    7, 5, 0x02, 2, 0x00, 0x02, 0,
    9, 4, 0, 1, 2, 0xFF, 0, 0, 0,
    7, 5, 0x81, 1, 0x00, 0x01, 1,
    7, 5, 0x03, 3, 0x08, 0x00, 1,
};

#endif
