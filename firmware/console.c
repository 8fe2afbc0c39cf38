/* SPDX-License-Identifier: MIT OR Apache-2.0 */
#include "console.h"

void print(const char *text)
{
    while (*text != 0)
        console_put(*text++);
}

void print_number(uint32_t number)
{
    if (number >= 10)
        print_number(number / 10);
    console_put((char)('0' + number % 10));
}

void print_hex(uint32_t number, unsigned digits)
{
    while (digits-- > 0)
        console_put("0123456789ABCDEF"[number >> 4 * digits & 15]);
}
