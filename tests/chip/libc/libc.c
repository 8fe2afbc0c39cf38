/* SPDX-License-Identifier: MIT OR Apache-2.0 */
/* Lets the programs of tests/c run on the emulator. */
#include <stdint.h>
#include "stdio.h"
#include "../../../firmware/console.h"

static void print_long(uint64_t number)
{
    char digits[20];
    unsigned n = 0;

    do {
        digits[n++] = (char)('0' + number % 10);
        number /= 10;
    } while (number != 0);
    while (n > 0)
        console_put(digits[--n]);
}

int printf(const char *format, ...)
{
    __builtin_va_list arguments;

    __builtin_va_start(arguments, format);
    for (; *format != 0; format++) {
        if (*format != '%') {
            console_put(*format);
        } else if (format[1] == 's') {
            print(__builtin_va_arg(arguments, const char *));
            format++;
        } else {
            print_long(__builtin_va_arg(arguments, unsigned long long));
            format += 3;
        }
    }
    __builtin_va_end(arguments);
    return 0;
}
