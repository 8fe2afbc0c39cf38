/* SPDX-License-Identifier: MIT OR Apache-2.0 */
/* The console of programs that are run on x86-64 too. */
#include <stdio.h>
#include "../../firmware/console.h"

void console_put(char c)
{
    putchar(c);
}
