/* SPDX-License-Identifier: MIT OR Apache-2.0 */
/* Lets tests/examples/board.c run on the emulator. */
#include <setjmp.h>
#include <stdio.h>
#include <stdlib.h>
#include "../../../firmware/console.h"
#include "../../../firmware/emulator/machine.h"

int puts(const char *text)
{
    print(text);
    print("\n");
    return 0;
}

int printf(const char *format, const char *word)
{
    for (; *format != 0; format++) {
        if (*format != '%') {
            console_put(*format);
        } else {
            print(word);
            format++;
        }
    }
    return 0;
}

void exit(int status)
{
    emulator_end(status != 0);
}

/* ra, sp and the registers that a call keeps. */
__asm__(".globl setjmp\nsetjmp:\n"
        "sw ra, 0(a0)\nsw sp, 4(a0)\nsw s0, 8(a0)\nsw s1, 12(a0)\nsw s2, 16(a0)\nsw s3, 20(a0)\nsw s4, 24(a0)\n"
        "sw s5, 28(a0)\nsw s6, 32(a0)\nsw s7, 36(a0)\nsw s8, 40(a0)\nsw s9, 44(a0)\nsw s10, 48(a0)\nsw s11, 52(a0)\n"
        "li a0, 0\nret\n"
        ".globl longjmp\nlongjmp:\n"
        "lw ra, 0(a0)\nlw sp, 4(a0)\nlw s0, 8(a0)\nlw s1, 12(a0)\nlw s2, 16(a0)\nlw s3, 20(a0)\nlw s4, 24(a0)\n"
        "lw s5, 28(a0)\nlw s6, 32(a0)\nlw s7, 36(a0)\nlw s8, 40(a0)\nlw s9, 44(a0)\nlw s10, 48(a0)\nlw s11, 52(a0)\n"
        "mv a0, a1\nret\n");
