/* SPDX-License-Identifier: MIT OR Apache-2.0 */
typedef unsigned jmp_buf[14];
int setjmp(jmp_buf at) __attribute__((returns_twice));
void longjmp(jmp_buf at, int value) __attribute__((noreturn));
