/* SPDX-License-Identifier: MIT OR Apache-2.0 */
/* Text out, for logs. Each back end has its own console_put. */
#ifndef CONSOLE_H
#define CONSOLE_H

#include <stdint.h>

void console_put(char c);
void print(const char *text);
void print_number(uint32_t number);
void print_hex(uint32_t number, unsigned digits);

#endif
