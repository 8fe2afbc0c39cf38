/* SPDX-License-Identifier: MIT OR Apache-2.0 */
/* As much of it as the programs of tests/c use: %s, %llu and plain text. */
int printf(const char *format, ...);
