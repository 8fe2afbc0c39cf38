/* SPDX-License-Identifier: MIT OR Apache-2.0 */
/* As much of it as tests/examples/board.c uses: %s and plain text. */
int puts(const char *text);
int printf(const char *format, const char *word);
