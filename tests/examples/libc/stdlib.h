/* SPDX-License-Identifier: MIT OR Apache-2.0 */
void exit(int status) __attribute__((noreturn));
