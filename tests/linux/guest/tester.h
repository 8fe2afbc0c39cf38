/* SPDX-License-Identifier: MIT OR Apache-2.0 */
/* Runs in the guest, over usbfs: what Linux's host stack does with the device. Results go to the console; what the
 * bridge and the check on the card must know goes, a line each, to the second serial port. */
#ifndef TESTER_H
#define TESTER_H

#include <errno.h>
#include <stddef.h>
#include <stdint.h>

/* ---- usbfs.c */

extern int device;        /* the open file */
extern uint8_t bytes[4096]; /* of control() */

__attribute__((format(printf, 2, 3))) void result(int good, const char *format, ...);
__attribute__((format(printf, 1, 2))) void tell_bridge(const char *format, ...);
int results(void); /* says how many there were; 0 where all are good */

void start(void);
int open_device(int tenths);
int attribute(const char *name, char *to, size_t room);
void set_attribute(const char *name, const char *value);

/* The length that was moved, or -errno. */
int control(unsigned type, unsigned request, unsigned value, unsigned index, unsigned length);
const char *answer_words(int n);

void claim(void);
void release(void);
void alternate(unsigned setting);
void reset_device(void);

/* ---- requests.c */

void strings(const char *product);
void standard_requests(void);
void unconfigured(void);

/* ---- streams.c: the recorder's */

extern unsigned urbs;
void stream(const char *what, unsigned urbs, int with_in, int with_requests);
void begin_streams(void);
void broken_streams(const char *why);

/* ---- power.c */

void suspend_and_resume(void);
void suspend_in_stream(void);
void reset_in_stream(void);
void unplug_in_stream(void);
void unplug_and_plug(void);

/* ---- recorder.c, zero.c: the plans for the two devices */

void test_recorder(unsigned rounds);
void test_zero(unsigned rounds, const char *controller);

#endif
