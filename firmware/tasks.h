/* SPDX-License-Identifier: MIT OR Apache-2.0 */
/* Who is to run: the driver's wake-ups in the order in which they came. Numbers as in usbhs_woken: 0 to 15 IN 0 to 15,
 * 16 to 31 OUT 0 to 15, 32 the bus. */
#ifndef TASKS_H
#define TASKS_H

#define TASKS 33
#define TASK_IN(endpoint) (endpoint)
#define TASK_OUT(endpoint) (16u + (endpoint))
#define NO_TASK TASKS

/* With interrupts off. */
void task_wake(unsigned task);

/* The one that was woken first, or NO_TASK. With interrupts off. */
unsigned task_next(void);

#endif
