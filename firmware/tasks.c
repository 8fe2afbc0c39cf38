/* SPDX-License-Identifier: MIT OR Apache-2.0 */
#include "tasks.h"
#include <stdint.h>

/* A task stands at most once in the queue: one that is woken again before it has run finds all there is to do. */
static uint8_t queue[TASKS], waiting[TASKS];
static unsigned first, count;

void task_wake(unsigned task)
{
    if (waiting[task])
        return;
    waiting[task] = 1;
    queue[(first + count) % TASKS] = (uint8_t)task;
    count++;
}

unsigned task_next(void)
{
    unsigned task;

    if (count == 0)
        return NO_TASK;
    task = queue[first];
    first = (first + 1) % TASKS;
    count--;
    waiting[task] = 0;
    return task;
}
