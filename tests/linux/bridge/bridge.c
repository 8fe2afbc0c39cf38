/* SPDX-License-Identifier: MIT OR Apache-2.0 */
/* The bridge's start, its log and its numbers. */
#include "bridge.h"
#include <stdarg.h>
#include <stdlib.h>

FILE *bridge_log;
struct counts counts;

void tell(const char *format, ...)
{
    va_list words;

    va_start(words, format);
    fputs("bridge: ", bridge_log);
    vfprintf(bridge_log, format, words);
    putc('\n', bridge_log);
    va_end(words);
}

/* The same in every run. */
unsigned random_number(unsigned below)
{
    static uint32_t x = 2463534242u;

    x ^= x << 13;
    x ^= x >> 17;
    x ^= x << 5;
    return x % below;
}

unsigned number_of(const char *variable)
{
    const char *text = getenv(variable);

    return text != NULL ? (unsigned)strtoul(text, NULL, 0) : 0;
}

void bridge_start(FILE *log)
{
    bridge_log = log;
    for (unsigned i = 0; i < ENDPOINTS; i++)
        endpoints[i].type = usb_redir_type_invalid;
    clock_start();
    self_left = number_of("SELF");
    if (self_left > 0)
        attach();
    else
        sockets_open();
}

void bridge_end(unsigned interrupts)
{
    tell("%lu SOFs, %lu resets, %lu suspends, %lu unpluggings, %lu setups, %lu IN, %lu OUT, %lu NAKs, %lu stalls, %lu "
         "wrong PIDs", counts.sofs, counts.resets, counts.suspends, counts.unplugged, counts.setups, counts.ins,
         counts.outs, counts.naks, counts.stalls, counts.wrong_pids);
    tell("isochronous: %lu OUT (%lu empty, %lu as the mark, %lu to nobody, %lu slow), %lu IN with %lu bytes",
         counts.iso_out, counts.iso_out_empty, counts.iso_out_marked, counts.iso_out_unheard, counts.iso_out_slow,
         counts.iso_in, counts.iso_in_bytes);
    tell("firmware: %u interrupts; between its accesses %lu SOFs and %lu other steps of the bus", interrupts,
         counts.sofs_between, counts.nested);
    tell("total %lu empty %lu marked %lu unheard %lu", counts.iso_out, counts.iso_out_empty, counts.iso_out_marked,
         counts.iso_out_unheard);
}
