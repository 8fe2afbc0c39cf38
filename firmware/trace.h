/* SPDX-License-Identifier: MIT OR Apache-2.0 */
/* What the driver was asked and what it did, in a ring: compile with -DUSB_TRACE. `usbhs replay --trace` replays it at
 * a desk and draws it (docs/TOOL.md). Read the ring, usb_trace, with a debugger, or put it onto the card with
 * trace_record.
 *
 * An entry has 12 bytes, lowest first: a word of 8 and a reading of 4. The word is
 *   an answer (include/usbhs.h), with the reading that its access brought;
 *   a call: 0-3 are 15, 8-15 its number, 16-31 and 32-63 two of its numbers, and a third in place of the reading;
 *   bytes that a call brought or received: 0-3 are 14, 4-7 how many, at most 11; they begin at bits 8-15 and end in
 *   the reading;
 *   entries that are missing, on a card alone: 0-3 are 13, 32-63 how many were written over before they reached it.
 *
 * With -DUSB_TRACE_ON_CARD as well the recorder writes the ring's entries onto the card as they come (recorder.c): the
 * ring must hold what is noted while the card is busy. A microframe with an arrival then takes about 180 bytes more.
 */
#ifndef TRACE_H
#define TRACE_H

#include <stdint.h>
#include "usbhs.h"

/* Each access is noted by itself, so each is brought by a call of its own. */
#ifdef USB_TRACE
#define TRACED_EACH 1
#else
#define TRACED_EACH 0
#endif

#ifdef USB_TRACE

/* A power of two. A microframe with an arrival takes about 15 entries. */
#ifndef TRACE_ENTRIES
#define TRACE_ENTRIES 1024u
#endif
#define TRACE_ENTRY_LEN 12u
#define TRACE_MAGIC 0x52545355u /* "USTR" */
#define TRACE_LOST 13u

struct trace_entry {
    uint32_t low, high, reading;
};

struct trace {
    uint32_t magic;
    uint32_t entries; /* of the ring */
    uint32_t count;   /* ever made */
    struct trace_entry ring[TRACE_ENTRIES];
};

extern struct trace usb_trace;

/* Each with interrupts off. The place of the reading. */
uint32_t *trace_word(uint64_t word);
void trace_call(unsigned number, uint32_t a, uint32_t b, uint32_t c);
void trace_bytes(const uint8_t *bytes, unsigned length);

/* The ring's next entries as a record of kind 4 for the recorder's endpoint (docs/TOOL.md), from entry *from on, which
 * is 0 at first: the record's length, 0 where there is no more. The room holds two entries at least. With interrupts
 * off. */
unsigned trace_record(uint8_t *room, unsigned room_length, uint32_t survey, uint32_t *from);

/* The calls' numbers, those of oracle/FORMAT.md and three more. */
enum trace_call_number {
    TRACE_START_UP = 0,
    TRACE_ALLOCATE = 2,
    TRACE_START = 3,
    TRACE_BEGIN_INTERRUPT = 4,
    TRACE_BUS_POLL = 5,
    TRACE_BUS_ENABLE = 6,
    TRACE_BUS_DISABLE = 7,
    TRACE_SET_ENABLED = 8,
    TRACE_SET_STALLED = 9,
    TRACE_IS_STALLED = 10,
    TRACE_SET_PACED = 11,
    TRACE_ADVANCE = 12,
    TRACE_MICROFRAME = 13,
    TRACE_READ = 14,
    TRACE_POLL_READ = 15,
    TRACE_WRITE = 16,
    TRACE_POLL_WRITE = 17,
    TRACE_SETUP = 18,
    TRACE_POLL_SETUP = 19,
    TRACE_DATA_OUT = 20,
    TRACE_POLL_DATA_OUT = 21,
    TRACE_DATA_IN = 22,
    TRACE_POLL_DATA_IN = 23,
    TRACE_ACCEPT = 24,
    TRACE_ACCEPT_SET_ADDRESS = 25,
    TRACE_POLL_ACCEPT = 26,
    TRACE_REJECT = 27,
    TRACE_OPEN = 28,
    TRACE_CLOSE = 29,
    TRACE_QUEUE = 30,
    TRACE_ALLOCATE_ALL = 40,
    TRACE_INTERRUPT = 41,
    TRACE_CONTINUE_TRANSFER = 42
};

/* The calls, each noted before it is made. */
#define TRACED(name, parameters, arguments, number, a, b, c)                                          \
    static inline uint64_t traced_##name parameters                                                   \
    {                                                                                                 \
        trace_call(number, (uint32_t)(a), (uint32_t)(b), (uint32_t)(c));                              \
        return usbhs_##name arguments;                                                                \
    }

TRACED(start_up, (uint8_t *state, const uint8_t *slots, usbhs_length n, uint16_t *time, uint32_t driver, uint32_t size,
    uint32_t count, uint32_t callback), (state, slots, n, time, driver, size, count, callback),
    TRACE_START_UP, size, count, callback)
TRACED(allocate, (uint8_t *state, uint32_t kind, uint32_t address, uint32_t maximum, uint32_t interval, uint32_t dir),
    (state, kind, address, maximum, interval, dir),
    TRACE_ALLOCATE, (kind & 3u) | (dir != 0 ? 4u : 0u) | address << 3, maximum, interval)
TRACED(start, (uint8_t *state, uint32_t maximum), (state, maximum), TRACE_START, maximum, 0, 0)
TRACED(begin_interrupt, (uint8_t *state), (state), TRACE_BEGIN_INTERRUPT, 0, 0, 0)
TRACED(interrupt, (uint8_t *state, uint8_t *slots, usbhs_length n, uint16_t *time, uint32_t driver, uint32_t frame,
    uint32_t flags), (state, slots, n, time, driver, frame, flags), TRACE_INTERRUPT, frame, flags, 0)
TRACED(continue_transfer, (uint8_t *state, uint8_t *slots, usbhs_length n, uint16_t *time, uint32_t driver,
    uint32_t mis, uint32_t status, uint32_t length), (state, slots, n, time, driver, mis, status, length),
    TRACE_CONTINUE_TRANSFER, mis, status, length)
TRACED(begin_bus_poll, (uint8_t *state), (state), TRACE_BUS_POLL, 0, 0, 0)
TRACED(begin_bus_enable, (uint8_t *state), (state), TRACE_BUS_ENABLE, 0, 0, 0)
TRACED(begin_bus_disable, (uint8_t *state), (state), TRACE_BUS_DISABLE, 0, 0, 0)
TRACED(begin_set_enabled, (uint8_t *state, uint8_t *slots, usbhs_length n, uint16_t *time, uint32_t driver,
    uint32_t endpoint, uint32_t dir, uint32_t on), (state, slots, n, time, driver, endpoint, dir, on),
    TRACE_SET_ENABLED, endpoint, dir, on)
TRACED(begin_set_stalled, (uint8_t *state, uint32_t endpoint, uint32_t dir, uint32_t on), (state, endpoint, dir, on),
    TRACE_SET_STALLED, endpoint, dir, on)
TRACED(begin_is_stalled, (uint8_t *state, uint32_t endpoint, uint32_t dir), (state, endpoint, dir),
    TRACE_IS_STALLED, endpoint, dir, 0)
TRACED(set_paced, (uint8_t *state, uint32_t endpoint, uint32_t on), (state, endpoint, on),
    TRACE_SET_PACED, endpoint, on, 0)
TRACED(begin_advance, (uint8_t *state, uint32_t endpoint), (state, endpoint), TRACE_ADVANCE, endpoint, 0, 0)
TRACED(begin_microframe, (uint8_t *state), (state), TRACE_MICROFRAME, 0, 0, 0)
TRACED(begin_read, (uint8_t *state, uint32_t endpoint, uint32_t length), (state, endpoint, length),
    TRACE_READ, endpoint, length, 0)
TRACED(poll_read, (uint8_t *state, const uint8_t *slots, usbhs_length n, uint32_t endpoint, uint8_t *slice,
    usbhs_length m), (state, slots, n, endpoint, slice, m), TRACE_POLL_READ, endpoint, m, 0)
TRACED(begin_write, (uint8_t *state, uint8_t *slots, usbhs_length n, uint32_t endpoint, const uint8_t *data,
    usbhs_length m), (state, slots, n, endpoint, data, m), TRACE_WRITE, endpoint, m, 0)
TRACED(poll_write, (uint8_t *state, uint8_t *slots, usbhs_length n, uint32_t endpoint, const uint8_t *data,
    usbhs_length m), (state, slots, n, endpoint, data, m), TRACE_POLL_WRITE, endpoint, m, 0)
TRACED(begin_setup, (uint8_t *state), (state), TRACE_SETUP, 0, 0, 0)
TRACED(begin_data_out, (uint8_t *state, uint32_t length, uint32_t first), (state, length, first),
    TRACE_DATA_OUT, first, length, 0)
TRACED(poll_data_out, (uint8_t *state, const uint8_t *slots, usbhs_length n, uint8_t *slice, usbhs_length m),
    (state, slots, n, slice, m), TRACE_POLL_DATA_OUT, 0, m, 0)
TRACED(begin_data_in, (uint8_t *state, uint8_t *slots, usbhs_length n, const uint8_t *data, usbhs_length m,
    uint32_t first, uint32_t last), (state, slots, n, data, m, first, last), TRACE_DATA_IN, first, m, last)
TRACED(poll_data_in, (uint8_t *state), (state), TRACE_POLL_DATA_IN, 0, 0, 0)
TRACED(begin_accept, (uint8_t *state), (state), TRACE_ACCEPT, 0, 0, 0)
TRACED(begin_accept_set_address, (uint8_t *state, uint32_t address), (state, address),
    TRACE_ACCEPT_SET_ADDRESS, address, 0, 0)
TRACED(poll_accept, (uint8_t *state), (state), TRACE_POLL_ACCEPT, 0, 0, 0)
TRACED(begin_reject, (uint8_t *state), (state), TRACE_REJECT, 0, 0, 0)
TRACED(open, (uint8_t *state, const uint8_t *slots, usbhs_length n, uint32_t endpoint, uint16_t *stamp),
    (state, slots, n, endpoint, stamp), TRACE_OPEN, endpoint, 0, 0)
TRACED(close, (uint8_t *state, uint32_t endpoint), (state, endpoint), TRACE_CLOSE, endpoint, 0, 0)
TRACED(queue, (uint8_t *state, uint8_t *slots, usbhs_length n, uint32_t endpoint, const uint8_t *data, usbhs_length m),
    (state, slots, n, endpoint, data, m), TRACE_QUEUE, endpoint, m, 0)

/* Noted, and made, as the two calls that it also is. */
static inline uint64_t traced_interrupt_transfer(uint8_t *state, uint8_t *slots, usbhs_length n, uint16_t *time,
    uint32_t driver, uint32_t frame, uint32_t flags, uint32_t mis, uint32_t status, uint32_t length)
{
    uint64_t word = traced_interrupt(state, slots, n, time, driver, frame, flags);

    if (USBHS_ASKS(word, USBHS_MIS_ST))
        word = traced_continue_transfer(state, slots, n, time, driver, mis, status, length);
    return word;
}

/* With the bytes that they bring, or that come. */
static inline uint64_t traced_allocate_all(uint8_t *state, const uint8_t *bytes, usbhs_length length)
{
    trace_call(TRACE_ALLOCATE_ALL, 0, (uint32_t)length, 0);
    trace_bytes(bytes, (unsigned)length);
    return usbhs_allocate_all(state, bytes, length);
}

static inline uint64_t traced_poll_setup(uint8_t *state, uint8_t packet[8])
{
    uint64_t word;

    trace_call(TRACE_POLL_SETUP, 0, 0, 0);
    word = usbhs_poll_setup(state, packet);
    if (USBHS_KIND(word) == USBHS_DONE)
        trace_bytes(packet, 8);
    return word;
}

#undef usbhs_start_up
#define usbhs_start_up traced_start_up
#define usbhs_allocate traced_allocate
#define usbhs_allocate_all traced_allocate_all
#define usbhs_start traced_start
#define usbhs_begin_interrupt traced_begin_interrupt
#define usbhs_interrupt traced_interrupt
#define usbhs_continue_transfer traced_continue_transfer
#define usbhs_interrupt_transfer traced_interrupt_transfer
#define usbhs_begin_bus_poll traced_begin_bus_poll
#define usbhs_begin_bus_enable traced_begin_bus_enable
#define usbhs_begin_bus_disable traced_begin_bus_disable
#define usbhs_begin_set_enabled traced_begin_set_enabled
#define usbhs_begin_set_stalled traced_begin_set_stalled
#define usbhs_begin_is_stalled traced_begin_is_stalled
#define usbhs_set_paced traced_set_paced
#define usbhs_begin_advance traced_begin_advance
#define usbhs_begin_microframe traced_begin_microframe
#define usbhs_begin_read traced_begin_read
#define usbhs_poll_read traced_poll_read
#define usbhs_begin_write traced_begin_write
#define usbhs_poll_write traced_poll_write
#define usbhs_begin_setup traced_begin_setup
#define usbhs_poll_setup traced_poll_setup
#define usbhs_begin_data_out traced_begin_data_out
#define usbhs_poll_data_out traced_poll_data_out
#define usbhs_begin_data_in traced_begin_data_in
#define usbhs_poll_data_in traced_poll_data_in
#define usbhs_begin_accept traced_begin_accept
#define usbhs_begin_accept_set_address traced_begin_accept_set_address
#define usbhs_poll_accept traced_poll_accept
#define usbhs_begin_reject traced_begin_reject
#define usbhs_open traced_open
#define usbhs_close traced_close
#define usbhs_queue traced_queue

#else

/* Nothing is noted: a place that is never read. */
static inline uint32_t *trace_word(uint64_t word)
{
    static uint32_t nowhere;

    (void)word;
    return &nowhere;
}

#endif

#endif
