/* SPDX-License-Identifier: MIT OR Apache-2.0 */
#include "trace.h"

#ifdef USB_TRACE

/* Zero at first, so that the ring takes no place in the image. */
struct trace usb_trace;

uint32_t *trace_word(uint64_t word)
{
    struct trace_entry *entry = &usb_trace.ring[usb_trace.count % TRACE_ENTRIES];

    usb_trace.magic = TRACE_MAGIC;
    usb_trace.entries = TRACE_ENTRIES;
    usb_trace.count++;
    entry->low = (uint32_t)word;
    entry->high = (uint32_t)(word >> 32);
    entry->reading = 0;
    return &entry->reading;
}

void trace_call(unsigned number, uint32_t a, uint32_t b, uint32_t c)
{
    *trace_word(15u | (uint64_t)number << 8 | (uint64_t)(a & 0xFFFF) << 16 | (uint64_t)b << 32) = c;
}

void trace_bytes(const uint8_t *bytes, unsigned length)
{
    while (length > 0) {
        unsigned n = length < 11 ? length : 11;
        uint64_t word = 14u | n << 4;
        uint32_t rest = 0;

        for (unsigned i = 0; i < n; i++) {
            if (i < 7)
                word |= (uint64_t)bytes[i] << (8 + 8 * i);
            else
                rest |= (uint32_t)bytes[i] << (8 * (i - 7));
        }
        *trace_word(word) = rest;
        bytes += n;
        length -= n;
    }
}

static void put(uint8_t *to, uint32_t value)
{
    for (unsigned i = 0; i < 4; i++)
        to[i] = (uint8_t)(value >> 8 * i);
}

static unsigned put_entry(uint8_t *to, const struct trace_entry *entry)
{
    put(to, entry->low);
    put(to + 4, entry->high);
    put(to + 8, entry->reading);
    return TRACE_ENTRY_LEN;
}

unsigned trace_record(uint8_t *room, unsigned room_length, uint32_t survey, uint32_t *from)
{
    uint32_t new = usb_trace.count - *from;
    unsigned length = 6;

    if (new == 0 || room_length < 6 + 2 * TRACE_ENTRY_LEN)
        return 0;
    room[0] = 4;
    room[1] = 0;
    put(room + 2, survey);
    if (new > TRACE_ENTRIES) {
        struct trace_entry lost = {TRACE_LOST, new - TRACE_ENTRIES, 0};

        length += put_entry(room + length, &lost);
        *from = usb_trace.count - TRACE_ENTRIES;
    }
    for (; *from != usb_trace.count && length + TRACE_ENTRY_LEN <= room_length; (*from)++)
        length += put_entry(room + length, &usb_trace.ring[*from % TRACE_ENTRIES]);
    return length;
}

#else

/* A file has at least a declaration. */
typedef int trace_is_off;

#endif
