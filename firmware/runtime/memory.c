/* SPDX-License-Identifier: MIT OR Apache-2.0 */
/* memcpy and memset, which the archives for RV32 call, for those who link no C library; memcmp for programs of ours.
 * Copies go by words where both sides allow it: most are of records and packets that lie on word boundaries. To be
 * compiled with -fno-builtin, else the compiler may turn a loop into a call of the function that it stands in. */
#include <stdint.h>
#include <string.h>

#define WORD sizeof(uint32_t)

/* Words may alias any object here. */
typedef uint32_t __attribute__((may_alias)) word;

static int aligned(const void *a, const void *b)
{
    return (((uintptr_t)a | (uintptr_t)b) & (WORD - 1)) == 0;
}

void *memcpy(void *restrict to, const void *restrict from, size_t length)
{
    uint8_t *t = to;
    const uint8_t *f = from;

    if (aligned(t, f)) {
        for (; length >= 4 * WORD; length -= 4 * WORD, t += 4 * WORD, f += 4 * WORD) {
            word *w = (word *)t;
            const word *v = (const word *)f;
            word a = v[0], b = v[1], c = v[2], d = v[3];

            w[0] = a;
            w[1] = b;
            w[2] = c;
            w[3] = d;
        }
        for (; length >= WORD; length -= WORD, t += WORD, f += WORD)
            *(word *)t = *(const word *)f;
    }
    for (; length > 0; length--)
        *t++ = *f++;
    return to;
}

/* A few bytes, one store for each: one jump into them costs less than a loop. Nearly every call is of a few. */
#define LAST(n) case n: t[(n) - 1] = (uint8_t)byte; /* falls through */
#define LAST_15 LAST(15) LAST(14) LAST(13) LAST(12) LAST(11) LAST(10) LAST(9) LAST(8) \
    LAST(7) LAST(6) LAST(5) LAST(4) LAST(3) LAST(2) LAST(1)

/* More: by words, eight at a time, then those that are left. Not in line: the few would save registers for it. */
static __attribute__((noinline)) void *set_many(void *to, int byte, size_t length)
{
    uint8_t *t = to;
    uint32_t four = (uint8_t)byte * 0x01010101u;

    for (; !aligned(t, t); length--)
        *t++ = (uint8_t)byte;
    for (; length >= 8 * WORD; length -= 8 * WORD, t += 8 * WORD) {
        word *w = (word *)t;

        w[0] = four;
        w[1] = four;
        w[2] = four;
        w[3] = four;
        w[4] = four;
        w[5] = four;
        w[6] = four;
        w[7] = four;
    }
    if (length >= 4 * WORD) {
        word *w = (word *)t;

        w[0] = four;
        w[1] = four;
        w[2] = four;
        w[3] = four;
        length -= 4 * WORD;
        t += 4 * WORD;
    }
    switch (length) {
    LAST_15
    default:
        return to;
    }
}

void *memset(void *to, int byte, size_t length)
{
    uint8_t *t = to;

    switch (length) {
    LAST(24) LAST(23) LAST(22) LAST(21) LAST(20) LAST(19) LAST(18) LAST(17) LAST(16) LAST_15
    case 0:
        return to;
    default:
        __attribute__((musttail)) return set_many(to, byte, length); /* else it keeps a frame */
    }
}

int memcmp(const void *a, const void *b, size_t length)
{
    const uint8_t *x = a, *y = b;

    for (; length > 0; length--, x++, y++)
        if (*x != *y)
            return *x < *y ? -1 : 1;
    return 0;
}
