/* SPDX-License-Identifier: MIT OR Apache-2.0 */
/* The card against what the guest says that it streamed. Each packet on the card is one that was sent, whole, in order
 * and once; and all that were on the bus are there, except empty ones and short ones that equal the mark's beginning,
 * which nobody can see (docs/DIFFERENCES.md 3), those counted as overruns, and those sent to nobody. Packets of the
 * recorder's own endpoint are passed over.
 *
 * check CARD LOG [FLOOR] [LATE]; LATE: packets may lack last bytes that equal the mark's, as they come late. */
#include <stdio.h>
#include <stdlib.h>
#include <string.h>
#include "packets.h"
#include "usbhs_survey.h"

#define RECORDER 15u
#define SHOWN 5u

/* What the log says. */
static struct {
    unsigned sent, broken;
    unsigned long on_bus, empty, marked, unheard, recorded, overruns;
} log;

static int read_log(const char *name)
{
    FILE *f = fopen(name, "r");
    char line[2000];
    unsigned a, b;

    if (f == NULL)
        return 0;
    while (fgets(line, sizeof line, f) != NULL) {
        if (sscanf(line, "guest: streamed %u %u", &a, &b) == 2)
            log.sent = b;
        if (sscanf(line, "guest: broken %u %u", &a, &b) == 2)
            log.broken += b - a, log.sent = b;
        sscanf(line, "bridge: total %lu empty %lu marked %lu unheard %lu", &log.on_bus, &log.empty, &log.marked,
               &log.unheard);
        sscanf(line, "device: %lu packets recorded, %lu overruns", &log.recorded, &log.overruns);
    }
    fclose(f);
    return 1;
}

static uint8_t *read_card(const char *name, size_t *length)
{
    FILE *f = fopen(name, "rb");
    uint8_t *card;

    if (f == NULL || fseek(f, 0, SEEK_END) != 0)
        return NULL;
    *length = (size_t)ftell(f);
    rewind(f);
    card = malloc(*length + 1);
    if (fread(card, 1, *length, f) != *length)
        *length = 0;
    fclose(f);
    return card;
}

/* Whether packet n was sent just so; `late`: its end may be missing. */
static int is_packet(unsigned n, const uint8_t *bytes, unsigned length, int late)
{
    uint8_t made[PACKET_MOST];
    unsigned m = make_packet(n, made);

    return (m == length || (late && m > length && m <= length + 4)) && memcmp(made, bytes, length) == 0;
}

/* Packets from one to another that are not on the card; the empty ones do not count. */
static void tell_missing(unsigned from, unsigned to)
{
    static unsigned shown;
    uint8_t made[PACKET_MOST];

    for (; from < to; from++) {
        unsigned length = make_packet(from, made);

        if (length == 0 || shown++ >= SHOWN)
            continue;
        printf("check: packet %u, %u bytes, is not on the card:", from, length);
        for (unsigned i = 0; i < length && i < 8; i++)
            printf(" %02X", made[i]);
        printf("\n");
    }
}

/* The next packet from n on that was sent just so, or `sent`. */
static unsigned find(unsigned n, const uint8_t *bytes, unsigned length, int late)
{
    unsigned from = n;

    while (n < log.sent && !is_packet(n, bytes, length, 0))
        n++;
    if (n == log.sent && late)
        for (n = from; n < log.sent && !is_packet(n, bytes, length, 1); n++)
            ;
    return n;
}

int main(int argc, char **argv)
{
    unsigned floor = argc > 3 ? (unsigned)atoi(argv[3]) : 1, n = 0, given = 0, own = 0, wrong = 0, cut = 0;
    int late = argc > 4;
    size_t length = 0;
    uint8_t *card = argc > 2 ? read_card(argv[1], &length) : NULL, room[1024], made[PACKET_MOST];
    usbhs_length place;
    uint32_t endpoint;
    uint64_t word;

    if (card == NULL || !read_log(argv[2])) {
        printf("check: CARD LOG [FLOOR] [LATE]\n");
        return 2;
    }
    word = usbhs_card_start(card, length, &place);
    wrong += USBHS_KIND(word) != USBHS_END;
    for (;;) {
        unsigned found;

        word = usbhs_card_next(card, length, &place, &endpoint, room, sizeof room);
        if (USBHS_KIND(word) != USBHS_DONE)
            break;
        if (endpoint == RECORDER) {
            own++;
            continue;
        }
        given++;
        found = find(n, room, USBHS_LENGTH(word), late);
        if (found == log.sent || endpoint != 1) {
            if (wrong++ < SHOWN)
                printf("check: packet %u of the card, %u bytes, was not sent after packet %u\n", given - 1,
                       USBHS_LENGTH(word), n);
            continue;
        }
        tell_missing(n, found);
        cut += make_packet(found, made) != USBHS_LENGTH(word);
        n = found + 1;
    }
    printf("check: the guest sent %u packets (%u in URBs that were broken off), %lu were on the bus (%lu empty, %lu as "
           "the mark, %lu to nobody); %u are on the card, %zu blocks (and %u of the recorder's own); %u wrong, %u cut, "
           "%lu overruns\n", log.sent, log.broken, log.on_bus, log.empty, log.marked, log.unheard, given,
           length / USBHS_BLOCK_LEN, own, wrong, cut, log.overruns);
    if (given < floor || wrong > 0 || given != log.recorded || log.on_bus > log.sent ||
        log.sent - log.on_bus > log.broken ||
        given + log.overruns + log.unheard + log.empty + log.marked != log.on_bus) {
        printf("check: FAILED\n");
        return 1;
    }
    printf("check: passed\n");
    return 0;
}
