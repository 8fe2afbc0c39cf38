/* SPDX-License-Identifier: MIT OR Apache-2.0 */
/* older SEED BLOCKS SURVEY: a card as a recorder may find it, to standard output: zeros, anything, a stream by
 * usbhs_card_write, a survey by the recorder, of another number or of this one, finished or cut. Its packets are of
 * bytes EE. */
#include <stdio.h>
#include <stdlib.h>
#include <string.h>
#include "usbhs_survey.h"

#define MOST 4096u

static uint8_t card[MOST * USBHS_BLOCK_LEN], room[USBHS_ROOM_LEN], packet[1024];
static uint32_t recorder[USBHS_RECORDER_LEN], writer[USBHS_WRITER_LEN];
static unsigned long seed;
static unsigned blocks;

static unsigned below(unsigned n)
{
    seed = seed * 6364136223846793005ul + 1442695040888963407ul;
    return (unsigned)(seed >> 33) % n;
}

/* Whether there is still place. */
static int store_all(void)
{
    while (recorder[USBHS_TO_STORE] != 0) {
        if (USBHS_STORE_PLACE(recorder) >= blocks)
            return 0;
        memcpy(card + USBHS_STORE_PLACE(recorder) * USBHS_BLOCK_LEN, USBHS_STORE_BLOCK(recorder, room),
            USBHS_BLOCK_LEN);
        (void)usbhs_recorder_stored(recorder);
    }
    return 1;
}

static void survey(uint32_t number)
{
    uint8_t stamp[12] = {2, 1, (uint8_t)number, (uint8_t)(number >> 8), (uint8_t)(number >> 16),
        (uint8_t)(number >> 24)};
    unsigned end = below(4) == 0 ? below(blocks * 8) : ~0u;

    (void)usbhs_recorder_begin(recorder, room, sizeof room, number);
    for (unsigned i = 0; store_all() && i < end; i++) {
        if (i % 16 == 0)
            (void)usbhs_record(recorder, room, sizeof room, USBHS_RECORDER, stamp, sizeof stamp, 0);
        else
            (void)usbhs_record(recorder, room, sizeof room, 1, packet, 8 + below(57), 0);
    }
    if (recorder[USBHS_TO_STORE] == 0 && below(2) == 0) {
        (void)usbhs_recorder_finish(recorder, room, sizeof room, 0);
        (void)store_all();
    }
}

static void stream(void)
{
    uint8_t block[USBHS_BLOCK_LEN];
    unsigned stored = 0, length;
    uint64_t word;

    usbhs_card_new(writer);
    while (stored < blocks) {
        length = 8 + below(57);
        do {
            word = usbhs_card_write(writer, block, sizeof block, 1, packet, length);
            if (USBHS_RESULT(word) & USBHS_BLOCK_FULL && stored < blocks)
                memcpy(card + stored++ * USBHS_BLOCK_LEN, block, sizeof block);
        } while (!(USBHS_RESULT(word) & USBHS_PACKET_WRITTEN));
    }
}

int main(int words, char **word)
{
    if (words != 4 || (blocks = (unsigned)atoi(word[2])) > MOST || blocks == 0)
        return 2;
    seed = strtoul(word[1], 0, 10);
    memset(packet, 0xEE, sizeof packet);
    for (unsigned i = 0; i < 3; i++)
        (void)below(2);
    switch (below(6)) {
    case 0: break;
    case 1:
        for (unsigned i = 0; i < sizeof card; i++)
            card[i] = (uint8_t)below(256);
        break;
    case 2: stream(); break;
    case 3: survey((uint32_t)atol(word[3])); break;
    default: survey(below(1000));
    }
    return fwrite(card, USBHS_BLOCK_LEN, blocks, stdout) != blocks;
}
