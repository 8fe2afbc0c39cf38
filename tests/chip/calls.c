/* SPDX-License-Identifier: MIT OR Apache-2.0 */
/* The calls that the replayed lists do not have, on random inputs: a descriptor's endpoints allocated, tried and
 * written, the best set of channels, arrivals between visits, packets on the card. Prints digests of all that is
 * answered and written. It is compiled for x86-64 and for RV32, and both must print the same. */
#include <string.h>
#include "../../firmware/console.h"
#include "usbhs_survey.h"

static uint32_t seed = 1, digest;

/* xorshift: below `limit`. */
static uint32_t below(uint32_t limit)
{
    seed ^= seed << 13;
    seed ^= seed >> 17;
    seed ^= seed << 5;
    return seed % limit;
}

static int chance(uint32_t percent)
{
    return below(100) < percent;
}

static void mix(uint32_t number)
{
    digest = ((digest << 5 | digest >> 27) ^ number) * 0x9E3779B1u;
}

static void mix_word(uint64_t word)
{
    mix((uint32_t)word);
    mix((uint32_t)(word >> 32));
}

static void mix_bytes(const uint8_t *bytes, uint32_t length)
{
    for (uint32_t i = 0; i < length; i++)
        mix(bytes[i]);
}

static void tell(const char *what, uint32_t times)
{
    print(what);
    print(": ");
    print_number(times);
    print(", digest ");
    print_hex(digest, 8);
    print("\n");
    digest = 0;
}

/* Changes a byte somewhere. */
static void change(uint8_t *bytes, uint32_t length, uint32_t most)
{
    uint32_t at = below(length);

    bytes[at] ^= (uint8_t)(1 + below(most));
}

/* ---- boards */

#define MOST_SLOTS (64u * 512u)

static uint8_t state[USBHS_STATE_LEN] __attribute__((aligned(4)));
static uint8_t slots[MOST_SLOTS] __attribute__((aligned(4))), board[512];
static uint16_t bus_time[USBHS_TIME_LEN];
static uint32_t slots_length, board_length;

static void put(const uint8_t *bytes, uint32_t length)
{
    memcpy(board + board_length, bytes, length);
    board_length += length;
}

/* One draw in each statement: C leaves the order within one open. */
static void put_endpoint(void)
{
    uint8_t bytes[9] = {7, 5};
    uint32_t number = chance(3) ? 0 : 1 + below(15);
    uint32_t dir = chance(50) ? 0x80 : 0;
    uint32_t kind = chance(10) ? below(4) : 1 + number % 2;
    uint32_t maximum = below(chance(3) ? 2048 : 65);

    bytes[2] = (uint8_t)(number | dir);
    bytes[3] = (uint8_t)kind;
    bytes[4] = (uint8_t)maximum;
    bytes[5] = (uint8_t)(maximum >> 8);
    bytes[6] = (uint8_t)below(5);
    if (chance(20))
        bytes[0] = 9;
    put(bytes, bytes[0]);
}

/* A configuration descriptor, now and then with a byte changed. */
static void put_board(void)
{
    static const uint8_t head[9] = {9, 2, 0, 0, 1, 1, 0, 0x80, 50}, kind[4] = {4, 0x24, 1, 2};
    uint8_t interface[9] = {9, 4, 0, 0, 0, 0xFF, 0, 0, 0};

    board_length = 0;
    put(head, sizeof head);
    for (uint32_t i = 1 + below(4); i > 0; i--) {
        interface[3] = (uint8_t)below(3);
        put(interface, sizeof interface);
        for (uint32_t k = below(4); k > 0; k--) {
            if (chance(20))
                put(kind, sizeof kind);
            put_endpoint();
        }
    }
    board[2] = (uint8_t)board_length;
    board[3] = (uint8_t)(board_length >> 8);
    if (chance(15))
        change(board, board_length, 255);
}

static void to_end(uint64_t word)
{
    mix_word(word);
    while (USBHS_KIND(word) >= USBHS_READ && USBHS_KIND(word) <= USBHS_CALLBACK) {
        word = usbhs_continue(state, slots, slots_length, bus_time, 3, 0);
        mix_word(word);
    }
}

static void try_board(void)
{
    uint8_t numbers[USBHS_NUMBERS_LEN] = {0}, room[300];
    uint32_t count = 1 + below(64), size = chance(50) ? 64 : 512, buffers = 7, refusal = 8, length = below(300);

    slots_length = size * count;
    memset(state, 0, sizeof state);
    memset(room, 0xEE, sizeof room);
    to_end(usbhs_start_up(state, slots, slots_length, bus_time, 3, size, count, 0));
    put_board();
    mix_word(usbhs_preview(state, board, board_length, numbers, &buffers, &refusal));
    mix(buffers);
    mix(refusal);
    mix_bytes(numbers, sizeof numbers);
    to_end(usbhs_allocate_all(state, board, board_length));
    mix_bytes(state, sizeof state);
    mix_word(usbhs_write_descriptor(board, board_length, room, length));
    mix_bytes(room, sizeof room);
}

/* ---- channels and visits */

static void try_channels(void)
{
    struct usbhs_channel list[17];
    uint32_t total = 1, figure = 2, looked = 3, at, channels = chance(5) ? below(18) : below(12);

    memset(list, 0, sizeof list);
    for (uint32_t i = 0; i < 17; i++) {
        list[i].maximum = (uint16_t)below(0x10000);
        list[i].charge = (uint16_t)below(5000);
        list[i].chosen = (uint8_t)below(256);
    }
    at = below(USBHS_TIME_LEN);
    bus_time[at] = (uint16_t)below(1000);
    mix_word(usbhs_best_set(list, channels, bus_time, below(3000), &total, &figure, &looked));
    mix(total);
    mix(figure);
    mix(looked);
    mix_bytes((const uint8_t *)list, sizeof list);
}

static uint32_t distance(void)
{
    return chance(5) ? below(0xFFFFFFFFu) : below(chance(50) ? 20 : 16384);
}

static void try_visits(void)
{
    uint32_t least[USBHS_REACHED_LEN] = {1}, greatest[USBHS_REACHED_LEN] = {2};
    uint32_t a = distance(), b = a + distance(), c = distance(), d = c + distance();

    mix_word(usbhs_between_visits(a, b, c, d, least, greatest));
    mix_bytes((const uint8_t *)least, sizeof least);
    mix_bytes((const uint8_t *)greatest, sizeof greatest);
}

/* ---- the card */

#define MOST_BLOCKS 16u

static uint8_t card[MOST_BLOCKS * USBHS_BLOCK_LEN], packet[1025];
static uint32_t card_length;

static void store(const uint8_t *block)
{
    if (card_length < sizeof card) {
        memcpy(card + card_length, block, USBHS_BLOCK_LEN);
        card_length += USBHS_BLOCK_LEN;
    }
}

static void write_packet(uint32_t *writer, uint8_t *block)
{
    uint32_t endpoint = chance(3) ? below(300) : 1 + below(15), length = below(chance(50) ? 65 : 1026);
    uint64_t word;

    for (uint32_t i = 0; i < length; i++)
        packet[i] = (uint8_t)below(256);
    do {
        word = usbhs_card_write(writer, block, USBHS_BLOCK_LEN, endpoint, packet, length);
        mix_word(word);
        if (USBHS_KIND(word) == USBHS_REFUSED)
            return;
        if (USBHS_RESULT(word) & USBHS_BLOCK_FULL)
            store(block);
    } while (!(USBHS_RESULT(word) & USBHS_PACKET_WRITTEN));
}

static void read_card(void)
{
    usbhs_length place = 0;
    uint32_t endpoint = 0;
    uint64_t word = usbhs_card_start(card, card_length, &place);

    mix_word(word);
    while (USBHS_KIND(word) != USBHS_REFUSED) {
        word = usbhs_card_next(card, card_length, &place, &endpoint, packet, 1024 - below(64));
        mix_word(word);
        mix_word(place);
        mix(endpoint);
        if (USBHS_KIND(word) != USBHS_DONE)
            return;
        mix_bytes(packet, USBHS_LENGTH(word));
    }
}

static void try_card(void)
{
    uint32_t writer[USBHS_WRITER_LEN];
    uint8_t block[USBHS_BLOCK_LEN];

    card_length = 0;
    memset(block, 0, sizeof block);
    usbhs_card_new(writer);
    for (uint32_t i = below(12); i > 0; i--)
        write_packet(writer, block);
    if (USBHS_RESULT(usbhs_card_finish(writer, block, sizeof block)) & USBHS_BLOCK_FULL)
        store(block);
    mix_bytes(card, card_length);
    mix(usbhs_data_crc(card, card_length));
    for (uint32_t i = below(3); i > 0 && card_length > 0; i--)
        change(card, card_length, 7);
    read_card();
}

static void tried(const char *what, void (*one)(void), uint32_t times)
{
    for (uint32_t i = 0; i < times; i++)
        one();
    tell(what, times);
}

int main(void)
{
    tried("boards", try_board, 3000);
    tried("channels", try_channels, 200);
    tried("visits", try_visits, 5000);
    tried("cards", try_card, 300);
    return 0;
}
