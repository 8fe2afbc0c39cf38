/* SPDX-License-Identifier: MIT OR Apache-2.0 */
/* The survey's calls, which take no driver: the best set of channels, the arrivals between a
 * reader's visits, packets on the card, a configuration descriptor's endpoints. The library
 * (libsurvey_c.a) has no state of its own, and links with or without the driver's.
 *
 * A slice is a pointer and a length, of the list of channels how many they are; what one call is
 * lent must not overlap. Any numbers and bytes are safe: a call touches nothing outside of what
 * it is lent, does not trap and returns.
 *
 * Each call answers one word, as those of usbhs.h do:
 *
 *   kind (bits 0-3)  other bits
 *   0 refused        8-15 the row's number; nothing is written
 *   5 end            8-23 result
 *   7 done           8-23 length
 */
#ifndef USBHS_SURVEY_H
#define USBHS_SURVEY_H

#include "usbhs.h"

#ifdef __cplusplus
extern "C" {
#endif

/* The best set of up to 16 optional channels: it fits the bus time that is left of 6,000
 * byte-times, and its maxima total the most. Above 6,000 in use none is left: then only channels
 * of charge 0 fit.
 *
 * time: the record of bus time that the drivers share. budget: how many sets may be looked at;
 * 65,536 are always all.
 *
 * Ends with the set: bit i says whether channel i is in. *total: of its maxima. *figure: no
 * fitting set has a greater total; if all sets were looked at it is *total, else the total of all
 * maxima. *looked: how many sets were looked at. Of equal sets the one with the smaller number.
 *
 * Row 20, before any look: more than 16 channels, or a budget of 0. */
struct usbhs_channel {
    uint16_t maximum;
    uint16_t charge; /* in byte-times of a microframe */
    uint8_t chosen;  /* becomes 1 if the channel is chosen, 0 if not; any byte before */
};
uint64_t usbhs_best_set(struct usbhs_channel *list, usbhs_length channels,
    const uint16_t time[USBHS_TIME_LEN], uint32_t budget, uint32_t *total, uint32_t *figure,
    uint32_t *looked);

/* How many packets may arrive between two visits of a reader. In microframes: from a visit to the
 * next it is at least a and at most b, from an arrival to the next at least c and at most d. The
 * arrival on the second visit's microframe counts, the one on the first's does not.
 *
 * Ends with 0. least and greatest have three numbers each: how many arrive, and times that reach
 * it, the first arrival after the visit and the distance from each to the next: d and d in a span
 * of a for the least, 1 and c in a span of b for the greatest. A ring of 16 slots, which holds 15
 * packets, has no overrun after the first visit, however the times fall, exactly if
 * greatest[USBHS_ARRIVALS] is at most 15 and each visit empties it.
 *
 * Row 23: one of the four is 0 or above 16,383, a is above b, or c is above d. */
#define USBHS_REACHED_LEN 3
#define USBHS_ARRIVALS 0
#define USBHS_FIRST 1
#define USBHS_DISTANCE 2
uint64_t usbhs_between_visits(uint32_t a, uint32_t b, uint32_t c, uint32_t d,
                              uint32_t least[USBHS_REACHED_LEN], uint32_t greatest[USBHS_REACHED_LEN]);

/* The data CRC of USB 2.0, 8.3.5, over these bytes, 16 bits, the first bit sent being bit 0:
 * 0xB4C8 for "123456789". */
uint32_t usbhs_data_crc(const uint8_t *bytes, usbhs_length length);

/* Packets on the card: a stream of blocks of USBHS_BLOCK_LEN bytes.
 *
 *   0-3      the block's number from 0, lowest byte first
 *   4-5      the offset of the first packet that begins in it, likewise; 65,535 if none
 *   6-509    packet data: two bytes of length, lowest first, one byte of endpoint, its bytes;
 *            packets run on over block ends
 *   510-511  usbhs_data_crc of bytes 0-509, lowest byte first
 *
 * The writer fills one block at a time. Its state is four numbers of the caller's, which
 * usbhs_card_new sets: the block's number, the bytes of packet data in it, the offset of the
 * first packet that begins in it, the bytes written of the packet under way. The last three count
 * modulo 65,536.
 *
 *     usbhs_card_new(writer);
 *     for each packet
 *         do {
 *             word = usbhs_card_write(writer, block, USBHS_BLOCK_LEN, endpoint, data, length);
 *             if (USBHS_KIND(word) == USBHS_REFUSED) ...
 *             if (USBHS_RESULT(word) & USBHS_BLOCK_FULL) store the block;
 *         } while (!(USBHS_RESULT(word) & USBHS_PACKET_WRITTEN));
 *     word = usbhs_card_finish(writer, block, USBHS_BLOCK_LEN);
 *     if (USBHS_KIND(word) == USBHS_REFUSED) ...
 *     if (USBHS_RESULT(word) & USBHS_BLOCK_FULL) store the block;
 *
 * Between the calls the block stays as it is until it is stored; what the next one holds before
 * its first call does not matter. */
#define USBHS_BLOCK_LEN 512
#define USBHS_WRITER_LEN 4

/* The result's bits. */
#define USBHS_BLOCK_FULL 1u     /* the block is to be stored, and the next one lent */
#define USBHS_PACKET_WRITTEN 2u /* the packet is written whole; else bring it again with the next */

void usbhs_card_new(uint32_t writer[USBHS_WRITER_LEN]);

/* Row 21: a block that is not 512 bytes, a packet of more than 1,024, endpoint 0 or above 15. */
uint64_t usbhs_card_write(uint32_t writer[USBHS_WRITER_LEN], uint8_t *block, usbhs_length block_length,
    uint32_t endpoint, const uint8_t *data, usbhs_length data_length);

/* Fills the last block with zeros, after the last packet. Ends with USBHS_BLOCK_FULL, or with 0
 * where the last block is stored already.
 * Row 21: a block that is not 512 bytes. */
uint64_t usbhs_card_finish(const uint32_t writer[USBHS_WRITER_LEN], uint8_t *block, usbhs_length block_length);

/* A recorder, for a card that is written over and not erased. What it stores is a stream as above, and it
 * says at every moment where it ends: behind the packets there is an end record of the recorder's own, and
 * filler behind that in the same block. From the moment its first block is stored, wherever the power goes, a
 * reader of the whole card gives the packets whose blocks are stored, then the end record, and nothing older.
 * The block that is being stored may then hold anything that fails its check: packets that have bytes in it
 * are lost, also one that was stored before and ends in it. What a finish has stored is not written again.
 * (usbhs_card_write alone does not do this: a card that it writes over must be erased first, or a reader goes
 * on in the older stream behind the new one's last block.)
 *
 * You lend it a room of four blocks and six numbers, which stay as they are between the calls. Block k lies
 * at (k % 4) * 512 in the room. After each call you store what it asks for, in this order:
 *
 *     word = usbhs_recorder_begin(recorder, room, USBHS_ROOM_LEN, survey);    store_all();
 *     for each packet {
 *         word = usbhs_record(recorder, room, USBHS_ROOM_LEN, endpoint, data, length, overruns);
 *         if (USBHS_KIND(word) == USBHS_REFUSED) ...
 *         store_all();
 *     }
 *     word = usbhs_recorder_finish(recorder, room, USBHS_ROOM_LEN, overruns); store_all();
 *
 *     store_all: while (recorder[USBHS_TO_STORE] != 0) {
 *         store 512 bytes from USBHS_STORE_BLOCK(recorder, room) at block USBHS_STORE_PLACE(recorder);
 *         usbhs_recorder_stored(recorder);
 *     }
 *
 * What you must keep: a store has ended before you call usbhs_recorder_stored; where it failed, or its place
 * lies behind the card's end, you record no more (the card then reads as if the power had gone there). A
 * store changes no other block. The card has at most 2^32 - 4 blocks. The survey has begun when its first
 * block is stored: until then, and where that store is torn, the card is still the older survey's.
 *
 * The recorder's records are packets on endpoint USBHS_RECORDER, which no stream may use. Byte 0 is the kind:
 * 0 (or no byte at all) padding, all zeros; 1 the begin of a survey; 2 stamp and losses, which you record
 * yourself; 3 the end. Bytes 2-5 are the survey's number, lowest first. Of an end, byte 1 is 1 once the
 * survey is finished, and bytes 6-9 are the overruns that you brought. */
#define USBHS_RECORDER 15u
#define USBHS_RECORDER_LEN 6
#define USBHS_ROOM_LEN (4 * USBHS_BLOCK_LEN)
#define USBHS_TO_STORE 4 /* of the six numbers: how many blocks are still to be stored */
#define USBHS_SURVEY 5   /* the survey's number */
#define USBHS_STORE_PLACE(recorder) ((recorder)[3] + (recorder)[USBHS_TO_STORE] - 1u)
#define USBHS_STORE_BLOCK(recorder, room) ((room) + USBHS_STORE_PLACE(recorder) % 4u * USBHS_BLOCK_LEN)

/* Each ends with the number of blocks to be stored, 0 to 4.
 * Row 21: a room that is not USBHS_ROOM_LEN bytes, a packet of more than 1,024 bytes, endpoint 0 or above
 * 15; for a packet and a finish also blocks of the call before that are not stored yet. */
uint64_t usbhs_recorder_begin(uint32_t recorder[USBHS_RECORDER_LEN], uint8_t *room, usbhs_length room_length,
    uint32_t survey);
uint64_t usbhs_record(uint32_t recorder[USBHS_RECORDER_LEN], uint8_t *room, usbhs_length room_length,
    uint32_t endpoint, const uint8_t *data, usbhs_length data_length, uint32_t overruns);
/* Brings what is not stored yet to the card. You may record on behind it. */
uint64_t usbhs_recorder_finish(uint32_t recorder[USBHS_RECORDER_LEN], uint8_t *room, usbhs_length room_length,
    uint32_t overruns);
/* The block that was to be stored is stored: ends with the number of those left. */
uint64_t usbhs_recorder_stored(uint32_t recorder[USBHS_RECORDER_LEN]);

/* The reader, over the whole stream. *place, a usbhs_length, is where it goes on;
 * usbhs_card_start sets it. A block whose check fails or whose number is not its place is dropped
 * with the packet that it cuts; every packet that lies wholly in blocks as they were written is
 * given, in order.
 *
 * usbhs_card_start ends with 0. usbhs_card_next is done with the packet's length, its bytes at
 * the room's front and its endpoint in *endpoint, or ends where there is no more packet.
 * Row 21: a stream that is not whole blocks; a room shorter than the packet, which a longer one
 * then gets. */
uint64_t usbhs_card_start(const uint8_t *stream, usbhs_length stream_length, usbhs_length *place);
uint64_t usbhs_card_next(const uint8_t *stream, usbhs_length stream_length, usbhs_length *place, uint32_t *endpoint,
    uint8_t *room, usbhs_length room_length);

/* The calls themselves, with a place that is no usbhs_length refused by the compiler. */
#define usbhs_card_start(stream, stream_length, place) \
    (usbhs_card_start)(stream, stream_length, USBHS_LENGTH_AT(place))
#define usbhs_card_next(stream, stream_length, place, endpoint, room, room_length) \
    (usbhs_card_next)(stream, stream_length, USBHS_LENGTH_AT(place), endpoint, room, room_length)

/* Many packets at once: as many as the room holds, what as many calls of usbhs_card_next give,
 * one behind the other as they stand on the card: two bytes of length, lowest first, one of the
 * endpoint, the packet's bytes. It checks each block once where usbhs_card_next checks it again
 * for every packet.
 *
 * Ends with 1: *count packets in the first *used bytes of the room, and *place behind them; or
 * with 0, both 0, where there is no more packet.
 * Row 21: as usbhs_card_next; the room needs three bytes beside the packet's. */
uint64_t usbhs_card_read(const uint8_t *stream, usbhs_length stream_length, usbhs_length *place,
                         uint8_t *room, usbhs_length room_length, usbhs_length *count, usbhs_length *used);
#define usbhs_card_read(stream, stream_length, place, room, room_length, count, used) \
    (usbhs_card_read)(stream, stream_length, USBHS_LENGTH_AT(place), room, room_length, \
        USBHS_LENGTH_AT(count), USBHS_LENGTH_AT(used))

/* The endpoints of a configuration descriptor written into the room as one interface, alternate
 * setting 0: done with 18 bytes and 7 for each, of which there are at most 32. Read again they
 * are the same endpoints.
 * Row 17, first: the bytes are no configuration descriptor (usbhs.h has the conditions in full),
 * or the room is too short for the list, also where two types clash. Row 18: one address has two
 * transfer types. */
uint64_t usbhs_write_descriptor(const uint8_t *bytes, usbhs_length length, uint8_t *room, usbhs_length room_length);

#ifdef __cplusplus
}
#endif

#endif
