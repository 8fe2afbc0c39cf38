/* SPDX-License-Identifier: MIT OR Apache-2.0 */
/* The USBHS device driver's calls. The driver's state lies in USBHS_STATE_LEN bytes of the
 * caller's, its packets in the caller's slots; the library has no state of its own. Before the
 * first start-up the state's bytes are to be zero.
 *
 * A slice is a pointer and a length. Pointers must be valid for their lengths, and what one call
 * is lent (state, slots, time, slice, data, packet, rooms) must not overlap. Any number and any
 * bytes are then safe: a call touches nothing outside of what it is lent, does not trap and
 * returns, also on a state or a record of time that no call made. That is a promise on the calls.
 * It is none on the bus: every operation ends, yet the host's transfer may stall, or an isochronous
 * packet be lost, where tokens follow each other faster than the interrupt reads them
 * (docs/DIFFERENCES.md, k to q; firmware/sof.c, watch.c and look.c are what firmware does about it).
 * The accesses that they hand out of such bytes, with the addresses and lengths in them, are as
 * good as the bytes: only of a state that a start-up made and these calls alone have changed do
 * the addresses lie inside of the slots, each with its whole buffer. dir: 0 OUT, else IN. Flags:
 * 0 no, else yes. State and slots must begin on a word boundary (__attribute__((aligned(4)))): the
 * chip wants it of the slots, and the library is compiled for it. Start-up checks both (row 24).
 *
 * Each call answers one word:
 *
 *   kind (bits 0-3)  other bits
 *   0 refused        8-15 the row's number
 *   1 read           8-15 register, 16-23 endpoint: usbhs_continue brings the reading
 *   2 write          8-15 register, 16-23 endpoint, 32-63 value
 *   3 wait           8-15 microseconds
 *   4 callback       the start-of-frame callback
 *   5 end            8-23 result, 24-31 how many tasks are to be woken, at most 64: usbhs_woken
 *                    lists them, as many
 *   6 not yet        of a poll: wait for a wake-up, then poll again
 *   7 done           8-23 length: of a poll, so many bytes at the slice's front; the request is
 *                    over
 *   8 shown          8-23 length, 32-63 offset into the slots: an open packet, whose stamp is at
 *                    `stamp`
 *
 * After kinds 1 to 4 the operation is under way: make the access, then call usbhs_continue, with
 * the reading after a read and with any number after the others, until the end. Meanwhile the
 * questions answer, and a start-up drops the operation; during an interrupt
 * (usbhs_begin_interrupt) packets may be opened, closed and queued; every other call is refused
 * with 3. So the chip's interrupt is to be masked while another operation is continued.
 *
 * Refusals, in the order in which a call checks them (but 22 before 6; control stages check 10
 * before 9; 17, 18 and 19 as their calls say).
 * A refused call changes nothing, except that 9 and 10 of a poll end its request, and that 10
 * also forgets a packet that was ready. After a continue that is refused with 1 or 16 its reading
 * is still awaited; the access is not handed out again. usbhs_interrupt, usbhs_interrupt_transfer,
 * usbhs_continue_transfer, usbhs_continue_released and usbhs_continue_looks are several calls, of
 * which the last one is refused: see there.
 *
 *    1  a call with the slots: their length is not count times size, those of the last accepted
 *       start-up (0 before the first)
 *    2  start-up: a size that is not 8, 16, 32, 64, 512 or 1024; a count of 0; more than 65,536
 *       bytes in all
 *    3  any call but start-up, continue and the questions: an operation is under way; open, close
 *       and queue pass during an interrupt
 *    4  not at this stage: before start-up only start-up; after it allocations and EP0's start;
 *       after EP0's start all but these two
 *    5  no such endpoint: 0 or above 15, or not allocated in the direction, which is OUT for
 *       read, open and close, IN for write and queue (stalls and usbhs_begin_is_stalled take 0;
 *       pacing and advance ask no more than 1 to 15; allocation is not refused so)
 *    6  allocation, EP0's start: the maximum is above the buffer size
 *    7  allocation: an address whose bit 7 is not the direction, whose number is 0 or above 15,
 *       or taken; no number is free
 *    8  allocation, EP0's start: the buffers run out; nothing is taken then
 *    9  read, write, queue: the endpoint is disabled; of control stages but setup and reject, a
 *       setup packet waits
 *   10  a length: a read's slice below the endpoint's maximum; data above the maximum (of a
 *       queue, above the buffer size); a poll with another length than its begin's; more was
 *       received than the slice or the maximum holds; data in was closed by an OUT that is not
 *       empty
 *   11  open, queue: not isochronous
 *   12  open: no packet waits
 *   13  queue: two packets wait
 *   14  close: no packet is open
 *   15  continue: nothing is under way; a poll: no such request was begun
 *   16  continue: the reading has bits above its width
 *   17  a descriptor: its bytes do not begin with a configuration descriptor, are not as many as
 *       its wTotalLength, or are more than 4,096; a length byte is below 2, below its kind's
 *       (configuration 9, interface 9, endpoint 7) or runs past the total; a second configuration
 *       descriptor; an endpoint before every interface, or with address bits 4 to 6 set; of
 *       usbhs_write_descriptor also a room too short for the list
 *   18  a descriptor: one address has two transfer types; after 17, before any allocation
 *   19  an enabling, after 5: with it the bus time in use would pass 6,000 byte-times
 *   22  EP0's start, before 6: the maximum is not 64
 *   24  start-up, before all others, by this header: the state or the slots do not begin on a word
 *       boundary
 *
 * Readings and values are packed as follows, bit 0 lowest; this is the driver's own packing and
 * not the chip's layout. ep_config, ep_type and int_en are kept by the driver and never read.
 *
 *   int_fg      0 bus reset, 1 transfer, 2 suspend, 3 host SOF, 4 FIFO overflow, 5 setup; a write
 *               clears the flag whose bit is 1
 *   int_st      0-3 endpoint, 4-5 token (0 OUT, 1 SOF, 2 IN, 3 SETUP), 6 tog_ok
 *   mis_st      0 sie_free, 1 suspend
 *   rx_len      16 bits
 *   frame_no    0-10 frame, 13-15 microframe
 *   ctrl        0 clr_all, 1 reset_sie, 2 int_busy, 3 dma_en, 4 speed_type (1 high speed),
 *               5 dev_pu_en
 *   int_en      0 dev_nak, 1 fifo_ov, 2 setup_act, 3 suspend, 4 bus_rst, 5 transfer, 6 sof_act
 *   dev_ad      7 bits
 *   host_ctrl   0 phy_suspendm (the host part's control register)
 *   ep_config   bit e: IN e is enabled; bit 16 + e: OUT e
 *   ep_type     the same bits: isochronous
 *   ep_rx_ctrl, ep_tx_ctrl
 *               0-1 response (0 ACK, 1 NYET, of an isochronous endpoint its ISO response, 2 NAK,
 *               3 STALL), 2-3 toggle (0 DATA0, 1 DATA1), 4 automatic; a reading has 8 bits
 *
 * An access carries the endpoint's own number, 0 where the register has none.
 *
 * Bus time: an enabled isochronous endpoint is charged its maximum plus 38 byte-times of each
 * microframe, an interrupt endpoint its maximum plus 55. An enabling with which the drivers'
 * charges would pass 6,000 is refused with 19 and changes nothing.
 */
#ifndef USBHS_H
#define USBHS_H

#include <stddef.h>
#include <stdint.h>

#ifdef __cplusplus
extern "C" {
#endif

/* A slice's length: 64 bits on every target, on RV32 too, where a pointer and a size_t have 32.
 * The prototypes below convert any number; declarations of one's own need 64 bits (in Rust u64,
 * not usize). */
typedef uint64_t usbhs_length;

/* The pointer to a length, itself. A pointer to a narrower number, as a size_t of 32 bits, does
 * not compile. */
#define USBHS_LENGTH_AT(pointer) ((void)sizeof(char[sizeof *(pointer) == 8 ? 1 : -1]), (pointer))

/* The version of header and archive, and the symbol that only the archive of this version and this
 * length of the state has. Start-up reads it: header and archive of two versions do not link. */
#define USBHS_VERSION "0.1.0"
#define USBHS_STATE_LEN 2999
#define USBHS_ARCHIVE usbhs_0_1_0_state_2999
extern const uint8_t USBHS_ARCHIVE;

/* The record of bus time that up to four drivers share: what each endpoint is charged. Zero at
 * first; each of their calls that brings it gets it as the last one left it, and no two calls at
 * once. `driver` is the caller's number in it, 0 to 3 (modulo 4). */
#define USBHS_TIME_LEN 128

/* The kinds of answer. */
enum usbhs_kind {
    USBHS_REFUSED = 0,
    USBHS_READ = 1,
    USBHS_WRITE = 2,
    USBHS_WAIT = 3,
    USBHS_CALLBACK = 4,
    USBHS_END = 5,
    USBHS_NOT_YET = 6,
    USBHS_DONE = 7,
    USBHS_SHOWN = 8
};

/* The rows by name: USBHS_ROW of a refusal. */
enum usbhs_row {
    USBHS_ROW_SLOTS_LENGTH = 1,
    USBHS_ROW_GEOMETRY = 2,
    USBHS_ROW_UNDER_WAY = 3,
    USBHS_ROW_STAGE = 4,
    USBHS_ROW_NO_ENDPOINT = 5,
    USBHS_ROW_MAXIMUM = 6,
    USBHS_ROW_ADDRESS = 7,
    USBHS_ROW_BUFFERS = 8,
    USBHS_ROW_DISABLED = 9,
    USBHS_ROW_LENGTH = 10,
    USBHS_ROW_NOT_ISOCHRONOUS = 11,
    USBHS_ROW_NO_PACKET = 12,
    USBHS_ROW_FULL = 13,
    USBHS_ROW_NOT_OPEN = 14,
    USBHS_ROW_NOT_BEGUN = 15,
    USBHS_ROW_READING = 16,
    USBHS_ROW_DESCRIPTOR = 17,
    USBHS_ROW_TWO_TYPES = 18,
    USBHS_ROW_BUS_TIME = 19,
    USBHS_ROW_CHANNELS = 20,
    USBHS_ROW_CARD = 21,
    USBHS_ROW_EP0_MAXIMUM = 22,
    USBHS_ROW_DISTANCES = 23,
    USBHS_ROW_MISALIGNED = 24
};

/* The registers. The value of a buffer's register (12, 15, 16) is an offset into the slots. */
enum usbhs_register {
    USBHS_INT_FG = 0,
    USBHS_INT_ST = 1,
    USBHS_MIS_ST = 2,
    USBHS_RX_LEN = 3,
    USBHS_FRAME_NO = 4,
    USBHS_CTRL = 5,
    USBHS_INT_EN = 6,
    USBHS_DEV_AD = 7,
    USBHS_HOST_CTRL = 8,
    USBHS_EP_CONFIG = 9,
    USBHS_EP_TYPE = 10,
    USBHS_EP_BUF_MOD = 11,
    USBHS_EP0_DMA = 12,
    USBHS_EP_MAX_LEN = 13,
    USBHS_EP_T_LEN = 14,
    USBHS_EP_RX_DMA = 15,
    USBHS_EP_TX_DMA = 16,
    USBHS_EP_RX_CTRL = 17,
    USBHS_EP_TX_CTRL = 18
};

/* The bits that a reading of a register may have; a reading with others is refused with 16, and is
 * still awaited then. An access layer that packs registers bit by bit needs no mask; one that reads
 * a register whole does: bits that the chip has and the packing has not would stop the device. */
#define USBHS_MASK(reg)                                                                              \
    ((reg) == USBHS_INT_FG || (reg) == USBHS_CTRL ? 0x3Fu                                              \
        : (reg) == USBHS_INT_ST                   ? 0x7Fu                                              \
        : (reg) == USBHS_MIS_ST                   ? 0x3u                                               \
        : (reg) == USBHS_EP_RX_CTRL || (reg) == USBHS_EP_TX_CTRL ? 0xFFu : 0xFFFFu)

#define USBHS_OUT 0u
#define USBHS_IN 1u

/* `address` of usbhs_allocate where none is asked for. */
#define USBHS_ANY_ADDRESS 256u

/* The parts of a word. */
#define USBHS_KIND(word) ((unsigned)((word) & 0xF))
#define USBHS_ROW(word) ((unsigned)((word) >> 8 & 0xFF))          /* refused */
#define USBHS_REGISTER(word) ((unsigned)((word) >> 8 & 0xFF))     /* read, write */
#define USBHS_ENDPOINT(word) ((unsigned)((word) >> 16 & 0xFF))    /* read, write */
#define USBHS_VALUE(word) ((uint32_t)((word) >> 32))              /* write */
#define USBHS_MICROSECONDS(word) ((unsigned)((word) >> 8 & 0xFF)) /* wait */
#define USBHS_RESULT(word) ((unsigned)((word) >> 8 & 0xFFFF))     /* end */
#define USBHS_WAKES(word) ((unsigned)((word) >> 24 & 0xFF))       /* end: how many */
#define USBHS_LENGTH(word) ((unsigned)((word) >> 8 & 0xFFFF))     /* done, shown */
#define USBHS_OFFSET(word) ((uint32_t)((word) >> 32))             /* shown */

/* The transfer types of usbhs_allocate (modulo 4). */
enum usbhs_transfer {
    USBHS_CONTROL = 0,
    USBHS_ISOCHRONOUS = 1,
    USBHS_BULK = 2,
    USBHS_INTERRUPT = 3
};

/* Start-up, endpoints, EP0's start. A buffer's size is 8, 16, 32, 64, 512 or 1024; EP0's maximum
 * is 64 (any other is refused with 22), so EP0 starts on buffers of 64 bytes or more. `callback`:
 * there is a start-of-frame callback. It brings SOF interrupts from the start on, which during
 * enumeration can hide a stage of the control pipe from the driver (docs/DIFFERENCES.md, k and l):
 * firmware with a callback should keep the SOF's bit out of int_en, which the driver never reads,
 * until an endpoint is enabled and that transfer is over (firmware/sof.c).
 * usbhs_allocate takes an address as in an endpoint descriptor, bit 7 the direction, which must
 * be `dir`, or USBHS_ANY_ADDRESS; its end's result is the endpoint's number. An isochronous OUT
 * takes 16 buffers, an isochronous IN 2, any other endpoint 1. `interval`: an isochronous IN of 0
 * or 1 is served in every microframe, of more by its own tokens or by usbhs_begin_advance. */
uint64_t usbhs_start_up(uint8_t state[USBHS_STATE_LEN], const uint8_t *slots, usbhs_length slots_length,
    uint16_t time[USBHS_TIME_LEN], uint32_t driver, uint32_t size, uint32_t count, uint32_t callback);
static inline uint64_t usbhs_start_up_aligned(uint8_t state[USBHS_STATE_LEN], const uint8_t *slots,
    usbhs_length slots_length, uint16_t time[USBHS_TIME_LEN], uint32_t driver, uint32_t size, uint32_t count,
    uint32_t callback)
{
    if (((uintptr_t)state | (uintptr_t)slots) % 4 != 0)
        return (uint64_t)USBHS_ROW_MISALIGNED << 8; /* refused: nothing is touched */
    (void)*(const volatile uint8_t *)&USBHS_ARCHIVE;
    return usbhs_start_up(state, slots, slots_length, time, driver, size, count, callback);
}
#define usbhs_start_up usbhs_start_up_aligned
uint64_t usbhs_allocate(uint8_t state[USBHS_STATE_LEN], uint32_t kind, uint32_t address, uint32_t maximum,
    uint32_t interval, uint32_t dir);
uint64_t usbhs_start(uint8_t state[USBHS_STATE_LEN], uint32_t maximum);

/* All endpoints of a configuration descriptor (USB 2.0, 9.6) as one operation, or none: those of
 * alternate setting 0, then the others, each address once. It hands out what usbhs_allocate of
 * each hands out, one after the other, and ends with how many there are.
 * Rows 3 and 4; 17: no configuration descriptor, or one of more than 4,096 bytes; 18: one address
 * has two transfer types; then 6, 7 or 8 of the first endpoint that would be refused. */
uint64_t usbhs_allocate_all(uint8_t state[USBHS_STATE_LEN], const uint8_t *bytes, usbhs_length length);

/* What usbhs_allocate of each would give, up to the first refusal; the state stays as it is. Ends
 * with how many numbers are given: they stand at the front of `numbers`, zeros behind them.
 * *buffers: how many these take. *refusal: 6, 7 or 8, or 0 where all are given.
 * Rows 3, 4, 17 and 18 as above; nothing is written then. */
#define USBHS_NUMBERS_LEN 32
uint64_t usbhs_preview(const uint8_t state[USBHS_STATE_LEN], const uint8_t *bytes, usbhs_length length,
    uint8_t numbers[USBHS_NUMBERS_LEN], uint32_t *buffers, uint32_t *refusal);

/* Goes on with the operation under way, `value` being the reading that was asked for. */
uint64_t usbhs_continue(uint8_t state[USBHS_STATE_LEN], uint8_t *slots, usbhs_length slots_length,
    uint16_t time[USBHS_TIME_LEN], uint32_t driver, uint32_t value);

/* The interrupt: on the chip's interrupt, or whenever it may be raised. While it is under way
 * packets may be opened, closed and queued. */
uint64_t usbhs_begin_interrupt(uint8_t state[USBHS_STATE_LEN]);

/* Readings that follow each other, brought by one call, for those who count instructions. Each is as
 * many of the calls above, made in turn as long as the answer asks for the reading that is brought
 * next:
 *
 *   usbhs_interrupt_transfer  the begin, and a continue each with frame_no, int_fg, mis_st, int_st
 *                             and rx_len
 *   usbhs_interrupt           the begin, and a continue each with frame_no and int_fg
 *   usbhs_continue_transfer   a continue each with mis_st, int_st and rx_len
 *   usbhs_continue_released   a continue, after the write that clears the transfer's flag, and one
 *                             with frame_no
 *   usbhs_continue_looks      `looks` continues with `busy`, a reading of mis_st, and one with `last`
 *
 * The first other answer, a refusal too, is the answer of the whole; the numbers left over are not
 * looked at. What is lent is then as those calls leave it.
 *
 * What the chip shows is overwritten by the next token: read all five registers as the first thing
 * that your interrupt does. A number that is not asked for is dropped.
 *
 *     uint32_t frame = block_read(USBHS_FRAME_NO, 0), flags = block_read(USBHS_INT_FG, 0);
 *     uint32_t mis = block_read(USBHS_MIS_ST, 0), status = block_read(USBHS_INT_ST, 0);
 *     word = usbhs_interrupt_transfer(state, slots, sizeof slots, bus_time, 0, frame, flags, mis,
 *         status, block_read(USBHS_RX_LEN, 0));
 *     to_end(word);    the loop with usbhs_continue
 *
 * The begins check 3 and 4, then 1, then 16. After a 3 or 4 nothing is changed. After a 1 or 16 of
 * any of the five the interrupt is under way: go on with usbhs_continue, which after a 1 is to bring
 * the first of the readings that a continue brings (frame_no, mis_st; any number after the write),
 * and after a 16 the first one that was too wide for its register, and then the loop as ever.
 *
 * Where the driver waits for the SIE it looks at mis_st again and again, up to USBHS_MOST_LOOKS
 * times; elsewhere it looks once. So where mis_st is asked for twice in a row (usbhs_continue with a
 * reading of it, and the answer asks again) count the looks that read the same, and bring them at
 * once:
 *
 *     uint32_t busy = block_read(USBHS_MIS_ST, 0), last = busy, looks = 0;
 *     if ((busy & 1) == 0)
 *         do {
 *             last = block_read(USBHS_MIS_ST, 0);
 *             looks++;
 *         } while (last == busy && looks < USBHS_MOST_LOOKS);
 *     word = usbhs_continue_looks(state, slots, sizeof slots, bus_time, 0, looks, busy, last);
 */
#define USBHS_MOST_LOOKS 2001u
/* Does the word ask for that register, one of these five, which no endpoint has? */
#define USBHS_ASKS(word, reg) ((unsigned)((word) & 0xFFFF) == ((unsigned)(reg) << 8 | USBHS_READ))
uint64_t usbhs_interrupt(uint8_t state[USBHS_STATE_LEN], uint8_t *slots, usbhs_length slots_length,
    uint16_t time[USBHS_TIME_LEN], uint32_t driver, uint32_t frame_no, uint32_t int_fg);
uint64_t usbhs_continue_transfer(uint8_t state[USBHS_STATE_LEN], uint8_t *slots, usbhs_length slots_length,
    uint16_t time[USBHS_TIME_LEN], uint32_t driver, uint32_t mis_st, uint32_t int_st, uint32_t rx_len);
uint64_t usbhs_interrupt_transfer(uint8_t state[USBHS_STATE_LEN], uint8_t *slots, usbhs_length slots_length,
    uint16_t time[USBHS_TIME_LEN], uint32_t driver, uint32_t frame_no, uint32_t int_fg, uint32_t mis_st,
    uint32_t int_st, uint32_t rx_len);
uint64_t usbhs_continue_released(uint8_t state[USBHS_STATE_LEN], uint8_t *slots, usbhs_length slots_length,
    uint16_t time[USBHS_TIME_LEN], uint32_t driver, uint32_t frame_no);
uint64_t usbhs_continue_looks(uint8_t state[USBHS_STATE_LEN], uint8_t *slots, usbhs_length slots_length,
    uint16_t time[USBHS_TIME_LEN], uint32_t driver, uint32_t looks, uint32_t busy, uint32_t last);

/* The operations. Ends' results: of a bus poll the event, enum usbhs_event; of
 * usbhs_begin_is_stalled 1 or 0; of usbhs_begin_microframe the microframe index, frame times 8
 * plus microframe; of all others 0. The first bus poll after EP0's start ends at once with
 * USBHS_POWER. usbhs_set_paced is over at once. */
enum usbhs_event {
    USBHS_NO_EVENT = 0,
    USBHS_POWER = 1,
    USBHS_RESET = 2,
    USBHS_SUSPEND = 3,
    USBHS_RESUME = 4
};
uint64_t usbhs_begin_bus_poll(uint8_t state[USBHS_STATE_LEN]);
uint64_t usbhs_begin_bus_enable(uint8_t state[USBHS_STATE_LEN]);
uint64_t usbhs_begin_bus_disable(uint8_t state[USBHS_STATE_LEN]);
uint64_t usbhs_begin_set_enabled(uint8_t state[USBHS_STATE_LEN], uint8_t *slots, usbhs_length slots_length,
    uint16_t time[USBHS_TIME_LEN], uint32_t driver, uint32_t endpoint, uint32_t dir, uint32_t enabled);
uint64_t usbhs_begin_set_stalled(uint8_t state[USBHS_STATE_LEN], uint32_t endpoint, uint32_t dir, uint32_t stalled);
uint64_t usbhs_begin_is_stalled(uint8_t state[USBHS_STATE_LEN], uint32_t endpoint, uint32_t dir);
uint64_t usbhs_set_paced(uint8_t state[USBHS_STATE_LEN], uint32_t endpoint, uint32_t paced);
uint64_t usbhs_begin_advance(uint8_t state[USBHS_STATE_LEN], uint32_t endpoint);
uint64_t usbhs_begin_microframe(uint8_t state[USBHS_STATE_LEN]);

/* Reads and writes: each is begun, then polled until it is done. A poll of a read brings a slice
 * of the begin's length, a poll of a write its packet again. */
uint64_t usbhs_begin_read(uint8_t state[USBHS_STATE_LEN], uint32_t endpoint, uint32_t length);
uint64_t usbhs_poll_read(uint8_t state[USBHS_STATE_LEN], const uint8_t *slots, usbhs_length slots_length,
    uint32_t endpoint, uint8_t *slice, usbhs_length slice_length);
uint64_t usbhs_begin_write(uint8_t state[USBHS_STATE_LEN], uint8_t *slots, usbhs_length slots_length,
    uint32_t endpoint, const uint8_t *data, usbhs_length data_length);
uint64_t usbhs_poll_write(uint8_t state[USBHS_STATE_LEN], uint8_t *slots, usbhs_length slots_length,
    uint32_t endpoint, const uint8_t *data, usbhs_length data_length);

/* The control pipe: each stage is begun, then polled until it is done. A poll of data out brings
 * a slice of the begin's length. A poll of setup fills the packet (done, 8). A poll of an
 * accepted address, once the status stage is through, hands out the write of dev_ad; the continue
 * after it ends, and the request is over. A reject has no poll. `first`, `last`: the data stage's
 * first and last packet. An address counts modulo 128. */
uint64_t usbhs_begin_setup(uint8_t state[USBHS_STATE_LEN]);
uint64_t usbhs_poll_setup(uint8_t state[USBHS_STATE_LEN], uint8_t packet[8]);
uint64_t usbhs_begin_data_out(uint8_t state[USBHS_STATE_LEN], uint32_t length, uint32_t first);
uint64_t usbhs_poll_data_out(uint8_t state[USBHS_STATE_LEN], const uint8_t *slots, usbhs_length slots_length,
    uint8_t *slice, usbhs_length slice_length);
uint64_t usbhs_begin_data_in(uint8_t state[USBHS_STATE_LEN], uint8_t *slots, usbhs_length slots_length,
    const uint8_t *data, usbhs_length data_length, uint32_t first, uint32_t last);
uint64_t usbhs_poll_data_in(uint8_t state[USBHS_STATE_LEN]);
uint64_t usbhs_begin_accept(uint8_t state[USBHS_STATE_LEN]);
uint64_t usbhs_begin_accept_set_address(uint8_t state[USBHS_STATE_LEN], uint32_t address);
uint64_t usbhs_poll_accept(uint8_t state[USBHS_STATE_LEN]);
uint64_t usbhs_begin_reject(uint8_t state[USBHS_STATE_LEN]);

/* Packets in place, each call over at once: an isochronous OUT's oldest is opened (shown) and
 * closed, an isochronous IN's is queued.
 * The stamp of an open packet is the microframe index of the frame reading with which the
 * interrupt that admitted it began; where none is shown, *stamp stays. */
uint64_t usbhs_open(uint8_t state[USBHS_STATE_LEN], const uint8_t *slots, usbhs_length slots_length,
    uint32_t endpoint, uint16_t *stamp);
uint64_t usbhs_close(uint8_t state[USBHS_STATE_LEN], uint32_t endpoint);
uint64_t usbhs_queue(uint8_t state[USBHS_STATE_LEN], uint8_t *slots, usbhs_length slots_length, uint32_t endpoint,
    const uint8_t *data, usbhs_length data_length);

/* The tasks to wake after the end of an operation, in the order in which they were woken, a task
 * as often as it was: 0 to 15 is IN 0 to 15, 16 to 31 OUT 0 to 15, USBHS_BUS the bus. To be asked
 * after an end that has some and before the next call; fills the room's first bytes and answers
 * how many, at most 64. A call that is over at once wakes none, also where it falls into an
 * interrupt, whose list goes on. */
#define USBHS_BUS 32u
#define USBHS_MOST_WAKES 64
uint32_t usbhs_woken(const uint8_t state[USBHS_STATE_LEN], uint8_t room[USBHS_MOST_WAKES]);

/* The questions, at any time: packets queued on IN, packets of OUT turned away, whether the host
 * enabled the endpoint (1 or 0), the bus time in use. */
uint32_t usbhs_pending(const uint8_t state[USBHS_STATE_LEN], uint32_t endpoint);
uint32_t usbhs_overruns(const uint8_t state[USBHS_STATE_LEN], uint32_t endpoint);
uint32_t usbhs_enabled(const uint8_t state[USBHS_STATE_LEN], uint32_t endpoint, uint32_t dir);
uint32_t usbhs_time_in_use(const uint16_t time[USBHS_TIME_LEN]);

#ifdef __cplusplus
}
#endif

#endif
