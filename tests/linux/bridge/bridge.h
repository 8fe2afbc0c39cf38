/* SPDX-License-Identifier: MIT OR Apache-2.0 */
/* A host that others wrote: what a guest's kernel asks of its host controller comes here as usbredir packets, and
 * becomes tokens on the model of the block.
 *
 *   redir.c    usbredir: what the guest asks is queued; what came of it is said
 *   queues.c   requests on EP0 and packets of the other endpoints, until they are on the bus
 *   tokens.c   transactions: SETUP, IN, OUT, their data PIDs, NAKs tried again
 *   attach.c   the bridge's own enumeration, before the guest sees a device; plugging and unplugging
 *   clock.c    microframes, time, suspend and resume
 *   sockets.c  the guest's two lines: usbredir, and a serial port for words
 *
 * usbredir keeps some things to itself, which are made here: SET_ADDRESS, after each reset; suspend, when the guest
 * says on its serial port that it has suspended the device (any traffic resumes it). */
#ifndef BRIDGE_H
#define BRIDGE_H

#include <stdint.h>
#include <stdio.h>
#include <usbredirparser.h>

/* Endpoints as usbredir numbers them: OUT 0 to 15, then IN 0 to 15. */
#define ENDPOINTS 32u
#define INDEX(address) (((address) & 0x80) >> 3 | ((address) & 15))
#define ADDRESS(index) ((index) & 16 ? 0x80 | ((index) & 15) : (index))

/* ---- the log */

extern FILE *bridge_log;
__attribute__((format(printf, 1, 2))) void tell(const char *format, ...);
unsigned random_number(unsigned below);

extern struct counts {
    unsigned long sofs, sofs_between, resets, suspends, unplugged, setups, ins, outs, naks, stalls, wrong_pids, nested;
    unsigned long iso_in, iso_in_bytes, iso_out, iso_out_empty, iso_out_unheard, iso_out_slow, iso_out_marked;
} counts;

/* ---- queues.c */

enum kind { CONTROL_PACKET, SET_CONFIGURATION, GET_CONFIGURATION, SET_ALT, GET_ALT, RESET, SET_ADDRESS, OWN };

struct request {
    enum kind kind;
    uint64_t id;
    uint8_t setup[8];
    uint8_t *data;
    unsigned length;
    unsigned long after;      /* isochronous packets that the guest sent before it: these go first */
    unsigned long not_before; /* with a clock: transfers begin anywhere in a microframe */
    struct request *next;
};

extern struct request *requests; /* the first is under way */

struct request *push(enum kind kind, uint64_t id, const uint8_t setup[8]);
void push_standard(enum kind kind, uint64_t id, unsigned type, unsigned request, unsigned value, unsigned index,
                   unsigned length);
void pop(void);
/* Takes one that is not under way out of the queue. */
void remove_request(struct request *r);

struct packet {
    uint8_t *bytes;
    unsigned length, done;
    uint64_t id;
    struct packet *next;
};

extern struct endpoint {
    unsigned type, interval, maximum, interface, toggle;
    int receiving; /* the guest has started a stream, or the polls of an interrupt IN */
    struct packet *first;
} endpoints[ENDPOINTS];

void queue_packet(unsigned index, uint64_t id, const uint8_t *bytes, unsigned length);
void remove_packet(struct endpoint *e, struct packet *p);
void drop_all(void);
int work_waits(void);

extern unsigned long iso_came, iso_gone;

/* ---- tokens.c */

#define MOST_DATA 65536

/* The control transfer under way. */
extern struct transfer {
    enum { SETUP_STAGE, DATA_IN, DATA_OUT, STATUS_IN_STAGE, STATUS_OUT_STAGE } stage;
    uint8_t data[MOST_DATA];
    unsigned moved, toggle, naks, tries;
} transfer;

extern unsigned address, ep0_maximum, quiet; /* quiet: microframes in which nobody may be addressed */

/* Each makes one transaction: 0 where there is none to make. */
int control_token(void);
int bulk_token(unsigned index);
int interrupt_in_token(unsigned index);
int iso_out_token(unsigned index);
int iso_in_token(unsigned index);

/* An endpoint that the setting in use does not have must not answer. */
void probe_disabled(void);

/* ---- attach.c */

extern struct attached {
    uint8_t device[18], configuration[4096];
    unsigned length, value; /* of the configuration; which one is set */
    unsigned alternates[32];
} attached;

extern unsigned next_address;

void attach(void);
void attach_step(int status); /* a request of kind OWN or SET_ADDRESS is over */
int attaching(void);
void unplug(void);

/* SELF=n: no guest; n enumerations as fast as it goes, for statistics. */
extern unsigned self_left;

/* ---- redir.c */

extern struct usbredirparser *parser;
void redir_open(void);
void request_over(int status);
void packet_over(unsigned index, int status);
void stream_in(unsigned index, const uint8_t *bytes, unsigned length);
void interrupt_in(unsigned index, int status, const uint8_t *bytes, unsigned length);
void connect_device(void);
void disconnect_device(void);

/* ---- clock.c */

extern unsigned long now; /* in the firmware's accesses */
extern int suspend_asked, tracing;
extern unsigned clock_length, slow_share;
extern int slow_pending; /* a packet on the bus while the firmware looks */
void clock_start(void);

/* One thing on the bus: a SOF, a token, a reset. 0 when the guest has gone. The board calls it when the firmware sleeps
 * or waits for its card. */
int bridge_step(void);

/* Whether the trace is to have the firmware's accesses now. */
int bridge_of_interest(void);

/* ---- sockets.c */

extern int guest_gone;
int guest_there(void);
void sockets_open(void);
void sockets_serve(int microseconds);

/* ---- for the board */

unsigned number_of(const char *variable);
void bridge_start(FILE *log);
void bridge_end(unsigned interrupts);

/* board.c: whether the firmware masks interrupts, or is in one. */
int board_masked(void);
int board_in_interrupt(void);

#endif
