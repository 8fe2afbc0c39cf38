/* SPDX-License-Identifier: MIT OR Apache-2.0 */
/* Time on the bus. A microframe has places: the SOF; isochronous and interrupt transactions, one of each endpoint; some
 * for control and bulk.
 *
 * CLOCK=0: the bus waits until the firmware sleeps, so that it is always on time; only SOFs come between its accesses,
 * where it masks interrupts (BETWEEN=n: at each n-th such access; 0: none). CLOCK=n: the bus does not wait. A
 * microframe is n accesses of the firmware's; its tokens follow the SOF and each other after 1 to GAP accesses. */
#include "bridge.h"
#include <time.h>
#include "emulator/block.h"
#include "emulator/host.h"
#include "usb.h"

#define PLACES_FOR_CONTROL 16u /* every second one for bulk */
#define PLACES (1 + ENDPOINTS + PLACES_FOR_CONTROL)
#define RESUME_RECOVERY 80u
#define LOOKS_AT_THE_BUS 8u

unsigned long now;
unsigned clock_length, slow_share;
int suspend_asked, tracing, slow_pending;

static unsigned long due, frame_began;
static unsigned place, gap, between, microframe = 16000;
static int suspended, busy; /* busy: the bus is at work, whose own accesses take no time */

void clock_start(void)
{
    clock_length = number_of("CLOCK");
    gap = number_of("GAP") > 0 ? number_of("GAP") : 6;
    between = number_of("BETWEEN");
    slow_share = number_of("SLOW");
    tracing = (int)number_of("TRACE");
}

/* ---- real time: eight microframes a millisecond, in bursts of a frame */

static int64_t microseconds(void)
{
    struct timespec t;

    clock_gettime(CLOCK_MONOTONIC, &t);
    return (int64_t)t.tv_sec * 1000000 + t.tv_nsec / 1000;
}

/* The bus never runs ahead of the clock; it does not catch up more than a tenth of a second. */
static void keep_time(void)
{
    static int64_t frame_due;
    int64_t t;

    if ((microframe & 7) != 0 || self_left > 0)
        return;
    t = microseconds();
    if (t - frame_due > 100000)
        frame_due = t;
    sockets_serve(0);
    while (!guest_gone && (t = microseconds()) < frame_due)
        sockets_serve((int)(frame_due - t));
    frame_due += 1000;
}

/* ---- suspend: no SOFs; whatever the guest wants wakes the bus */

static void suspend(void)
{
    suspend_asked = 0;
    suspended = 1;
    counts.suspends++;
    tell("suspend");
    block_suspend(1);
}

/* Whether it was asleep until now. */
static int asleep(void)
{
    if (!suspended)
        return 0;
    sockets_serve(1000);
    if (!work_waits() && !guest_gone)
        return 1;
    tell("resume");
    suspended = 0;
    quiet = RESUME_RECOVERY;
    block_suspend(0);
    return 1;
}

/* ---- a microframe */

static void start_of_frame(void)
{
    microframe = (microframe + 1) & 16383;
    keep_time();
    if (quiet > 0)
        quiet--;
    counts.sofs++;
    block_sof(microframe);
}

/* An endpoint's transaction in this microframe, if it has one. */
static int periodic(unsigned i)
{
    struct endpoint *e = &endpoints[i];

    if (i % 16 == 0 || quiet > 0)
        return 0;
    if (!(i & 16)) /* a stream may be switched off with packets still here */
        return e->type == usb_redir_type_iso || e->type == usb_redir_type_invalid ? iso_out_token(i) : 0;
    if (!e->receiving)
        return 0;
    if (e->type == usb_redir_type_iso)
        return iso_in_token(i);
    return e->type == usb_redir_type_interrupt ? interrupt_in_token(i) : 0;
}

static int is_bulk(unsigned i)
{
    unsigned type = endpoints[i].type;

    return i % 16 != 0 && endpoints[i].first != NULL &&
        (type == usb_redir_type_bulk || (type == usb_redir_type_interrupt && !(i & 16)));
}

/* Bulk endpoints take turns. */
static int next_bulk(void)
{
    static unsigned turn;

    for (unsigned k = 0; k < ENDPOINTS; k++) {
        turn = (turn + 1) % ENDPOINTS;
        if (is_bulk(turn))
            return bulk_token(turn);
    }
    return 0;
}

/* Whether there was something to do at this place. */
static int at_place(unsigned which)
{
    if (which == 0) {
        if (suspend_asked && !work_waits())
            suspend();
        else
            start_of_frame();
        return 1;
    }
    if (which <= ENDPOINTS)
        return periodic(which - 1);
    return which % 2 == 1 ? control_token() : next_bulk();
}

/* Nothing but a request that waits until packets before it are on the bus. */
static int waits_for_streams(void)
{
    for (unsigned i = 1; i < ENDPOINTS; i++)
        if (is_bulk(i))
            return 0;
    return requests == NULL || (long)(requests->after - iso_gone) > 0;
}

/* ---- things on the bus, one at a time */

/* With a clock a microframe begins when it is due; 0: not yet. */
static int frame_is_due(int sleeping)
{
    if (now < frame_began + clock_length) {
        due = frame_began + clock_length;
        if (!sleeping)
            return 0;
        now = due;
    }
    frame_began = now - now % clock_length;
    return 1;
}

/* With a clock control and bulk go on until the microframe's end. 0: nothing can be done at this moment. */
static int more_control(int made, int sleeping)
{
    if (place != 0 || clock_length == 0 || now + gap >= frame_began + clock_length || !work_waits() || quiet > 0 ||
        waits_for_streams())
        return 1;
    place = 1 + ENDPOINTS;
    if (!made && !sleeping) {
        due = now + 1;
        return 0;
    }
    now += !made;
    return 1;
}

/* `sleeping`: time goes on to the next thing; else it must be due. */
static void one_thing(int sleeping)
{
    int made;

    busy = 1;
    slow_pending = 0;
    made = !block_attached() || asleep();
    while (!made) {
        if (place == 0 && clock_length > 0 && !frame_is_due(sleeping))
            break;
        /* no token that would not be over by the SOF */
        if (place > 0 && clock_length > 0 && now + 2 > frame_began + clock_length) {
            place = 0;
            continue;
        }
        made = at_place(place);
        place = (place + 1) % PLACES;
        if (!more_control(made, sleeping))
            break;
    }
    if (made)
        due = now + 1 + random_number(gap);
    busy = 0;
}

int bridge_step(void)
{
    if (busy)
        return 1;
    if (now < due)
        now = due;
    one_thing(1);
    return !(guest_gone && !work_waits());
}

/* A bus that waits: SOFs where the firmware masks interrupts, for which it must wait in turn; and it goes on where the
 * firmware does not sleep but looks at it again and again. */
static void waiting_bus(void)
{
    static unsigned accesses, looks;

    if (board_in_interrupt() || suspended)
        return;
    if (!board_masked()) {
        if (++looks % LOOKS_AT_THE_BUS == 0)
            one_thing(1);
        return;
    }
    if (between == 0 || ++accesses % between != 0 || !block_attached())
        return;
    counts.sofs_between++;
    microframe = (microframe + 1) & 16383;
    block_sof(microframe);
}

void host_access(void)
{
    if (busy || slow_pending || (!guest_there() && self_left == 0))
        return;
    if (clock_length == 0) {
        waiting_bus();
        return;
    }
    if (++now < due)
        return;
    counts.nested++;
    one_thing(0);
}

int bridge_of_interest(void)
{
    return tracing > 1 && requests != NULL && quiet == 0;
}
