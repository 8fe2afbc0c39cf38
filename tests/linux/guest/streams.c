/* SPDX-License-Identifier: MIT OR Apache-2.0 */
/* The recorder's streams: samples OUT, numbers IN, in URBs of 32 packets. */
#include "tester.h"
#include <poll.h>
#include <stdio.h>
#include <stdlib.h>
#include <string.h>
#include <sys/ioctl.h>
#include <linux/usbdevice_fs.h>
#include <unistd.h>
#include "../packets.h"

#define PER_URB 32
#define URBS 6
#define MOST_RECOVERIES 5u
#define SAMPLES_OUT 0x01
#define STATUS_IN 0x82

unsigned urbs = 40;

static unsigned sent; /* packets so far */

struct urb {
    struct usbdevfs_urb u;
    struct usbdevfs_iso_packet_desc d[PER_URB];
    uint8_t buffer[PER_URB * PACKET_MOST];
};

static int submit(struct urb *b, unsigned endpoint, unsigned length)
{
    b->u.type = USBDEVFS_URB_TYPE_ISO;
    b->u.endpoint = (unsigned char)endpoint;
    b->u.flags = USBDEVFS_URB_ISO_ASAP;
    b->u.buffer = b->buffer;
    b->u.buffer_length = (int)length;
    b->u.number_of_packets = PER_URB;
    b->u.usercontext = b;
    return ioctl(device, USBDEVFS_SUBMITURB, &b->u) < 0 ? -errno : 0;
}

static int submit_out(struct urb *b)
{
    unsigned total = 0;
    int n;

    for (unsigned i = 0; i < PER_URB; i++) {
        b->d[i].length = make_packet(sent + i, b->buffer + total);
        b->d[i].actual_length = b->d[i].status = 0;
        total += b->d[i].length;
    }
    n = submit(b, SAMPLES_OUT, total);
    if (n == 0)
        sent += PER_URB;
    return n;
}

static int submit_in(struct urb *b)
{
    for (unsigned i = 0; i < PER_URB; i++) {
        b->d[i].length = PACKET_MOST;
        b->d[i].actual_length = b->d[i].status = 0;
    }
    return submit(b, STATUS_IN, PER_URB * PACKET_MOST);
}

static struct urb *reap(int milliseconds)
{
    struct pollfd f = {device, POLLOUT, 0};
    void *context = NULL;

    if (poll(&f, 1, milliseconds) <= 0 || ioctl(device, USBDEVFS_REAPURBNDELAY, &context) < 0)
        return NULL;
    return ((struct usbdevfs_urb *)context)->usercontext;
}

/* ---- what comes back */

static struct {
    unsigned in, in_full, in_errors, out_errors, recorded, lost;
} seen;

/* The device says how many it recorded and lost, in eight bytes; the numbers only grow. */
static void look_in(struct urb *b)
{
    for (unsigned i = 0; i < PER_URB; i++) {
        uint32_t numbers[2];

        seen.in++;
        seen.in_errors += b->d[i].status != 0;
        if (b->d[i].actual_length == 0)
            continue;
        memcpy(numbers, b->buffer + i * PACKET_MOST, 8);
        if (b->d[i].actual_length != 8 || numbers[0] < seen.recorded || numbers[1] < seen.lost)
            seen.in_errors++;
        seen.recorded = numbers[0];
        seen.lost = numbers[1];
        seen.in_full++;
    }
}

static void look_out(struct urb *b)
{
    for (int i = 0; i < PER_URB; i++)
        seen.out_errors += b->d[i].status != 0;
}

/* ---- a stream of so many URBs OUT, with IN beside them; every so often a request in the midst */

static unsigned submitted, done, under_way, asked, answered;

static void submit_first(const char *what, struct urb *list, int count, int (*one)(struct urb *))
{
    for (int i = 0; i < count; i++) {
        int n = one(&list[i]);

        if (n != 0) {
            result(0, "%s: URB not submitted: %s", what, strerror(-n));
            return;
        }
        under_way++;
        submitted += one == submit_out;
    }
}

static void came_back(struct urb *b, unsigned urbs_out, int with_requests)
{
    under_way--;
    if (b->u.endpoint == SAMPLES_OUT) {
        done++;
        look_out(b);
        if (submitted < urbs_out && submit_out(b) == 0) {
            submitted++;
            under_way++;
        }
        if (with_requests && done % 5 == 0) {
            asked++;
            answered += control(0x80, 6, 0x0200, 0, 255) > 9;
        }
    } else {
        look_in(b);
        if (done < urbs_out && submit_in(b) == 0)
            under_way++;
    }
}

/* A guest that is slow for some 10 ms loses events of qemu's xHCI, whose ring of them is short: the URBs were on the
 * bus and do not come back. They are taken back, and count as broken off. */
static void take_back(struct urb *list)
{
    for (int i = 0; i < URBS; i++)
        ioctl(device, USBDEVFS_DISCARDURB, &list[i].u);
}

static void recover(const char *what, struct urb *out, struct urb *in, unsigned urbs_out, int with_in)
{
    unsigned lost = 0;
    struct urb *b;

    take_back(out);
    take_back(in);
    while (under_way > 0 && (b = reap(1000)) != NULL) {
        under_way--;
        lost += b->u.endpoint == SAMPLES_OUT;
    }
    done += lost;
    tell_bridge("broken %u %u", sent - lost * PER_URB, sent);
    printf("      %s: the host controller lost events, %u URBs taken back\n", what, lost);
    if (under_way > 0 || done >= urbs_out)
        return;
    if (with_in)
        submit_first(what, in, URBS, submit_in);
    submit_first(what, out, URBS < urbs_out - submitted ? URBS : (int)(urbs_out - submitted), submit_out);
}

void stream(const char *what, unsigned urbs_out, int with_in, int with_requests)
{
    struct urb *out = calloc(URBS, sizeof *out), *in = calloc(URBS, sizeof *in), *b;
    unsigned from = sent, recovered = 0;
    int idle = 0;

    memset(&seen, 0, sizeof seen);
    submitted = done = under_way = asked = answered = 0;
    if (with_in)
        submit_first(what, in, URBS, submit_in);
    submit_first(what, out, URBS < urbs_out ? URBS : (int)urbs_out, submit_out);
    while (under_way > 0 && idle < 50) {
        b = reap(100);
        idle = b == NULL ? idle + 1 : 0;
        if (b != NULL) {
            came_back(b, urbs_out, with_requests);
        } else if (idle == 30 && recovered++ < MOST_RECOVERIES) {
            recover(what, out, in, urbs_out, with_in);
            idle = 0;
        }
    }
    usleep(100000);
    tell_bridge("streamed %u %u", from, sent);
    result(done == urbs_out && seen.out_errors == 0 && under_way == 0, "%s: packets %u to %u, %u errors, %u URBs left",
           what, from, sent - 1, seen.out_errors, under_way);
    if (with_in)
        result(seen.in_full > 0 && seen.in_errors == 0, "%s: %u packets IN, %u with numbers, %u errors; %u recorded, "
               "%u lost", what, seen.in, seen.in_full, seen.in_errors, seen.recorded, seen.lost);
    if (with_requests)
        result(asked > 0 && answered == asked, "%s: %u of %u requests in the midst answered", what, answered, asked);
    if (under_way == 0) {
        free(out);
        free(in);
    }
}

/* ---- streams that something breaks off */

static unsigned begun;
static struct urb *broken_out, *broken_in;

void begin_streams(void)
{
    begun = sent;
    broken_out = calloc(URBS, sizeof *broken_out);
    broken_in = calloc(URBS, sizeof *broken_in);
    for (int i = 0; i < URBS; i++) {
        submit_in(&broken_in[i]);
        submit_out(&broken_out[i]);
    }
    usleep(2000);
}

/* The kernel has taken the URBs back: some of their packets never came to the bus. */
void broken_streams(const char *why)
{
    int n = 0;

    while (reap(300) != NULL)
        n++;
    tell_bridge("broken %u %u", begun, sent);
    result(sent > begun, "%s in the midst of packets %u to %u: %d URBs came back", why, begun, sent - 1, n);
}
