/* SPDX-License-Identifier: MIT OR Apache-2.0 */
/* What is done with the second device: Linux's driver usbtest, case by case (the kernel's tools/usb/testusb.c has the
 * numbers), loops, halts, power. */
#include "tester.h"
#include <stdio.h>
#include <stdlib.h>
#include <string.h>
#include <sys/ioctl.h>
#include <linux/usbdevice_fs.h>
#include <unistd.h>

#define BULK_OUT 0x01
#define BULK_IN 0x81
#define STORE 0x5B
#define FETCH 0x5C
#define LOOP 0x60

/* ---- usbtest */

struct usbtest_param_64 {
    uint32_t test_num, iterations, length, vary, sglen;
    int64_t duration_sec, duration_usec;
};
#define USBTEST_REQUEST_64 _IOWR('U', 100, struct usbtest_param_64)

static void usbtest(const char *what, unsigned number, unsigned iterations, unsigned length, unsigned vary,
                    unsigned sglen)
{
    struct usbtest_param_64 p = {number, iterations, length, vary, sglen, 0, 0};
    struct usbdevfs_ioctl w = {0, USBTEST_REQUEST_64, &p};
    int n = ioctl(device, USBDEVFS_IOCTL, &w), e = errno;

    result(n >= 0, "usbtest %2u, %s, %u times, %u bytes: %s, %d.%03d s", number, what, iterations, length,
           n >= 0 ? "passed" : strerror(e), (int)p.duration_sec, (int)p.duration_usec / 1000);
}

static void load_usbtest(const char *words)
{
    char line[100];

    snprintf(line, sizeof line, "rmmod usbtest 2>/dev/null; insmod /modules/usbtest.ko pattern=1 %s", words);
    if (system(line) != 0)
        result(0, "%s", line);
    usleep(300000);
}

/* qemu's EHCI cannot do some: 7 wants parts of packets, 15 and 22 miss frames. */
static void usbtests(int ehci)
{
    load_usbtest("");
    usbtest("chapter 9", 9, 200, 0, 0, 0);
    usbtest("queued control", 10, 50, 0, 0, 5);
    usbtest("control OUT and back", 14, 200, 256, 1, 0);
    usbtest("control OUT and back", 14, 50, 4095, 253, 0);
    usbtest("control OUT, unaligned", 21, 50, 512, 3, 0);
    usbtest("bulk OUT", 1, 200, 512, 0, 0);
    usbtest("bulk OUT", 1, 50, 8192, 0, 0);
    usbtest("bulk IN", 2, 200, 512, 0, 0);
    usbtest("bulk IN", 2, 50, 8192, 0, 0);
    usbtest("bulk OUT, lengths", 3, 200, 1024, 37, 0);
    usbtest("bulk IN, lengths", 4, 100, 4096, 512, 0);
    usbtest("bulk OUT, lists", 5, 20, 1024, 0, 16);
    usbtest("bulk IN, lists", 6, 20, 1024, 0, 16);
    if (!ehci)
        usbtest("bulk OUT, lists of lengths", 7, 20, 1024, 61, 16);
    usbtest("bulk IN, lists of lengths", 8, 20, 1024, 512, 16);
    usbtest("unlink IN", 11, 20, 1024, 0, 0);
    usbtest("unlink OUT", 12, 20, 1024, 0, 0);
    usbtest("halts", 13, 50, 512, 0, 0);
    usbtest("bulk OUT, odd addresses", 17, 50, 512, 0, 0);
    usbtest("bulk IN, odd addresses", 18, 50, 512, 0, 0);
    usbtest("bulk OUT, odd, premapped", 19, 50, 512, 0, 0);
    usbtest("bulk IN, odd, premapped", 20, 50, 512, 0, 0);
    usbtest("toggles", 29, 50, 512, 0, 0);
    load_usbtest("alt=1");
    usbtest("chapter 9, setting 1", 9, 20, 0, 0, 0);
    usbtest("bulk OUT, setting 1", 1, 50, 2048, 0, 0);
    usbtest("bulk IN, setting 1", 2, 50, 2048, 0, 0);
    if (!ehci)
        usbtest("isochronous OUT", 15, 8, 512, 0, 8);
    usbtest("isochronous IN", 16, 300, 2048, 0, 8);
    if (!ehci)
        usbtest("isochronous OUT, odd addresses", 22, 8, 512, 0, 8);
    usbtest("isochronous IN, odd addresses", 23, 300, 2048, 0, 8);
    usbtest("interrupt OUT", 25, 100, 64, 0, 0);
    usbtest("interrupt IN", 26, 100, 64, 0, 0);
    usbtest("halts, setting 1", 13, 20, 512, 0, 0);
    if (system("rmmod usbtest") != 0)
        result(0, "rmmod usbtest");
}

/* ---- packets that come back; now and then CLEAR_FEATURE, after which both sides begin with DATA0 */

static int bulk(unsigned endpoint, void *b, unsigned length)
{
    struct usbdevfs_bulktransfer t = {endpoint, length, 3000, b};
    int n = ioctl(device, USBDEVFS_BULK, &t);

    return n < 0 ? -errno : n;
}

static void clear_halts(void)
{
    unsigned out = BULK_OUT, in = BULK_IN;

    ioctl(device, USBDEVFS_CLEAR_HALT, &out);
    ioctl(device, USBDEVFS_CLEAR_HALT, &in);
}

/* Whether a packet of so many bytes comes back as it was sent. */
static int comes_back(unsigned length)
{
    static uint8_t to[512], from[512];
    int written, read = 0;

    for (unsigned i = 0; i < length; i++)
        to[i] = (uint8_t)rand();
    memset(from, 0, sizeof from);
    written = bulk(BULK_OUT, to, length);
    if (written == (int)length)
        read = bulk(BULK_IN, from, sizeof from);
    if (written == (int)length && read == (int)length && memcmp(to, from, length) == 0)
        return 1;
    printf("      loop: %u bytes, written %d, read %d\n", length, written, read);
    return 0;
}

static void loop(const char *what, unsigned packets)
{
    static const unsigned lengths[] = {0, 1, 63, 64, 511, 512, 5, 512};
    unsigned good = 0, bad = 0;

    result(control(0x40, LOOP, 1, 0, 0) == 0, "the loop on");
    alternate(0);
    for (unsigned n = 0; n < packets && bad < 3; n++) {
        unsigned length = n < 8 ? lengths[n] : (unsigned)rand() % 513;

        if (comes_back(length))
            good++;
        else
            bad++;
        if (n % 50 == 20)
            clear_halts();
    }
    result(good == packets, "%s: %u of %u packets came back as they were sent", what, good, packets);
    result(control(0x40, LOOP, 0, 0, 0) == 0, "the loop off");
    alternate(0);
}

static void halted(unsigned endpoint, unsigned halted)
{
    int n = control(0x82, 0, 0, endpoint, 2);

    result(n == 2 && bytes[0] == halted, "GET_STATUS of endpoint %02X: %s (due: %u)", endpoint, answer_words(n),
           halted);
}

static void halts(void)
{
    uint8_t packet[512];

    halted(BULK_IN, 0);
    result(control(0x02, 3, 0, BULK_IN, 0) == 0, "SET_FEATURE halt of endpoint 81");
    halted(BULK_IN, 1);
    halted(BULK_OUT, 0);
    result(bulk(BULK_IN, packet, 512) == -EPIPE, "endpoint 81 is stalled");
    clear_halts();
    halted(BULK_IN, 0);
    result(bulk(BULK_IN, packet, 512) == 512 && packet[62] == 62 && packet[63] == 0, "endpoint 81 sends its pattern");
    result(control(0x02, 3, 0, 0, 0) == -EPIPE, "SET_FEATURE halt of endpoint 0 (9.4.5: not)");
}

/* A long data stage OUT right behind a SET_INTERFACE, and back. */
static void stores(void)
{
    static uint8_t to[4095];
    struct usbdevfs_setinterface s = {0, 0};
    unsigned good = 0;

    for (unsigned n = 0; n < 30; n++) {
        ioctl(device, USBDEVFS_SETINTERFACE, &s);
        for (unsigned i = 0; i < sizeof to; i++)
            to[i] = bytes[i] = (uint8_t)rand();
        if (control(0x40, STORE, 0, 0, sizeof to) == sizeof to && control(0xC0, FETCH, 0, 0, sizeof to) == sizeof to &&
            memcmp(to, bytes, sizeof to) == 0)
            good++;
    }
    result(good == 30, "%u of 30 times 4,095 bytes stored and fetched, each after SET_INTERFACE", good);
}

void test_zero(unsigned rounds, const char *controller)
{
    strings("USBHS sources, sinks and a loop");
    usbtests(strcmp(controller, "ehci") == 0);
    claim();
    alternate(0);
    standard_requests();
    halts();
    stores();
    loop("loop", 400);
    for (unsigned i = 0; i < rounds; i++) {
        reset_device();
        claim();
        loop("loop after a reset", 100);
        suspend_and_resume();
        loop("loop after a suspend", 100);
        unplug_and_plug();
        loop("loop after unplugging", 100);
    }
    tell_bridge("streamed 0 0");
}
