/* SPDX-License-Identifier: MIT OR Apache-2.0 */
#include "tester.h"
#include <stdio.h>
#include <string.h>
#include <sys/ioctl.h>
#include <linux/usbdevice_fs.h>

#define STALL (-EPIPE)

/* A request whose answer must have that length, or be a STALL. */
static int expect(const char *what, unsigned type, unsigned request, unsigned value, unsigned index, unsigned length,
                  int answer)
{
    int n = control(type, request, value, index, length);

    result(n == answer, "%s: %s%s", what, answer_words(n),
           n == answer ? "" : answer == STALL ? " (due: STALL)" : " (due: another answer)");
    return n;
}

/* The same, and the first byte of the answer. */
static void expect_byte(const char *what, unsigned type, unsigned request, unsigned index, unsigned length,
                        unsigned byte)
{
    int n = control(type, request, 0, index, length);

    result(n == (int)length && bytes[0] == byte && (length < 2 || bytes[1] == 0), "%s: %s (due: %u)", what,
           answer_words(n), byte);
}

void strings(const char *product)
{
    static const char *const names[] = {"manufacturer", "product", "serial"};
    const char *due[] = {"Dichaloq", product, "LINUX-0001"};
    char text[200];

    for (unsigned i = 0; i < 3; i++) {
        attribute(names[i], text, sizeof text);
        result(strcmp(text, due[i]) == 0, "%s: %s", names[i], text);
    }
    expect("string 0, the languages", 0x80, 6, 0x0300, 0, 255, 4);
    expect("string 2, a whole packet, 255 bytes asked", 0x80, 6, 0x0302, 0x0409, 255, 64);
    expect("string 2, 64 bytes asked", 0x80, 6, 0x0302, 0x0409, 64, 64);
    expect("string 2, 63 bytes asked", 0x80, 6, 0x0302, 0x0409, 63, 63);
    expect("string 9, which is not", 0x80, 6, 0x0309, 0x0409, 255, STALL);
    expect("string 1 in German, which is not", 0x80, 6, 0x0301, 0x0407, 255, STALL);
}

static void descriptors(void)
{
    static const unsigned lengths[] = {1, 8, 18, 64, 255};
    int total;

    for (unsigned i = 0; i < sizeof lengths / sizeof lengths[0]; i++)
        expect("device descriptor", 0x80, 6, 0x0100, 0, lengths[i], lengths[i] < 18 ? (int)lengths[i] : 18);
    total = control(0x80, 6, 0x0200, 0, 9) == 9 ? bytes[2] | bytes[3] << 8 : 9;
    expect("configuration, 9 bytes", 0x80, 6, 0x0200, 0, 9, 9);
    expect("configuration, its length", 0x80, 6, 0x0200, 0, (unsigned)total, total);
    expect("configuration, one byte less", 0x80, 6, 0x0200, 0, (unsigned)total - 1, total - 1);
    expect("configuration, 64 bytes asked", 0x80, 6, 0x0200, 0, 64, total < 64 ? total : 64);
    expect("configuration, 4095 bytes asked", 0x80, 6, 0x0200, 0, 4095, total);
    expect("configuration, 0 bytes asked", 0x80, 6, 0x0200, 0, 0, 0);
    expect("configuration 1 of 1 (there is 0 only)", 0x80, 6, 0x0201, 0, 255, STALL);
    expect("device descriptor 1, which is not", 0x80, 6, 0x0101, 0, 18, STALL);
    expect("device qualifier", 0x80, 6, 0x0600, 0, 10, 10);
    expect("other-speed configuration", 0x80, 6, 0x0700, 0, 255, total);
    expect("BOS, not in 2.0", 0x80, 6, 0x0F00, 0, 5, STALL);
    expect("interface descriptor by itself (9.4.3: not)", 0x80, 6, 0x0400, 0, 9, STALL);
}

void standard_requests(void)
{
    descriptors();
    expect_byte("GET_STATUS of the device", 0x80, 0, 0, 2, 0);
    expect_byte("GET_STATUS of interface 0", 0x81, 0, 0, 2, 0);
    expect_byte("GET_STATUS of endpoint 0", 0x82, 0, 0, 2, 0);
    expect_byte("GET_CONFIGURATION", 0x80, 8, 0, 1, 1);
    expect_byte("GET_INTERFACE 0", 0x81, 10, 0, 1, 0);
    expect("SET_FEATURE remote wake-up, not announced", 0x00, 3, 1, 0, 0, STALL);
    expect("CLEAR_FEATURE remote wake-up, not announced", 0x00, 1, 1, 0, 0, STALL);
    expect("SET_INTERFACE 0 to 7, which is not", 0x01, 11, 7, 0, 0, STALL);
    expect("SET_CONFIGURATION 9, which is not", 0x00, 9, 9, 0, 0, STALL);
    expect("vendor's request IN", 0xC0, 0x51, 0, 0, 64, STALL);
    expect("vendor's request OUT, no data", 0x40, 0x51, 0, 0, 0, STALL);
    memset(bytes, 0x5A, sizeof bytes);
    expect("vendor's request OUT, 64 bytes", 0x40, 0x51, 0, 0, 64, STALL);
    expect("vendor's request OUT, 200 bytes", 0x40, 0x51, 0, 0, 200, STALL);
    expect("after all this the device descriptor", 0x80, 6, 0x0100, 0, 18, 18);
}

/* Without a configuration, and with it again. */
void unconfigured(void)
{
    int value = -1;

    release();
    result(ioctl(device, USBDEVFS_SETCONFIGURATION, &value) == 0, "the kernel takes the configuration back");
    expect_byte("GET_CONFIGURATION", 0x80, 8, 0, 1, 0);
    expect_byte("GET_STATUS of endpoint 0", 0x82, 0, 0, 2, 0);
    value = 1;
    result(ioctl(device, USBDEVFS_SETCONFIGURATION, &value) == 0, "the kernel sets configuration 1");
    expect_byte("GET_CONFIGURATION", 0x80, 8, 0, 1, 1);
    claim();
}
