/* SPDX-License-Identifier: MIT OR Apache-2.0 */
#include "tester.h"
#include <dirent.h>
#include <fcntl.h>
#include <stdarg.h>
#include <stdio.h>
#include <stdlib.h>
#include <string.h>
#include <sys/ioctl.h>
#include <linux/usbdevice_fs.h>
#include <unistd.h>

int device = -1;
uint8_t bytes[4096];

static FILE *bridge;
static char place[300]; /* below /sys */
static int tests, failed;

void tell_bridge(const char *format, ...)
{
    va_list words;

    va_start(words, format);
    vfprintf(bridge, format, words);
    va_end(words);
    putc('\n', bridge);
    fflush(bridge);
}

void result(int good, const char *format, ...)
{
    va_list words;

    tests++;
    failed += !good;
    printf(good ? "ok    " : "DIFF  ");
    va_start(words, format);
    vprintf(format, words);
    va_end(words);
    printf("\n");
}

int results(void)
{
    printf("tester: %d checks, %d differ\n", tests, failed);
    return failed;
}

void start(void)
{
    setvbuf(stdout, NULL, _IOLBF, 0);
    bridge = fopen("/dev/ttyS1", "w");
    if (bridge == NULL)
        bridge = stderr;
}

/* ---- below /sys */

int attribute(const char *name, char *to, size_t room)
{
    char path[400];
    int f, n;

    snprintf(path, sizeof path, "%s/%s", place, name);
    f = open(path, O_RDONLY);
    n = f < 0 ? -1 : (int)read(f, to, room - 1);
    close(f);
    to[n < 0 ? 0 : n] = 0;
    if (n > 0 && to[n - 1] == '\n')
        to[n - 1] = 0;
    return n;
}

void set_attribute(const char *name, const char *value)
{
    char path[400];
    int f;

    snprintf(path, sizeof path, "%s/%s", place, name);
    f = open(path, O_WRONLY);
    if (f < 0 || write(f, value, strlen(value)) < 0)
        printf("      %s: %s\n", path, strerror(errno));
    close(f);
}

/* Whether the folder is the device's: the recorder, or the one with gadget zero's numbers. */
static int is_ours(const char *name)
{
    char vendor[16];

    snprintf(place, sizeof place, "/sys/bus/usb/devices/%s", name);
    return attribute("idVendor", vendor, sizeof vendor) > 0 && (!strcmp(vendor, "1209") || !strcmp(vendor, "0525"));
}

static int find(void)
{
    DIR *d = opendir("/sys/bus/usb/devices");
    struct dirent *e;
    int found = 0;

    while (d != NULL && !found && (e = readdir(d)) != NULL)
        found = is_ours(e->d_name);
    if (d != NULL)
        closedir(d);
    return found;
}

/* Waits so long for it to be there. */
int open_device(int tenths)
{
    char bus[16], number[16], node[64];

    for (; tenths > 0; tenths--, usleep(100000)) {
        if (!find() || attribute("busnum", bus, sizeof bus) < 0 || attribute("devnum", number, sizeof number) < 0 ||
            attribute("bConfigurationValue", node, sizeof node) <= 1)
            continue;
        snprintf(node, sizeof node, "/dev/bus/usb/%03d/%03d", atoi(bus), atoi(number));
        device = open(node, O_RDWR);
        if (device >= 0)
            return 1;
    }
    return 0;
}

/* ---- requests */

int control(unsigned type, unsigned request, unsigned value, unsigned index, unsigned length)
{
    struct usbdevfs_ctrltransfer c = {
        (uint8_t)type, (uint8_t)request, (uint16_t)value, (uint16_t)index, (uint16_t)length, 2000, bytes};
    int n;

    if (type & 0x80)
        memset(bytes, 0xEE, sizeof bytes);
    n = ioctl(device, USBDEVFS_CONTROL, &c);
    return n < 0 ? -errno : n;
}

const char *answer_words(int n)
{
    static char text[100];
    int at;

    if (n < 0) {
        snprintf(text, sizeof text, "%s", n == -EPIPE ? "STALL" : strerror(-n));
        return text;
    }
    at = snprintf(text, sizeof text, "%d bytes", n);
    for (int i = 0; i < n && i < 12; i++)
        at += snprintf(text + at, sizeof text - (size_t)at, " %02X", bytes[i]);
    return text;
}

/* ---- the device's interface */

void claim(void)
{
    unsigned interface = 0;

    if (ioctl(device, USBDEVFS_CLAIMINTERFACE, &interface) < 0)
        result(0, "claim: %s", strerror(errno));
}

void release(void)
{
    unsigned interface = 0;

    ioctl(device, USBDEVFS_RELEASEINTERFACE, &interface);
}

void alternate(unsigned setting)
{
    struct usbdevfs_setinterface s = {0, setting};
    int n = ioctl(device, USBDEVFS_SETINTERFACE, &s);

    result(n == 0, "the kernel selects alternate setting %u: %s", setting, n == 0 ? "done" : strerror(errno));
}

void reset_device(void)
{
    int n = ioctl(device, USBDEVFS_RESET, 0);

    result(n == 0, "the kernel resets the device: %s", n == 0 ? "done" : strerror(errno));
}
