/* SPDX-License-Identifier: MIT OR Apache-2.0 */
/* Suspend, reset and the cable, also in the midst of streams. */
#include "tester.h"
#include <stdio.h>
#include <stdlib.h>
#include <string.h>
#include <sys/ioctl.h>
#include <linux/usbdevice_fs.h>
#include <unistd.h>

static int device_number(void)
{
    char text[32];

    return attribute("devnum", text, sizeof text) > 0 ? atoi(text) : -1;
}

/* Waits for the kernel's power management to say so. */
static void wait_for_state(const char *state)
{
    char text[32] = "";

    for (int i = 0; i < 50 && strcmp(text, state) != 0; i++) {
        usleep(50000);
        attribute("power/runtime_status", text, sizeof text);
    }
    result(strcmp(text, state) == 0, "runtime power management: %s (due: %s)", text, state);
}

/* The kernel suspends a device that nobody uses; usb-redir does not say so to the bridge. */
static void wait_suspended(void)
{
    set_attribute("power/autosuspend_delay_ms", "0");
    set_attribute("power/control", "auto");
    wait_for_state("suspended");
    tell_bridge("suspend");
    usleep(200000);
}

/* Linux asks GET_STATUS now, and a device that does not answer is reset and then lost. */
static void check_same(int number)
{
    int n;

    wait_for_state("active");
    result(device_number() == number, "after the resume still device %d", number);
    n = control(0x80, 6, 0x0100, 0, 18);
    result(n == 18, "device descriptor after the resume: %s", answer_words(n));
}

void suspend_and_resume(void)
{
    int number = device_number();

    release();
    close(device);
    wait_suspended();
    set_attribute("power/control", "on");
    if (!open_device(20))
        result(0, "lost after the resume");
    check_same(number);
    claim();
}

/* The alternate setting is as it was: the streams go on without a request. */
void suspend_in_stream(void)
{
    int number = device_number(), n;

    begin_streams();
    n = ioctl(device, USBDEVFS_ALLOW_SUSPEND);
    result(n == 0, "usbfs allows suspend: %s", n == 0 ? "done" : strerror(errno));
    wait_suspended();
    n = ioctl(device, USBDEVFS_FORBID_SUSPEND);
    result(n == 0, "usbfs forbids suspend: %s", n == 0 ? "done" : strerror(errno));
    broken_streams("suspend");
    check_same(number);
    stream("after a suspend in mid-stream, the setting as before", 20, 1, 1);
    set_attribute("power/control", "on");
}

void reset_in_stream(void)
{
    int number = device_number();

    begin_streams();
    reset_device();
    broken_streams("reset");
    result(device_number() == number, "after the reset still device %d", number);
}

static void pull_out(void)
{
    int n = 0, number = device_number();

    tell_bridge("unplug");
    while (n < 50 && device_number() == number) {
        usleep(100000);
        n++;
    }
    result(n < 50, "unplugged: device %d is gone", number);
}

static void plug(void)
{
    int there;

    close(device);
    tell_bridge("plug");
    there = open_device(100);
    result(there, "plugged in: device %d", device_number());
    claim();
}

void unplug_and_plug(void)
{
    pull_out();
    plug();
}

void unplug_in_stream(void)
{
    begin_streams();
    pull_out();
    broken_streams("unplugging");
    plug();
}
