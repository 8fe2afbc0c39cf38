/* SPDX-License-Identifier: MIT OR Apache-2.0 */
/* This firmware's device: samples that the host streams go to the card, and the host is told how many. */
#include "device.h"
#include "console.h"
#include "control.h"
#include "recorder.h"
#include "tasks.h"
#include "usb.h"

void device_start(void)
{
    recorder_start();
}

/* Queues what was recorded and what was lost; the packet goes out in the next microframe. Where two wait (row 13)
 * or the host has not enabled the stream (row 9), it is left. */
void usb_start_of_frame(void)
{
    uint32_t numbers[2] = {recorder_packets(), usbhs_overruns(usb_state, SAMPLES_OUT)};

    (void)usbhs_queue(usb_state, usb_slots, sizeof usb_slots, STATUS_IN, (const uint8_t *)numbers, sizeof numbers);
}

/* The status stream is fed by the callback. */
void device_task(unsigned task)
{
    if (task == TASK_OUT(SAMPLES_OUT))
        recorder_task();
}

void device_selected(unsigned interface, unsigned alternate)
{
    (void)interface;
    print(alternate == 1 ? "device: streams on, bus time " : "device: streams off, bus time ");
    print_number(usbhs_time_in_use(usb_time));
    print("\n");
}

void device_reset(void)
{
}

/* What is recorded so far lies on the card then. */
void device_suspended(void)
{
    recorder_finish();
}

/* Isochronous endpoints have no halt. */
void device_resumed(unsigned endpoint, unsigned dir)
{
    (void)endpoint;
    (void)dir;
}

/* It has no requests of its own. */
void device_request(const uint8_t setup[8])
{
    (void)setup;
    control_reject();
}

void device_finish(void)
{
    recorder_finish();
    print("device: ");
    print_number(recorder_packets());
    print(" packets recorded, ");
    print_number(usbhs_overruns(usb_state, SAMPLES_OUT));
    print(" overruns\n");
}
