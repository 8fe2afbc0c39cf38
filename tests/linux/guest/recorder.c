/* SPDX-License-Identifier: MIT OR Apache-2.0 */
/* What is done with the recorder. */
#include "tester.h"
#include <stdio.h>
#include <string.h>

static void round_of_streams(void)
{
    alternate(1);
    stream("samples and numbers", urbs, 1, 0);
    suspend_in_stream();
    stream("after that", urbs / 2, 1, 1);
    reset_in_stream();
    claim();
    alternate(1);
    stream("after a reset in mid-stream", urbs / 2, 1, 1);
    unplug_in_stream();
    alternate(1);
    stream("after unplugging", urbs / 2, 1, 1);
    alternate(0);
    suspend_and_resume();
}

void test_recorder(unsigned rounds)
{
    claim();
    strings("USBHS recorder of sample stream");
    standard_requests();
    alternate(1);
    result(control(0x81, 10, 0, 0, 1) == 1 && bytes[0] == 1, "GET_INTERFACE in setting 1");
    result(control(0x82, 0, 0, 0x01, 2) == 2, "GET_STATUS of endpoint 01 in setting 1");
    result(control(0x82, 0, 0, 0x82, 2) == 2, "GET_STATUS of endpoint 82 in setting 1");
    stream("samples", urbs, 0, 0);
    stream("samples, numbers and requests", urbs, 1, 1);
    alternate(0);
    alternate(1);
    stream("again in setting 1", urbs / 2, 1, 0);
    unconfigured();
    alternate(1);
    stream("after SET_CONFIGURATION", urbs / 2, 0, 1);
    alternate(0);
    for (unsigned i = 0; i < rounds; i++)
        round_of_streams();
}
