/* SPDX-License-Identifier: MIT OR Apache-2.0 */
/* tester CONTROLLER URBS ROUNDS */
#include "tester.h"
#include <stdio.h>
#include <stdlib.h>
#include <string.h>

int main(int argc, char **argv)
{
    const char *controller = argc > 1 ? argv[1] : "xhci";
    unsigned rounds = argc > 3 ? (unsigned)atoi(argv[3]) : 1;
    char text[200];

    if (argc > 2)
        urbs = (unsigned)atoi(argv[2]);
    start();
    if (!open_device(200)) {
        result(0, "no device");
        return results();
    }
    attribute("speed", text, sizeof text);
    result(strcmp(text, "480") == 0, "speed %s", text);
    attribute("bConfigurationValue", text, sizeof text);
    result(strcmp(text, "1") == 0, "configuration %s", text);
    attribute("idProduct", text, sizeof text);
    if (strcmp(text, "0001") == 0)
        test_recorder(rounds);
    else
        test_zero(rounds, controller);
    return results();
}
