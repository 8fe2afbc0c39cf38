/* SPDX-License-Identifier: MIT OR Apache-2.0
 *
 * The symbol that names the header's version and the state's length, in each archive of the driver (firmware/stamp).
 * The header's start-up reads it: a program with a header and an archive of two versions does not link. */
#include "usbhs.h"

const uint8_t USBHS_ARCHIVE = 0;
