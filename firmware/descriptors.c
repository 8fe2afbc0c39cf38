/* SPDX-License-Identifier: MIT OR Apache-2.0 */
#include "descriptors.h"
#include "board.h"

/* Vendor and product are test numbers: put in your own. */
const uint8_t descriptor_device[DESCRIPTOR_DEVICE_LEN] = {
    18, 1,      /* length, DEVICE */
    0x00, 0x02, /* USB 2.0 */
    0xFF, 0, 0, /* class: the vendor's */
    64,         /* EP0's maximum */
    0x09, 0x12, 0x01, 0x00, /* vendor 0x1209, product 0x0001 */
    0x00, 0x01, /* release 1.0 */
    1, 2, 3,    /* strings: manufacturer, product, serial number */
    1,          /* configurations */
};

/* One interface. Alternate setting 0 has no endpoints and so takes no bus time; 1 has the two streams. */
const uint8_t descriptor_configuration[DESCRIPTOR_CONFIGURATION_LEN] = {
    9, 2, DESCRIPTOR_CONFIGURATION_LEN, 0, DESCRIPTOR_INTERFACES, 1, 0, 0x80, 50, /* CONFIGURATION 1, 100 mA */
    9, 4, 0, 0, 0, 0xFF, 0, 0, 0,                             /* INTERFACE 0, alternate setting 0 */
    9, 4, 0, 1, 2, 0xFF, 0, 0, 0,                             /* INTERFACE 0, alternate setting 1 */
    7, 5, 0x00 | SAMPLES_OUT, 1, 64, 0, 1,                    /* isochronous OUT, 64 bytes, each microframe */
    7, 5, 0x80 | STATUS_IN, 1, 64, 0, 1,                      /* isochronous IN, likewise */
};

const char *descriptor_string(unsigned index)
{
    switch (index) {
    case 1: return "Dichaloq";
    case 2: return "USBHS recorder of sample stream";
    case 3: return board_serial_number();
    default: return 0;
    }
}
