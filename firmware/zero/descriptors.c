/* SPDX-License-Identifier: MIT OR Apache-2.0 */
#include "descriptors.h"
#include "../board.h"

/* The numbers of Linux's gadget zero, by which its driver usbtest knows the device: for tests alone. */
const uint8_t descriptor_device[DESCRIPTOR_DEVICE_LEN] = {
    18, 1,      /* length, DEVICE */
    0x00, 0x02, /* USB 2.0 */
    0xFF, 0, 0, /* class: the vendor's */
    64,         /* EP0's maximum */
    0x25, 0x05, 0xA0, 0xA4, /* vendor 0x0525, product 0xA4A0 */
    0x00, 0x01, /* release 1.0 */
    1, 2, 3,    /* strings: manufacturer, product, serial number */
    1,          /* configurations */
};

#define LOW(maximum) ((maximum) & 0xFF)
#define HIGH(maximum) ((maximum) >> 8)
#define BOTH(number, type, maximum, interval)                                        \
    7, 5, 0x00 | (number), (type), LOW(maximum), HIGH(maximum), (interval), /* OUT */ \
    7, 5, 0x80 | (number), (type), LOW(maximum), HIGH(maximum), (interval)  /* IN */

/* One interface. Alternate setting 0 has the bulk pipes; 1 those and the others, which take bus time. */
const uint8_t descriptor_configuration[DESCRIPTOR_CONFIGURATION_LEN] = {
    9, 2, DESCRIPTOR_CONFIGURATION_LEN, 0, DESCRIPTOR_INTERFACES, 1, 0, 0x80, 50, /* CONFIGURATION 1, 100 mA */
    9, 4, 0, 0, 2, 0xFF, 0, 0, 0, /* INTERFACE 0, alternate setting 0 */
    BOTH(BULK, 2, BULK_MAXIMUM, 0),
    9, 4, 0, 1, 6, 0xFF, 0, 0, 0, /* INTERFACE 0, alternate setting 1 */
    BOTH(BULK, 2, BULK_MAXIMUM, 0),
    BOTH(STREAM, 1, STREAM_MAXIMUM, 1),
    BOTH(INTERRUPT, 3, INTERRUPT_MAXIMUM, 1),
};

const char *descriptor_string(unsigned index)
{
    switch (index) {
    case 1: return "Dichaloq";
    case 2: return "USBHS sources, sinks and a loop";
    case 3: return board_serial_number();
    default: return 0;
    }
}
