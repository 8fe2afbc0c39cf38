/* SPDX-License-Identifier: MIT OR Apache-2.0 */
/* The kit's clang comes without headers: the few types that include/usbhs.h and the firmware name. */
#ifndef FREESTANDING_STDINT_H
#define FREESTANDING_STDINT_H

typedef __UINT8_TYPE__ uint8_t;
typedef __UINT16_TYPE__ uint16_t;
typedef __UINT32_TYPE__ uint32_t;
typedef __UINT64_TYPE__ uint64_t;
typedef __UINTPTR_TYPE__ uintptr_t;

#define UINT64_MAX (~(uint64_t)0)

#endif
