/* SPDX-License-Identifier: MIT OR Apache-2.0 */
/* The USBHS block of CH32V30x: where its registers lie and which bits they have.
 *
 * NOT TRIED ON SILICON. What is known: the names of registers and fields, and what they do, are those that the
 * ported Rust uses (docs/src/usbhs). What is not verified: every offset, bit and number below. They are written
 * down from general knowledge of the CH32V30x, not from its reference manual; hold them against that before
 * flashing. */
#ifndef LAYOUT_H
#define LAYOUT_H

#ifndef USBHS_BASE
#define USBHS_BASE 0x40023400u
#endif

/* Offsets. */
#define CONTROL 0x00u   /* 8 bits */
#define HOST_CTRL 0x01u /* 8 */
#define INT_EN 0x02u    /* 8 */
#define DEV_AD 0x03u    /* 8 */
#define FRAME_NO 0x04u  /* 16: frame in bits 0-10, microframe in 13-15 */
#define MIS_ST 0x09u    /* 8 */
#define INT_FG 0x0Au    /* 8; a 1 clears */
#define INT_ST 0x0Bu    /* 8 */
#define RX_LEN 0x0Cu    /* 16 */
#define EP_CONFIG 0x10u /* 32: IN e in bit e, OUT e in bit 16 + e */
#define EP_TYPE 0x14u   /* 32: the same bits */
#define EP_BUF_MOD 0x18u
#define EP0_DMA 0x1Cu
#define EP_RX_DMA(e) (0x20u + 4u * ((e) - 1u)) /* 32, endpoints 1 to 15 */
#define EP_TX_DMA(e) (0x5Cu + 4u * ((e) - 1u))
#define EP_MAX_LEN(e) (0x98u + 4u * (e)) /* 16, endpoints 0 to 15 */
#define EP_T_LEN(e) (0xD8u + 4u * (e))   /* 16 */
#define EP_TX_CTRL(e) (0xDAu + 4u * (e)) /* 8 */
#define EP_RX_CTRL(e) (0xDBu + 4u * (e)) /* 8 */

/* Bits, those of a field lowest first, in the order in which include/usbhs.h packs them. */
#define CONTROL_BITS {1, 2, 3, 0, 5, 4}   /* clr_all, reset_sie, int_busy, dma_en, speed_type (high: 1), dev_pu_en */
#define INT_EN_BITS {7, 4, 5, 2, 0, 1, 3} /* dev_nak, fifo_ov, setup_act, suspend, bus_rst, transfer, sof_act */
#define INT_FG_BITS {0, 1, 2, 3, 4, 5}    /* bus_rst, transfer, suspend, hst_sof, fifo_ov, setup_act */
#define INT_ST_BITS {0, 1, 2, 3, 4, 5, 6} /* endpoint, token, tog_ok */
#define MIS_ST_BITS {5, 2}                /* sie_free, suspend */
#define HOST_CTRL_BITS {4}                /* phy_suspendm */
#define EP_CTRL_BITS {0, 1, 3, 4, 5}      /* response, toggle, automatic */

/* The interrupt's number, the controller's word that enables it, the clock's bit. */
#define USBHS_INTERRUPT 85u
#define PFIC_ENABLE(n) (0xE000E100u + 4u * ((n) / 32u))
#define UNIQUE_ID 0x1FFFF7E8u /* three words */
#define RCC_AHB_ENABLE 0x40021014u
#define RCC_AHB_USBHS (1u << 11)

#endif
