/*
 * The registers of the vectored interrupt controller (chapter 29, tables 29-5 to 29-8).
 *
 * The handbook prints the macros of INT_CONFIG, and of the other registers the names and
 * the bits. The macros of these are made of the names in the same way. The numbers of
 * the registers have the names ALTERA_VIC_.._REG here alone.
 */
#ifndef ALTERA_VIC_REGS_H
#define ALTERA_VIC_REGS_H

#include "io.h"

/* The numbers of the registers: INT_CONFIG of port n is n. */
#define ALTERA_VIC_INT_CONFIG_REG       0u
#define ALTERA_VIC_INT_ENABLE_REG       32u
#define ALTERA_VIC_INT_ENABLE_SET_REG   33u
#define ALTERA_VIC_INT_ENABLE_CLR_REG   34u
#define ALTERA_VIC_INT_PENDING_REG      35u
#define ALTERA_VIC_INT_RAW_STATUS_REG   36u
#define ALTERA_VIC_SW_INTERRUPT_REG     37u
#define ALTERA_VIC_SW_INTERRUPT_SET_REG 38u
#define ALTERA_VIC_SW_INTERRUPT_CLR_REG 39u
#define ALTERA_VIC_VIC_CONFIG_REG       40u
#define ALTERA_VIC_VIC_STATUS_REG       41u
#define ALTERA_VIC_VEC_TBL_BASE_REG     42u
#define ALTERA_VIC_VEC_TBL_ADDR_REG     43u

/* As the handbook prints them. */
#define IOADDR_ALTERA_VIC_INT_CONFIG(base, irq)     __IO_CALC_ADDRESS_NATIVE(base, irq)
#define IORD_ALTERA_VIC_INT_CONFIG(base, irq)       IORD(base, irq)
#define IOWR_ALTERA_VIC_INT_CONFIG(base, irq, data) IOWR(base, irq, data)
#define ALTERA_VIC_INT_CONFIG_RIL_MSK   0x3Fu
#define ALTERA_VIC_INT_CONFIG_RIL_OFST  0
#define ALTERA_VIC_INT_CONFIG_RNMI_MSK  0x40u
#define ALTERA_VIC_INT_CONFIG_RNMI_OFST 6
#define ALTERA_VIC_INT_CONFIG_RRS_MSK   0x1F80u
#define ALTERA_VIC_INT_CONFIG_RRS_OFST  7

#define IORD_ALTERA_VIC_INT_ENABLE(base)             IORD(base, ALTERA_VIC_INT_ENABLE_REG)
#define IOWR_ALTERA_VIC_INT_ENABLE(base, data)       IOWR(base, ALTERA_VIC_INT_ENABLE_REG, data)
#define IOWR_ALTERA_VIC_INT_ENABLE_SET(base, data)   IOWR(base, ALTERA_VIC_INT_ENABLE_SET_REG, data)
#define IOWR_ALTERA_VIC_INT_ENABLE_CLR(base, data)   IOWR(base, ALTERA_VIC_INT_ENABLE_CLR_REG, data)
#define IORD_ALTERA_VIC_INT_PENDING(base)            IORD(base, ALTERA_VIC_INT_PENDING_REG)
#define IORD_ALTERA_VIC_INT_RAW_STATUS(base)         IORD(base, ALTERA_VIC_INT_RAW_STATUS_REG)
#define IORD_ALTERA_VIC_SW_INTERRUPT(base)           IORD(base, ALTERA_VIC_SW_INTERRUPT_REG)
#define IOWR_ALTERA_VIC_SW_INTERRUPT(base, data)     IOWR(base, ALTERA_VIC_SW_INTERRUPT_REG, data)
#define IOWR_ALTERA_VIC_SW_INTERRUPT_SET(base, data) IOWR(base, ALTERA_VIC_SW_INTERRUPT_SET_REG, data)
#define IOWR_ALTERA_VIC_SW_INTERRUPT_CLR(base, data) IOWR(base, ALTERA_VIC_SW_INTERRUPT_CLR_REG, data)

/* VEC_SIZE n: 4 << n bytes for each vector. */
#define IORD_ALTERA_VIC_VIC_CONFIG(base)       IORD(base, ALTERA_VIC_VIC_CONFIG_REG)
#define IOWR_ALTERA_VIC_VIC_CONFIG(base, data) IOWR(base, ALTERA_VIC_VIC_CONFIG_REG, data)
#define ALTERA_VIC_VIC_CONFIG_VEC_SIZE_MSK 0x7u

#define IORD_ALTERA_VIC_VIC_STATUS(base) IORD(base, ALTERA_VIC_VIC_STATUS_REG)
#define ALTERA_VIC_VIC_STATUS_HI_PRI_IRQ_MSK 0x3Fu
#define ALTERA_VIC_VIC_STATUS_IP_MSK         0x80000000u

#define IORD_ALTERA_VIC_VEC_TBL_BASE(base)       IORD(base, ALTERA_VIC_VEC_TBL_BASE_REG)
#define IOWR_ALTERA_VIC_VEC_TBL_BASE(base, data) IOWR(base, ALTERA_VIC_VEC_TBL_BASE_REG, data)
#define IORD_ALTERA_VIC_VEC_TBL_ADDR(base)       IORD(base, ALTERA_VIC_VEC_TBL_ADDR_REG)

#endif
