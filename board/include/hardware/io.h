/*
 * Accesses of the firmware as the target makes them: a load or a store that the
 * compiler neither moves nor leaves out. The target's data cache must not hold the
 * devices; its own header sees to that where it has one.
 */
#ifndef IO_H
#define IO_H

#include <stdint.h>

#define IO_WORD(base, bytes) (*(volatile uint32_t *)((uintptr_t)(base) + (bytes)))

#define IORD_32DIRECT(base, offset)       IO_WORD(base, offset)
#define IOWR_32DIRECT(base, offset, data) (IO_WORD(base, offset) = (uint32_t)(data))

/* The place of a register on the bus, by its number: each takes four bytes. */
#define __IO_CALC_ADDRESS_NATIVE(base, reg) ((void *)((uintptr_t)(base) + 4u * (reg)))

#define IORD(base, reg)       IORD_32DIRECT(__IO_CALC_ADDRESS_NATIVE(base, reg), 0)
#define IOWR(base, reg, data) IOWR_32DIRECT(__IO_CALC_ADDRESS_NATIVE(base, reg), 0, data)

#endif
