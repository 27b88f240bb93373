/*
 * Accesses of the firmware, answered by the board. Each of them tells the board in
 * which line of the firmware it stands. The handbook uses IORD and IOWR in chapter 29,
 * with __IO_CALC_ADDRESS_NATIVE; IORD_32DIRECT and IOWR_32DIRECT it does not print.
 */
#ifndef IO_H
#define IO_H

#include <stdint.h>

uint32_t board_read(uint32_t address, const char *file, int line);
void board_write(uint32_t address, uint32_t value, const char *file, int line);

/* A place on the bus, as a number or as a pointer to it, and bytes from there on. */
#define IO_ADDRESS(base, bytes) ((uint32_t)(uintptr_t)(base) + (uint32_t)(bytes))

#define IORD_32DIRECT(base, offset) board_read(IO_ADDRESS(base, offset), __FILE__, __LINE__)
#define IOWR_32DIRECT(base, offset, data) \
    board_write(IO_ADDRESS(base, offset), (uint32_t)(data), __FILE__, __LINE__)

/* The place of a register on the bus, by its number: each takes four bytes. There is
   nothing to load or store there: it is for the macros. */
#define __IO_CALC_ADDRESS_NATIVE(base, reg) \
    ((void *)(uintptr_t)IO_ADDRESS(base, 4u * (uint32_t)(reg)))

#define IORD(base, reg)       IORD_32DIRECT(__IO_CALC_ADDRESS_NATIVE(base, reg), 0)
#define IOWR(base, reg, data) IOWR_32DIRECT(__IO_CALC_ADDRESS_NATIVE(base, reg), 0, data)

#endif
