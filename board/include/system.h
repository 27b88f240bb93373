/*
 * Where each device of the workshop's board is on the bus, and on which port of the
 * controller its line is. Firmware finds them here under the names that the system
 * builder gives; board/workshop.c makes the board from the same numbers.
 */
#ifndef SYSTEM_H
#define SYSTEM_H

/* The memory that the cores and the processor share. */
#define ONCHIP_MEMORY_BASE 0x20000000u
#define ONCHIP_MEMORY_SPAN 4096u

/* Carries samples from the stream into memory. */
#define SGDMA_0_BASE 0x30000000u
#define SGDMA_0_IRQ  0u

/* Copies from memory to memory. */
#define SGDMA_1_BASE 0x30000100u
#define SGDMA_1_IRQ  1u

#define TIMER_0_BASE 0x30000200u
#define TIMER_0_IRQ  2u

#define VIC_0_BASE 0x30001000u
#define VIC_0_ID   0u

#endif
