/*
 * A small board, which the tests give its time and the room of its ledgers: a core in
 * mode 1 and one in mode 2, on the ports 0 and 1, and the timer on port 2.
 */
#ifndef SMALL_H
#define SMALL_H

#include "altera_avalon_sgdma_descriptor.h"
#include "altera_avalon_sgdma_regs.h"
#include "altera_avalon_timer_regs.h"
#include "altera_vic_regs.h"
#include "board.h"
#include "sys/alt_irq.h"

enum {
    MEMORY = 0x24000000,
    LENGTH = 4096,
    SENDER = 0x34000000, /* mode 1 */
    READER = 0x34000100, /* mode 2 */
    TIMER = 0x34000200,
    VIC = 0x34001000,
    VIC_ID = 0,
    SENDER_PORT = 0,
    READER_PORT = 1,
    TIMER_PORT = 2,
    PORTS = 3,
    BEATS = 8,   /* of the reader's source, and the sender's sink */
    RECORDS = 2, /* of each ledger */
    PACKET = 4
};

/* In its memory: a chain of two for each core, and where the bytes are. */
struct small_memory {
    alt_sgdma_descriptor sending[3], reading[3];
    uint8_t sent[BEATS], read[BEATS];
};

#define SMALL ((struct small_memory *)(uintptr_t)MEMORY)

/* Makes the board, with this time for an access, and both chains in its memory. */
void small_make(uint32_t ticks_an_access);

/* Its description, to be copied and changed. */
struct board small_description(void);

/* Points a core to its chain, and sets RUN and these bits of control. */
void small_start(uint32_t registers, alt_sgdma_descriptor *chain, uint32_t control);

#endif
