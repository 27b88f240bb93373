/*
 * The copier: a core gathers pieces of a text that lie apart in memory, in the order in
 * which they are read. It is asked for its status, without interrupts.
 */
#include <stddef.h>
#include <stdint.h>
#include <stdio.h>
#include <string.h>

#include "altera_avalon_sgdma_descriptor.h"
#include "altera_avalon_sgdma_regs.h"
#include "system.h"

enum { PIECES = 3, APART = 64, LONGEST = 128 };

static const char *const TEXT[PIECES] = {"No sample is lost", " that the ledger", " has a record of."};

/* The memory: the chain, with one that is not owned at its end, and both texts. */
struct layout {
    alt_sgdma_descriptor chain[PIECES + 1];
    char pieces[PIECES][APART];
    char gathered[LONGEST];
};

static struct layout *const memory = (struct layout *)(uintptr_t)ONCHIP_MEMORY_BASE;

static uint32_t bus_address(const void *place)
{
    return (uint32_t)(uintptr_t)place;
}

/* Lays the pieces and the chain; the length of the text. */
static size_t lay_chain(void)
{
    size_t at = 0;

    for (size_t i = 0; i < PIECES; i++) {
        alt_sgdma_descriptor *d = &memory->chain[i];
        size_t length = strlen(TEXT[i]);

        memcpy(memory->pieces[i], TEXT[i], length);
        d->read_addr = bus_address(memory->pieces[i]);
        d->write_addr = bus_address(memory->gathered + at);
        d->next = bus_address(&memory->chain[i + 1]);
        d->bytes_to_transfer = (uint16_t)length;
        d->control = ALTERA_AVALON_SGDMA_DESCRIPTOR_CONTROL_OWNED_BY_HW_MSK;
        at += length;
    }
    memory->chain[PIECES].control = 0;
    return at;
}

/* Starts the core and waits for the chain's end; how often it asked. */
static unsigned copy(void)
{
    unsigned asked = 1;

    IOWR_ALTERA_AVALON_SGDMA_NEXT_DESCRIPTOR_POINTER(SGDMA_1_BASE, bus_address(memory->chain));
    IOWR_ALTERA_AVALON_SGDMA_CONTROL(SGDMA_1_BASE, ALTERA_AVALON_SGDMA_CONTROL_RUN_MSK);
    while (!(IORD_ALTERA_AVALON_SGDMA_STATUS(SGDMA_1_BASE) &
             ALTERA_AVALON_SGDMA_STATUS_CHAIN_COMPLETED_MSK))
        asked++;
    IOWR_ALTERA_AVALON_SGDMA_CONTROL(SGDMA_1_BASE, 0);
    while (IORD_ALTERA_AVALON_SGDMA_STATUS(SGDMA_1_BASE) & ALTERA_AVALON_SGDMA_STATUS_BUSY_MSK)
        ;
    return asked;
}

int main(void)
{
    size_t length = lay_chain();
    unsigned asked = copy();
    int differs = 0;

    printf("    the core was asked %u times until its chain was completed\n", asked);
    for (size_t i = 0, at = 0; i < PIECES; at += strlen(TEXT[i]), i++)
        differs |= memcmp(memory->gathered + at, TEXT[i], strlen(TEXT[i]));
    printf("    %u bytes: \"%.*s\"\n", (unsigned)length, (int)length, memory->gathered);
    return differs ? 1 : 0;
}
