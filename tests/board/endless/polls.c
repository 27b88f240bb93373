/* Firmware that waits for its descriptor by memory alone, so that no step is granted. */
#include <stdio.h>

#include "altera_avalon_sgdma_descriptor.h"
#include "altera_avalon_sgdma_regs.h"
#include "system.h"

int main(void)
{
    volatile alt_sgdma_descriptor *d = (alt_sgdma_descriptor *)(uintptr_t)ONCHIP_MEMORY_BASE;

    d->write_addr = ONCHIP_MEMORY_BASE + 0x100;
    d->next = ONCHIP_MEMORY_BASE + 0x20;
    d->bytes_to_transfer = 16;
    d->control = ALTERA_AVALON_SGDMA_DESCRIPTOR_CONTROL_OWNED_BY_HW_MSK;
    IOWR_ALTERA_AVALON_SGDMA_NEXT_DESCRIPTOR_POINTER(SGDMA_0_BASE, ONCHIP_MEMORY_BASE);
    IOWR_ALTERA_AVALON_SGDMA_CONTROL(SGDMA_0_BASE, ALTERA_AVALON_SGDMA_CONTROL_RUN_MSK);
    for (int i = 0; i < 10; i++)
        IORD_ALTERA_AVALON_SGDMA_STATUS(SGDMA_0_BASE);
    printf("    waiting\n");
    fflush(stdout);
    while (d->control & ALTERA_AVALON_SGDMA_DESCRIPTOR_CONTROL_OWNED_BY_HW_MSK)
        ;
    return 0;
}
