/* Firmware that waits for a chain which it has never started. */
#include "altera_avalon_sgdma_regs.h"
#include "system.h"

int main(void)
{
    while (!(IORD_ALTERA_AVALON_SGDMA_STATUS(SGDMA_0_BASE) &
             ALTERA_AVALON_SGDMA_STATUS_CHAIN_COMPLETED_MSK))
        ;
    return 0;
}
