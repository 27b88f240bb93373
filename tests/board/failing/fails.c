/* Firmware that ends with the number of an error, after a single access. */
#include "altera_avalon_sgdma_regs.h"
#include "system.h"

int main(void)
{
    IORD_ALTERA_AVALON_SGDMA_STATUS(SGDMA_0_BASE);
    return 5;
}
