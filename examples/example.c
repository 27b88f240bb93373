/* Six samples in two packets, the second with an error and EOP; in slices of five steps, and what the ledger tells. */
#include <stdio.h>
#include "sgdma.h"

static unsigned long number(const uint8_t *at, int size)
{
    unsigned long value = 0;

    while (size-- > 0)
        value = value << 8 | *at++;
    return value;
}

int main(void)
{
    const uint8_t beats[] = {0, 0x11, 0, 0x22, 0, 0x33, 0, 0x44, 6, 0x55, 1, 0x66};
    uint8_t core[SGDMA_IMAGE_SIZE], ram[256] = {0}, ledger[2 * SGDMA_RECORD_SIZE], report[SGDMA_REPORT_SIZE];
    unsigned long taken = 0, steps = 0, reason = SGDMA_REASON_BUDGET, used = 0;
    uint32_t refused = sgdma_create(core, sizeof core, SGDMA_MODE_STREAM_TO_MEMORY, 0x1000, sizeof ram);

    for (uint32_t at = 0x1000, to = 0x1080; at < 0x1040; at += SGDMA_DESCRIPTOR_SIZE, to += 4)
        refused |= sgdma_build_descriptor(ram, sizeof ram, 0x1000, at, 0, to, at + SGDMA_DESCRIPTOR_SIZE, 4, SGDMA_DESC_OWNED_BY_HW);
    refused |= sgdma_write_register(core, sizeof core, SGDMA_REGISTER_NEXT_DESCRIPTOR_POINTER, 0x1000);
    refused |= sgdma_write_register(core, sizeof core, SGDMA_REGISTER_CONTROL, SGDMA_CONTROL_RUN);
    while (!refused && reason == SGDMA_REASON_BUDGET) {
        refused = sgdma_run(core, sizeof core, ram, sizeof ram, beats + 2 * taken, sizeof beats - 2 * taken, NULL, 0,
                            ledger, sizeof ledger, (uint32_t)used, 5, report, sizeof report);
        reason = number(report + SGDMA_REPORT_REASON_AT, 2);
        steps += number(report + SGDMA_REPORT_STEPS_AT, 4);
        taken += number(report + SGDMA_REPORT_TAKEN_AT, 4);
        used = number(report + SGDMA_REPORT_USED_AT, 4);
    }
    printf("refused %lu, reason %lu, %lu steps, %lu beats, the last 0x%02X\n", (unsigned long)refused, reason, steps, taken, ram[0x85]);
    for (const uint8_t *r = ledger; r < ledger + used * SGDMA_RECORD_SIZE; r += SGDMA_RECORD_SIZE)
        printf("run %lu: descriptor 0x%lX, %lu bytes, errors 0x%02X, EOP %d\n", number(r + SGDMA_RECORD_RUN_AT, 4),
               number(r + SGDMA_RECORD_DESCRIPTOR_AT, 4), number(r + SGDMA_RECORD_ACTUAL_AT, 2), r[SGDMA_RECORD_STATUS_AT], r[SGDMA_RECORD_FLAGS_AT]);
    return refused != SGDMA_DONE;
}
