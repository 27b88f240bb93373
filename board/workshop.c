#include "workshop.h"

#include "system.h"

/* The stream: a sample is its own number, and one comes every three ticks. */
enum { SAMPLES = 64, TICKS_A_SAMPLE = 3 };

enum { RECORDS = 64, PORTS = 3, VECTOR_BYTES = 16, VECTORS = 0x8000 };

static uint8_t samples[SGDMA_BEAT_SIZE * SAMPLES];

static const struct board_core CORES[] = {
    {
        .name = "sgdma_0",
        .registers = SGDMA_0_BASE,
        .mode = SGDMA_MODE_STREAM_TO_MEMORY,
        .port = SGDMA_0_IRQ,
        .records = RECORDS,
        .source = {samples, SAMPLES, TICKS_A_SAMPLE},
    },
    {
        .name = "sgdma_1",
        .registers = SGDMA_1_BASE,
        .mode = SGDMA_MODE_MEMORY_TO_MEMORY,
        .port = SGDMA_1_IRQ,
        .records = RECORDS,
    },
};

static const struct board BOARD = {
    .memory = ONCHIP_MEMORY_BASE,
    .memory_length = ONCHIP_MEMORY_SPAN,
    .cores = CORES,
    .core_count = sizeof CORES / sizeof *CORES,
    .timer = {"timer_0", TIMER_0_BASE, TIMER_0_IRQ, SGDMA_TIMER_FULL_PERIOD},
    .controller = {"vic_0", VIC_0_BASE, VIC_0_ID, PORTS, VECTOR_BYTES, VECTORS},
    /* A tick an access is the least with which BUSY is seen behind the write of RUN:
       with 0 it comes too late, and with many it has fallen again. See board.h. */
    .time = {.ticks_an_access = 1, .ticks_a_microsecond = 10, .most_ticks = 100000},
};

const struct board *workshop_board(void)
{
    const struct stream stream = {samples, SAMPLES};

    for (size_t i = 0; i < SAMPLES; i++)
        put_beat(stream, i, (uint32_t)i);
    return &BOARD;
}
