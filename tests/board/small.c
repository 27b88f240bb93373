#include "small.h"

enum { MOST_TICKS = 2000, VECTOR_BYTES = 16, VECTORS = 0x8000 };

static uint8_t beats[SGDMA_BEAT_SIZE * BEATS];

static const struct board_core CORES[] = {
    {
        .name = "sender",
        .registers = SENDER,
        .mode = SGDMA_MODE_MEMORY_TO_STREAM,
        .port = SENDER_PORT,
        .records = RECORDS,
        .sink = BEATS,
    },
    {
        .name = "reader",
        .registers = READER,
        .mode = SGDMA_MODE_STREAM_TO_MEMORY,
        .port = READER_PORT,
        .records = RECORDS,
        .source = {beats, BEATS, 0},
    },
};

static struct board board = {
    .memory = MEMORY,
    .memory_length = LENGTH,
    .cores = CORES,
    .core_count = sizeof CORES / sizeof *CORES,
    .timer = {"timer", TIMER, TIMER_PORT, 9},
    .controller = {"vic", VIC, VIC_ID, PORTS, VECTOR_BYTES, VECTORS},
    .time = {.ticks_a_microsecond = 1, .most_ticks = MOST_TICKS},
};

static uint32_t address_of(const void *place)
{
    return (uint32_t)(uintptr_t)place;
}

static void lay(alt_sgdma_descriptor *chain, const uint8_t *from, const uint8_t *to)
{
    for (size_t i = 0; i < RECORDS; i++) {
        chain[i].read_addr = from ? address_of(from + PACKET * i) : 0;
        chain[i].write_addr = to ? address_of(to + PACKET * i) : 0;
        chain[i].next = address_of(&chain[i + 1]);
        chain[i].bytes_to_transfer = PACKET;
        chain[i].control = SGDMA_DESC_OWNED_BY_HW;
    }
}

void small_make(uint32_t ticks_an_access)
{
    const struct stream source = {beats, BEATS};

    for (size_t i = 0; i < BEATS; i++)
        put_beat(source, i, (uint32_t)(0x50 + i));
    board.time.ticks_an_access = ticks_an_access;
    board_make(&board);
    for (size_t i = 0; i < BEATS; i++)
        SMALL->sent[i] = (uint8_t)(0x60 + i);
    lay(SMALL->sending, SMALL->sent, NULL);
    lay(SMALL->reading, NULL, SMALL->read);
}

struct board small_description(void)
{
    return board;
}

void small_start(uint32_t registers, alt_sgdma_descriptor *chain, uint32_t control)
{
    IOWR_ALTERA_AVALON_SGDMA_NEXT_DESCRIPTOR_POINTER(registers, address_of(chain));
    IOWR_ALTERA_AVALON_SGDMA_CONTROL(registers, control | SGDMA_CONTROL_RUN);
}
