#include "parts.h"

/* A stretch of the bus that something takes. */
struct stretch {
    uint64_t first, end;
};

/* What was seen of a description so far: stretches of the bus, and ports as bits. */
struct seen {
    struct stretch taken[BOARD_CORES_MAX + 3]; /* the memory, the timer, the controller */
    size_t count;
    uint64_t ports;
};

static void take(struct seen *seen, uint32_t first, size_t span)
{
    struct stretch stretch = {first, first + (uint64_t)span};

    if (first % BOARD_WORD)
        board_stop(BOARD_BAD_PLACE);
    for (size_t i = 0; i < seen->count; i++)
        if (stretch.first < seen->taken[i].end && seen->taken[i].first < stretch.end)
            board_stop(BOARD_BAD_PLACE);
    seen->taken[seen->count++] = stretch;
}

static void connect(struct seen *seen, uint32_t port, uint32_t ports)
{
    if (port >= ports || port >= SGDMA_VIC_PORTS_MAX || seen->ports >> port & 1)
        board_stop(BOARD_BAD_PORT);
    seen->ports |= (uint64_t)1 << port;
}

void board_look_at(const struct board *board)
{
    const struct board_controller *controller = &board->controller;
    struct seen seen = {.count = 0};

    if (board->core_count == 0 || board->core_count > BOARD_CORES_MAX)
        board_stop(BOARD_BAD_CORES);
    take(&seen, board->memory, board->memory_length);
    take(&seen, controller->registers, BOARD_VIC_SPAN);
    take(&seen, board->timer.registers, BOARD_TIMER_SPAN);
    connect(&seen, board->timer.port, controller->ports);
    for (size_t i = 0; i < board->core_count; i++) {
        take(&seen, board->cores[i].registers, BOARD_CORE_SPAN);
        connect(&seen, board->cores[i].port, controller->ports);
    }
}
