#include "parts.h"

#include "io.h"
#include "priv/alt_busy_sleep.h"

#include <string.h>

enum kind { NOTHING, MEMORY, CORE, TIMER, CONTROLLER };

/* What is at an address: a device, and the number of the register there. */
struct found {
    enum kind kind;
    size_t core; /* which one */
    uint32_t number;
};

static bool within(uint32_t address, uint32_t first, size_t span)
{
    return address >= first && address - first < span;
}

static struct found register_of(enum kind kind, size_t core, uint32_t bytes)
{
    struct found found = {kind, core, bytes / BOARD_WORD};

    return found;
}

static struct found find(const struct board *board, uint32_t address)
{
    static const struct found nothing = {NOTHING, 0, 0};
    uint32_t timer = board->timer.registers, vic = board->controller.registers;

    if (within(address, board->memory, board->memory_length))
        return register_of(MEMORY, 0, address - board->memory);
    if (within(address, timer, BOARD_TIMER_SPAN))
        return register_of(TIMER, 0, address - timer);
    if (within(address, vic, BOARD_VIC_SPAN))
        return register_of(CONTROLLER, 0, address - vic);
    for (size_t i = 0; i < board->core_count; i++)
        if (within(address, board->cores[i].registers, BOARD_CORE_SPAN))
            return register_of(CORE, i, address - board->cores[i].registers);
    return nothing;
}

/* A register's name, or that it is none. */
static const char *core_register_name(uint32_t number)
{
    switch (number) {
    case SGDMA_REGISTER_STATUS: return "status";
    case SGDMA_REGISTER_CONTROL: return "control";
    case SGDMA_REGISTER_NEXT_DESCRIPTOR_POINTER: return "next_descriptor_pointer";
    default: return NULL;
    }
}

static const char *timer_register_name(uint32_t number)
{
    switch (number) {
    case SGDMA_TIMER_REGISTER_STATUS: return "status";
    case SGDMA_TIMER_REGISTER_CONTROL: return "control";
    case SGDMA_TIMER_REGISTER_PERIODL: return "periodl";
    case SGDMA_TIMER_REGISTER_PERIODH: return "periodh";
    case SGDMA_TIMER_REGISTER_SNAPL: return "snapl";
    case SGDMA_TIMER_REGISTER_SNAPH: return "snaph";
    default: return NULL;
    }
}

/* Keeps what a refusal is to tell of this place. */
static void name_place(const struct board *board, struct found found)
{
    static const char *const NONE = "(no register of it)";
    const char *names[] = {
        [NOTHING] = "",
        [MEMORY] = "",
        [CORE] = core_register_name(found.number),
        [TIMER] = timer_register_name(found.number),
        [CONTROLLER] = board_vic_name(found.number),
    };
    const char *devices[] = {
        [NOTHING] = NULL,
        [MEMORY] = "memory",
        [CORE] = found.kind == CORE ? board->cores[found.core].name : NULL,
        [TIMER] = board->timer.name,
        [CONTROLLER] = board->controller.name,
    };

    board_state.access.device = devices[found.kind];
    board_state.access.reg = names[found.kind] ? names[found.kind] : NONE;
}

/* Enters, and keeps where the firmware is; the board, which there must be. */
static const struct board *come_to(struct board_access access)
{
    board_enter();
    board_state.access = access;
    if (!board_state.description)
        board_stop(BOARD_NOT_MADE);
    return board_state.description;
}

/* Begins an access: keeps where it is, lets its time pass, and finds what is there. */
static struct found begin(struct board_access access)
{
    uint32_t address = access.address;
    struct found found;

    found = find(come_to(access), address);
    name_place(board_state.description, found);
    if (address % BOARD_WORD)
        board_stop(BOARD_MISALIGNED);
    if (found.kind == NOTHING)
        board_stop(BOARD_NO_DEVICE);
    board_pass(board_state.description->time.ticks_an_access);
    return found;
}

/* Ends it: it is counted and shown, and what has come to be chosen is served. */
static void end(uint32_t value)
{
    struct board_access access = board_state.access;

    access.value = value;
    board_state.accesses++;
    if (board_state.watch && board_state.watch->access)
        board_state.watch->access(&access);
    board_serve();
    board_leave();
}

static uint32_t read_word(const uint8_t *memory)
{
    uint32_t word;

    memcpy(&word, memory, sizeof word);
    return word;
}

uint32_t board_read(uint32_t address, const char *file, int line)
{
    const struct board_access access = {BOARD_READ, address, 0, file, line, NULL, NULL};
    struct found found = begin(access);
    uint32_t value = 0;

    switch (found.kind) {
    case NOTHING: break; /* it was stopped */
    case MEMORY: value = read_word(board_state.memory + BOARD_WORD * found.number); break;
    case CORE: value = core_read(&board_state.cores[found.core].core, found.number); break;
    case TIMER: value = timer_read(&board_state.timer, found.number); break;
    case CONTROLLER: value = board_vic_read(found.number); break;
    }
    end(value);
    return value;
}

void board_write(uint32_t address, uint32_t value, const char *file, int line)
{
    const struct board_access access = {BOARD_WRITE, address, value, file, line, NULL, NULL};
    struct found found = begin(access);

    switch (found.kind) {
    case NOTHING: break; /* it was stopped */
    case MEMORY:
        memcpy(board_state.memory + BOARD_WORD * found.number, &value, sizeof value);
        break;
    case CORE:
        core_write(&board_state.cores[found.core].core, found.number, value);
        break;
    case TIMER: timer_write(&board_state.timer, found.number, value); break;
    case CONTROLLER: board_vic_write(found.number, value); break;
    }
    end(value);
}

/* A handler is called in the midst of a wait, as soon as its port is chosen. */
unsigned int board_wait(uint32_t microseconds, const char *file, int line)
{
    const struct board_access access = {BOARD_WAIT, 0, 0, file, line, NULL, NULL};
    const struct board *board = come_to(access);

    for (uint32_t i = 0; i < microseconds; i++)
        for (uint32_t tick = 0; tick < board->time.ticks_a_microsecond; tick++) {
            board_state.access = access; /* a handler has made its own */
            board_pass(1);
            board_serve();
        }
    board_leave();
    return 0;
}
