#define _DEFAULT_SOURCE /* for MAP_ANONYMOUS and MAP_FIXED_NOREPLACE */

#include "parts.h"

#include <stdlib.h>
#include <string.h>
#include <sys/mman.h>

/* Where the system has no such flag the address is a wish, and looked at afterwards. */
#ifndef MAP_FIXED_NOREPLACE
#define MAP_FIXED_NOREPLACE 0
#endif

struct board_state board_state;

static uint8_t *map_memory(uint32_t address, size_t length)
{
    void *wish = (void *)(uintptr_t)address;
    void *got = mmap(wish, length, PROT_READ | PROT_WRITE,
                     MAP_PRIVATE | MAP_ANONYMOUS | MAP_FIXED_NOREPLACE, -1, 0);

    if (got != wish)
        board_stop(BOARD_NO_MEMORY);
    return got;
}

static uint8_t *room_for(size_t count, size_t size)
{
    uint8_t *room = calloc(count + 1, size); /* never none, so that NULL is a failure */

    if (!room)
        board_stop(BOARD_NO_MEMORY);
    return room;
}

static void make_core(struct board_core_state *state, const struct board_core *core)
{
    const struct board *board = board_state.description;

    core_create(&state->core, core->mode, board->memory, board_state.memory,
                board->memory_length);
    state->ledger.bytes = room_for(core->records, SGDMA_RECORD_SIZE);
    state->ledger.room = core->records;
    state->sink.bytes = room_for(core->sink, SGDMA_BEAT_SIZE);
    state->sink.beats = core->sink;
}

void board_make(const struct board *board)
{
    board_end();
    at_refusal = board_stop_call;
    board_look_at(board);
    board_catch_faults();
    board_state.memory = map_memory(board->memory, board->memory_length);
    board_state.description = board;
    for (size_t i = 0; i < board->core_count; i++)
        make_core(&board_state.cores[i], &board->cores[i]);
    timer_make(&board_state.timer, board->timer.period);
    controller_make(&board_state.controller, board->controller.ports,
                    board->controller.vector_bytes, board->controller.vector_base);
}

void board_end(void)
{
    static const struct board_state none;

    if (board_state.description) {
        munmap(board_state.memory, board_state.description->memory_length);
        for (size_t i = 0; i < board_state.description->core_count; i++) {
            free(board_state.cores[i].ledger.bytes);
            free(board_state.cores[i].sink.bytes);
        }
    }
    board_state = none;
    board_forget_handlers();
    board_let_faults();
}

/* The beats of a source that have come by now and are not taken yet. */
static struct stream come(const struct board_source *source, uint32_t taken)
{
    size_t by_now = source->count;
    struct stream all = {(uint8_t *)source->beats, 0}; /* it is only read */

    if (source->ticks_a_beat && board_state.ticks / source->ticks_a_beat < by_now)
        by_now = board_state.ticks / source->ticks_a_beat;
    all.beats = by_now > taken ? by_now : taken;
    return stream_from(all, taken);
}

static void step_core(size_t place)
{
    const struct board_core *core = &board_state.description->cores[place];
    struct board_core_state *state = &board_state.cores[place];
    struct ran ran = core_run(&state->core, come(&core->source, state->taken),
                              stream_from(state->sink, state->made), state->ledger, 1);

    state->taken += ran.taken;
    state->made += ran.made;
    state->ledger.used = ran.used;
    state->reason = ran.reason;
    if (board_state.watch)
        board_state.watch->step(place, &ran);
    if (ran.reason == SGDMA_REASON_LEDGER_FULL)
        board_stop(BOARD_LEDGER_FULL);
}

/* Step by step, since the cores share the memory and each sees what the others do. */
void board_pass(uint32_t ticks)
{
    for (uint32_t i = 0; i < ticks; i++) {
        if (board_state.ticks >= board_state.description->time.most_ticks)
            board_stop(BOARD_TIME_UP);
        board_heed();
        board_state.ticks++;
        timer_run(&board_state.timer, 1);
        for (size_t core = 0; core < board_state.description->core_count; core++)
            step_core(core);
    }
}

const struct board *board_description(void)
{
    return board_state.description;
}

const struct board_core_state *board_core_state(size_t place)
{
    return &board_state.cores[place];
}

uint32_t board_ticks(void)
{
    return board_state.ticks;
}

uint32_t board_accesses(void)
{
    return board_state.accesses;
}

uint32_t board_interrupts(void)
{
    return board_state.interrupts;
}

void board_watch(const struct board_watch *watch)
{
    board_state.watch = watch;
}
