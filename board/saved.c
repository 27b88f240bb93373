#include "parts.h"

#include <string.h>

/*
 * The state as a row of bytes. One list of its pieces serves all three calls: each
 * piece is counted, copied out or copied in.
 */
struct cursor {
    uint8_t *out;      /* to where it is saved, or NULL */
    const uint8_t *in; /* from where it is restored, or NULL */
    size_t at;
};

static void piece(struct cursor *cursor, uint8_t *bytes, size_t length)
{
    if (cursor->out)
        memcpy(cursor->out + cursor->at, bytes, length);
    if (cursor->in)
        memcpy(bytes, cursor->in + cursor->at, length);
    cursor->at += length;
}

static void number(struct cursor *cursor, uint32_t *value)
{
    uint8_t bytes[sizeof *value];

    for (size_t i = 0; i < sizeof bytes; i++)
        bytes[i] = (uint8_t)(*value >> 8 * (sizeof bytes - 1 - i));
    piece(cursor, bytes, sizeof bytes);
    *value = number_at(bytes, sizeof bytes);
}

static void core_pieces(struct cursor *cursor, struct board_core_state *state)
{
    piece(cursor, state->core.image, sizeof state->core.image);
    piece(cursor, state->ledger.bytes, SGDMA_RECORD_SIZE * state->ledger.room);
    piece(cursor, state->sink.bytes, SGDMA_BEAT_SIZE * state->sink.beats);
    number(cursor, &state->ledger.used);
    number(cursor, &state->taken);
    number(cursor, &state->made);
    number(cursor, &state->reason);
}

static size_t all_pieces(struct cursor cursor)
{
    if (!board_state.description)
        board_stop(BOARD_NOT_MADE);
    piece(&cursor, board_state.memory, board_state.description->memory_length);
    for (size_t i = 0; i < board_state.description->core_count; i++)
        core_pieces(&cursor, &board_state.cores[i]);
    piece(&cursor, board_state.timer.bytes, sizeof board_state.timer.bytes);
    piece(&cursor, board_state.controller.bytes, sizeof board_state.controller.bytes);
    number(&cursor, &board_state.ticks);
    number(&cursor, &board_state.accesses);
    number(&cursor, &board_state.interrupts);
    return cursor.at;
}

size_t board_size(void)
{
    struct cursor count = {NULL, NULL, 0};

    return all_pieces(count);
}

void board_save(uint8_t *bytes)
{
    struct cursor out = {bytes, NULL, 0};

    all_pieces(out);
}

/* What the model is not told: how far its core is in bytes that the board lends. */
static bool fits(const struct board_core_state *state, const struct board_core *core)
{
    return state->ledger.used <= core->records && state->taken <= core->source.count &&
           state->made <= core->sink;
}

void board_restore(const uint8_t *bytes, size_t length)
{
    struct cursor in = {NULL, bytes, 0};

    if (length != board_size())
        board_stop(BOARD_NOT_SAVED);
    all_pieces(in);
    for (size_t i = 0; i < board_state.description->core_count; i++)
        if (!fits(&board_state.cores[i], &board_state.description->cores[i]))
            board_stop(BOARD_NOT_SAVED);
}
