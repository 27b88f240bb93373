/*
 * A run as a row of a table: what is given to a core, and every figure that must
 * come of it.
 *
 * "Base 4096, length 256, mode 2, descriptor D at 4096: destination 4224, next
 * 4128, length 4, control 0x80; all other bytes zero. Pointer 4096, control
 * 0x20, budget 100, beats 0x0011 0x0022 0x0033 0x0044, unless said."
 *
 * GIVEN is that sentence and RUN_1 what must come of it. A row begins with them
 * and says what is otherwise: a table with such rows is enclosed by
 * ROWS_BEGIN and ROWS_END.
 */
#ifndef ROWS_H
#define ROWS_H

#include "core.h"

enum {
    ROW_BASE = 4096,
    ROW_LENGTH = 256,
    ROW_D = 4096,
    ROW_BEATS = 8,  /* the most that a row gives, */
    ROW_MADE = 4,   /* has room for, */
    ROW_RECORDS = 4 /* and the room of its ledger: one more than any row uses */
};

struct given {
    uint32_t mode;
    struct descriptor d;
    uint8_t data[4]; /* at D's source, in modes 0 and 1 */
    uint32_t pointer;
    uint32_t control;
    uint32_t budget;
    uint32_t beats[ROW_BEATS];
    size_t beat_count;
    size_t room;
};

struct must {
    struct ran ran;
    uint32_t status;
    uint32_t pointer;
    uint8_t last_four[4]; /* of D */
    struct fault fault;
    uint8_t landed[4]; /* at D's destination, as far as the window reaches */
    uint32_t made[ROW_MADE];
    uint8_t records[SGDMA_RECORD_SIZE * ROW_RECORDS]; /* those used, byte for byte */
    bool line;
};

struct row {
    const char *name;
    struct given given;
    struct must must;
};

#define GIVEN                                                                  \
    .mode = 2, .d.destination = 4224, .d.next = 4128, .d.length = 4,           \
    .d.control = 0x80, .pointer = 4096, .control = 0x20, .budget = 100,        \
    .beats = {0x0011, 0x0022, 0x0033, 0x0044}, .beat_count = 4

/* The bytes of a record: RUN was set once, address 4096, and the rest as said. */
#define RECORD_OF_D(actual, errors, eop)                                       \
    0, 0, 0, 1, 0x00, 0x00, 0x10, 0x00, 0, (actual), (errors), (eop)

#define RUN_1                                                                  \
    .ran.reason = 1, .ran.steps = 8, .ran.taken = 4, .ran.used = 1,            \
    .status = 0x1C, .pointer = 4128, .last_four = {4, 0, 0, 0},                \
    .landed = {0x11, 0x22, 0x33, 0x44}, .records = {RECORD_OF_D(4, 0, 0)}

/* A row may say again what GIVEN or RUN_1 has said: the later word holds. */
#define ROWS_BEGIN                                                             \
    _Pragma("GCC diagnostic push")                                             \
    _Pragma("GCC diagnostic ignored \"-Woverride-init\"")
#define ROWS_END _Pragma("GCC diagnostic pop")

/*
 * Makes the run and compares everything that came of it; then once more, with a
 * ledger that is lent record by record: the end must be the same.
 */
void check_row(const struct row *row);

/* A core as it is given, and what its next run is lent. */
struct setup {
    struct core core;
    uint8_t memory[ROW_LENGTH];
    uint8_t beats[SGDMA_BEAT_SIZE * ROW_BEATS];
    uint8_t made[SGDMA_BEAT_SIZE * ROW_MADE];
    uint8_t records[SGDMA_RECORD_SIZE * ROW_RECORDS];
    struct stream in, out;
    struct ledger ledger;
};

enum { UNMADE = 0xEE }; /* output and ledger before a run: the rest stays so */

void set_up(struct setup *setup, const struct given *given);

/* Runs, and keeps what that has left for the next run. */
struct ran run_on(struct setup *setup, uint32_t budget);

/* A smaller run: D asks for one byte, and one beat is there. */
struct one {
    uint32_t desc_control;
    uint32_t beat;
    uint32_t control;
    uint32_t budget;
};

/* Creates the core over zeros, in mode 2, and makes the run. */
void run_one(struct core *core, uint8_t memory[ROW_LENGTH], struct one one);

#endif
