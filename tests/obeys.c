/*
 * How long a core takes to obey a cleared RUN: by the phase, and the longest there
 * is.
 */
#include <string.h>

#include "check.h"
#include "trial.h"

enum {
    WHOLE = 65535,     /* the bytes that a length of 0 means */
    BOUND = WHOLE + 1, /* and its write-back */
    PLACE = BASE + 2 * SGDMA_DESCRIPTOR_SIZE
};

static void check_obeyed(const struct core *core, struct ran ran, uint32_t steps)
{
    check("reason", ran.reason, SGDMA_REASON_REST);
    check("steps", ran.steps, steps);
    check("BUSY", core_read(core, SGDMA_REGISTER_STATUS) & SGDMA_STATUS_BUSY, 0);
}

/* RUN is cleared after so many steps of the chain: 1 step in Fetch, in Move one for
   its byte and 1 more, 1 in WriteBack, none in Rest and after the end. */
static void check_by_phase(void)
{
    static const uint32_t owed[ALL + 1] = {0, 1, 2, 1, 1, 2, 1, 1, 2, 1, 1, 0};
    struct trial trial;
    struct ran ran;

    for (uint32_t steps = 0; steps <= ALL; steps++) {
        check_case("RUN cleared after some steps of a chain");
        begin_trial(&trial);
        run_trial(&trial, steps);
        core_write(&trial.core, CONTROL, 0);
        ran = run_trial(&trial, BOUND);
        check_obeyed(&trial.core, ran, owed[steps]);
    }
}

/* A core in Move, with a descriptor of 65,535 bytes to one place, and RUN clear. */
static void begin_longest(struct core *core, uint8_t *memory, struct ledger ledger)
{
    const struct stream none = {NULL, 0};
    const struct descriptor longest = {
        .destination = PLACE,
        .next = BASE + SGDMA_DESCRIPTOR_SIZE,
        .control = SGDMA_DESC_OWNED_BY_HW | SGDMA_DESC_WRITE_FIXED_ADDRESS,
    };

    memset(memory, 0, LENGTH);
    core_create(core, SGDMA_MODE_STREAM_TO_MEMORY, BASE, memory, LENGTH);
    core_build(core, BASE, &longest);
    core_write(core, POINTER, BASE);
    core_write(core, CONTROL, RUN);
    core_run(core, none, none, ledger, IN_MOVE);
    core_write(core, CONTROL, 0);
}

static void check_longest(void)
{
    static uint8_t beats[SGDMA_BEAT_SIZE * WHOLE];
    uint8_t memory[LENGTH], record[SGDMA_RECORD_SIZE];
    const struct stream in = {beats, WHOLE}, none = {NULL, 0};
    struct ledger ledger = {record, 1, 0};
    struct core core;
    struct ran ran;

    check_case("the longest there is");
    begin_longest(&core, memory, ledger);
    ran = core_run(&core, in, none, ledger, UINT32_MAX);
    check_obeyed(&core, ran, BOUND);

    check_case("the longest there is, one step short");
    begin_longest(&core, memory, ledger);
    ran = core_run(&core, in, none, ledger, BOUND - 1);
    check("reason", ran.reason, SGDMA_REASON_BUDGET);
    check("BUSY", core_read(&core, SGDMA_REGISTER_STATUS) & SGDMA_STATUS_BUSY,
          SGDMA_STATUS_BUSY);
}

/* A beat less, and no room for the record: it waits, and no step is lost. */
static void check_waits(void)
{
    static uint8_t beats[SGDMA_BEAT_SIZE * WHOLE];
    uint8_t memory[LENGTH], record[SGDMA_RECORD_SIZE];
    const struct stream none = {NULL, 0};
    struct stream in = {beats, WHOLE - 1};
    struct ledger ledger = {record, 0, 0};
    struct core core;
    struct ran ran;

    check_case("a beat is lacking, and then the record");
    begin_longest(&core, memory, ledger);
    ran = core_run(&core, in, none, ledger, UINT32_MAX);
    check("reason", ran.reason, SGDMA_REASON_NEEDS_INPUT);
    check("steps", ran.steps, WHOLE - 1);
    in.beats = 1;
    ran = core_run(&core, in, none, ledger, UINT32_MAX);
    check("reason", ran.reason, SGDMA_REASON_LEDGER_FULL);
    check("steps", ran.steps, 1);
    ledger.room = 1;
    ran = core_run(&core, none, none, ledger, UINT32_MAX);
    check_obeyed(&core, ran, 1);
}

void test_obeys(void)
{
    check_by_phase();
    check_longest();
    check_waits();
}
