/*
 * Which run a record is dated with: the core's at the WriteBack step, whatever it
 * was at the Fetch. Cases worked out by hand, on a trial whose RUN is set once.
 */
#include "check.h"
#include "trial.h"

/* So many records: the first few of one run, and the others of another. */
static void check_dates(const struct trial *trial, uint32_t count, uint32_t first_few,
                        uint32_t run, uint32_t others)
{
    check("records used", trial->ledger.used, count);
    for (uint32_t i = 0; i < trial->ledger.used; i++) {
        struct record record = record_at(trial->ledger, i);

        check("run", record.run, i < first_few ? run : others);
        check("actual", record.actual, 1);
    }
}

/* The records that a trial has made after so many steps: one with each third of
   them, from the fourth on. */
static uint32_t made_after(uint32_t steps)
{
    return steps < IN_FETCH ? 0 : (steps - 1) / 3;
}

static void off_and_on(struct trial *trial)
{
    core_write(&trial->core, CONTROL, 0);
    core_write(&trial->core, CONTROL, RUN);
}

/* A descriptor in two runs: its two records tell them apart, by the first bytes. */
static void check_two_runs(void)
{
    static const uint8_t wanted[][SGDMA_RECORD_SIZE] = {
        {0, 0, 0, 1, 0x00, 0x00, 0x10, 0x20, 0, 1, 0, 0},
        {0, 0, 0, 2, 0x00, 0x00, 0x10, 0x20, 0, 1, 0, 0},
    };
    struct trial trial;

    check_case("the same descriptors in two runs");
    begin_trial(&trial);
    run_trial(&trial, ALL);
    check_dates(&trial, CHAIN, CHAIN, 1, 0);
    core_write(&trial.core, CONTROL, 0);
    start_chain(&trial);
    run_trial(&trial, ALL);
    check_dates(&trial, 2 * CHAIN, CHAIN, 1, 2);
    for (size_t i = 0; i < COUNT(wanted); i++)
        check_bytes("record", trial.records + SGDMA_RECORD_SIZE * (1 + CHAIN * i),
                    wanted[i], sizeof wanted[i]);
}

/* RUN off and on after every number of steps, and so in Move and in WriteBack of
   each descriptor and in each Fetch: what was written back before is of run 1. */
static void check_off_and_on(void)
{
    struct trial trial;

    check_case("RUN off and on");
    for (uint32_t steps = 0; steps <= ALL; steps++) {
        begin_trial(&trial);
        run_trial(&trial, steps);
        check("records before", trial.ledger.used, made_after(steps));
        off_and_on(&trial);
        run_trial(&trial, 100);
        check_dates(&trial, CHAIN, made_after(steps), 1, 2);
    }
    check_case("RUN off and on in Move and in WriteBack");
    begin_trial(&trial);
    run_trial(&trial, IN_MOVE);
    off_and_on(&trial);
    run_trial(&trial, IN_WRITE_BACK - IN_MOVE);
    off_and_on(&trial);
    run_trial(&trial, 100);
    check_dates(&trial, CHAIN, 0, 0, 3);
}

/* RUN cleared in Move: the write-back is still of that run, the rest of the next. */
static void check_cleared(void)
{
    struct trial trial;

    check_case("RUN cleared in Move, and set in Rest");
    begin_trial(&trial);
    run_trial(&trial, IN_MOVE);
    core_write(&trial.core, CONTROL, 0);
    check("reason", run_trial(&trial, 100).reason, SGDMA_REASON_REST);
    check_dates(&trial, 1, 1, 1, 0);
    core_write(&trial.core, CONTROL, RUN);
    run_trial(&trial, 100);
    check_dates(&trial, CHAIN, 1, 1, 2);
}

/* A write-back that waits for room is of the run in which it is made. */
static void check_waited(void)
{
    struct trial trial;

    check_case("a full ledger, and RUN off and on before there is room");
    begin_trial(&trial);
    trial.ledger.room = 1;
    check("reason", run_trial(&trial, 100).reason, SGDMA_REASON_LEDGER_FULL);
    off_and_on(&trial);
    check("reason", run_trial(&trial, 100).reason, SGDMA_REASON_LEDGER_FULL);
    trial.ledger.room = RECORDS;
    run_trial(&trial, 100);
    check_dates(&trial, CHAIN, 1, 1, 2);
}

/* A reset after every number of steps: the number goes on, and the records stay. */
static void check_reset(void)
{
    struct trial trial;

    check_case("a reset, and RUN again");
    for (uint32_t steps = 0; steps <= ALL; steps++) {
        begin_trial(&trial);
        run_trial(&trial, steps);
        core_write(&trial.core, CONTROL, RUN | RESET);
        core_write(&trial.core, CONTROL, RUN | RESET);
        start_chain(&trial);
        run_trial(&trial, 100);
        check_dates(&trial, made_after(steps) + CHAIN, made_after(steps), 1, 2);
        check("from the first on", record_at(trial.ledger, made_after(steps)).descriptor,
              FIRST);
    }
}

/* The largest number dates all that follow, though RUN rises again. */
static void check_largest(void)
{
    struct trial trial;

    check_case("the largest number");
    begin_trial(&trial);
    set_run_number(&trial, UINT32_MAX - 1);
    run_trial(&trial, IN_FETCH);
    off_and_on(&trial);
    run_trial(&trial, 3);
    off_and_on(&trial);
    run_trial(&trial, 100);
    check_dates(&trial, CHAIN, 1, UINT32_MAX - 1, UINT32_MAX);
}

/* An image that tells run 0, as one does that comes from edition 1 while it runs:
   its records are of run 0 until RUN rises. */
static void check_run_0(void)
{
    struct trial trial;

    check_case("run 0");
    for (uint32_t steps = 0; steps < ALL; steps++) {
        begin_trial(&trial);
        set_run_number(&trial, 0);
        run_trial(&trial, steps);
        check_dates(&trial, made_after(steps), made_after(steps), 0, 0);
        off_and_on(&trial);
        run_trial(&trial, 100);
        check_dates(&trial, CHAIN, made_after(steps), 0, 1);
    }
}

void test_dates(void)
{
    check_two_runs();
    check_off_and_on();
    check_cleared();
    check_waited();
    check_reset();
    check_largest();
    check_run_0();
}
