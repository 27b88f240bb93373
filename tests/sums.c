/*
 * The sum law: every beat that was taken since the core was created is in the ledger,
 * in hand, or abandoned by a reset or by fault 14. Cases worked out by hand.
 */
#include "check.h"
#include "trial.h"

enum { INSIDE = 2, LONG = 3 }; /* of a packet of 3 bytes 2 land in the window */

static void check_sum(const struct trial *trial, uint32_t abandoned)
{
    check("ledger, in hand and abandoned",
          ledger_bytes(trial->ledger) + core_in_hand(&trial->core) + abandoned,
          BEATS - trial->in.beats);
}

/* Resets the core; what it drops. */
static uint32_t reset(struct trial *trial)
{
    uint32_t in_hand = core_in_hand(&trial->core);

    core_write(&trial->core, CONTROL, RESET);
    check("in hand, armed", core_in_hand(&trial->core), in_hand);
    core_write(&trial->core, CONTROL, RESET);
    check("in hand, reset", core_in_hand(&trial->core), 0);
    return in_hand;
}

/* The chain again, its first packet now longer than what is left of the window. */
static void run_out_of_memory(struct trial *trial)
{
    struct descriptor d = {.destination = BASE + LENGTH - INSIDE, .length = LONG,
                           .control = SGDMA_DESC_OWNED_BY_HW};

    start_chain(trial);
    core_build(&trial->core, FIRST, &d);
    check("reason", run_trial(trial, 100).reason, SGDMA_REASON_FAULTED);
    check("fault", core_fault(&trial->core).code, SGDMA_FAULT_DESTINATION_OUTSIDE);
    check("in hand", core_in_hand(&trial->core), 0);
}

/* One step after the other, a reset after so many, and then a fault. */
static void check_sums(uint32_t steps)
{
    struct trial trial;
    uint32_t abandoned;

    begin_trial(&trial);
    check_sum(&trial, 0);
    for (uint32_t step = 1; step <= steps; step++) {
        run_trial(&trial, 1);
        check_sum(&trial, 0);
    }
    abandoned = reset(&trial);
    check("abandoned, in WriteBack", abandoned, steps % 3 == 0 && steps > 0);
    check_sum(&trial, abandoned);
    run_out_of_memory(&trial);
    check_sum(&trial, abandoned + INSIDE);
}

void test_sums(void)
{
    check_case("the sum law");
    for (uint32_t steps = 0; steps <= ALL; steps++)
        check_sums(steps);
}
