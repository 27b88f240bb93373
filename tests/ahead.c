/*
 * The descriptor that is read ahead, and the run number: cases worked out by hand.
 * After two steps of a trial the first descriptor is in Move, and the second in the
 * slot.
 */
#include <string.h>

#include "check.h"
#include "trial.h"

enum {
    ELSEWHERE = 4240,
    MISALIGNED = 4130,
    OUTSIDE = 4324 /* a multiple of 4, with 28 bytes of the window from there on */
};

#define OWNED   SGDMA_DESC_OWNED_BY_HW
#define DONE    SGDMA_STATUS_DESCRIPTOR_COMPLETED
#define ENDED   (SGDMA_STATUS_CHAIN_COMPLETED | SGDMA_STATUS_BUSY)

/* Goes on to where no step can be taken, and compares what was told. */
static void check_goes_on(struct trial *trial, uint32_t reason, uint32_t steps,
                          uint32_t used, uint32_t status)
{
    struct ran ran = run_trial(trial, 100);

    check("reason", ran.reason, reason);
    check("steps", ran.steps, steps);
    check("records used", ran.used, used);
    check("status", core_read(&trial->core, SGDMA_REGISTER_STATUS), status);
}

static void check_byte(const struct trial *trial, uint32_t address, uint32_t wanted)
{
    check("byte", *core_byte(&trial->core, address), wanted);
}

/* What the image has in its slot, and where from; the bytes are in memory now. */
static void check_slot(const struct trial *trial, uint32_t kind, uint32_t address)
{
    static const uint8_t zeros[SGDMA_DESCRIPTOR_SIZE];
    const uint8_t *image = trial->core.image;
    const uint8_t *bytes = kind == SGDMA_SLOT_DESCRIPTOR
                               ? core_byte(&trial->core, address) : zeros;

    check("slot kind", image[SGDMA_IMAGE_SLOT_AT],
          kind << SGDMA_IMAGE_SLOT_KIND_SHIFT);
    check("slot address", number_at(image + SGDMA_IMAGE_SLOT_ADDRESS_AT, 4), address);
    check_bytes("slot bytes", image + SGDMA_IMAGE_SLOT_BYTES_AT, bytes, sizeof zeros);
}

/* The places themselves: 2 bits of kind and 6 zeros in byte 44, and so on. */
static void check_places(void)
{
    struct trial trial;
    const uint8_t *image = trial.core.image;

    check_case("the slot in the image");
    begin_trial(&trial);
    memset(core_byte(&trial.core, SECOND + 20), 0x5A, 4); /* reserved bytes too */
    run_trial(&trial, 1);
    check_slot(&trial, SGDMA_SLOT_EMPTY, 0);
    run_trial(&trial, 1);
    check("kind, and zeros", image[44], 0x40);
    check("address", number_at(image + 45, 4), SECOND);
    check_bytes("bytes", image + 49, trial.memory + 32, 32);
    check("run number", number_at(image + 81, 4), 1);
    check_slot(&trial, SGDMA_SLOT_DESCRIPTOR, SECOND);
    run_trial(&trial, IN_FETCH - IN_MOVE);
    check("pointer", core_read(&trial.core, POINTER), SECOND);
    check("slot kind", image[44], 0x40);
    check_goes_on(&trial, SGDMA_REASON_ENDED, ALL - IN_FETCH, 3, DONE | ENDED);
    check_slot(&trial, SGDMA_SLOT_EMPTY, 0);
}

/* The second lands elsewhere, by the word of memory; what is written there of it? */
static void check_second_lands(struct trial *trial, uint32_t steps, uint32_t landing)
{
    uint32_t other = landing == ELSEWHERE ? LANDING + 1 : ELSEWHERE;

    check_goes_on(trial, SGDMA_REASON_ENDED, steps, 3, DONE | ENDED);
    check_byte(trial, LANDING, 0x11);
    check_byte(trial, landing, 0x22);
    check_byte(trial, other, 0);
    check_byte(trial, LANDING + 2, 0x33);
}

static void rewrite_second(struct trial *trial)
{
    lay_one(trial, SECOND, ELSEWHERE, THIRD, OWNED);
}

/* Rewritten while it is in the slot: the old one runs, unless the pointer is
   written, and be it the number that is there. */
static void check_rewritten(void)
{
    struct trial trial;

    check_case("rewritten in the slot: the old one runs");
    begin_trial(&trial);
    run_trial(&trial, IN_MOVE);
    rewrite_second(&trial);
    check_second_lands(&trial, ALL - IN_MOVE, LANDING + 1);

    for (uint32_t steps = IN_MOVE; steps <= IN_FETCH; steps++) {
        check_case("rewritten, and the pointer written again: the new one");
        begin_trial(&trial);
        run_trial(&trial, steps);
        rewrite_second(&trial);
        core_write(&trial.core, POINTER, core_read(&trial.core, POINTER));
        check_slot(&trial, SGDMA_SLOT_EMPTY, 0);
        check_second_lands(&trial, ALL - steps, ELSEWHERE);
    }
    check_case("rewritten before it is read ahead: the new one");
    begin_trial(&trial);
    run_trial(&trial, IN_MOVE - 1);
    rewrite_second(&trial);
    check_second_lands(&trial, ALL - IN_MOVE + 1, ELSEWHERE);
}

/* desc_control is written back as it was in the slot. */
static void check_written_back(void)
{
    struct trial trial;

    check_case("written back as it was in the slot");
    begin_trial(&trial);
    lay_one(&trial, SECOND, LANDING + 1, THIRD, OWNED | 0x18);
    run_trial(&trial, IN_MOVE);
    lay_one(&trial, SECOND, LANDING + 1, THIRD, OWNED | 0x60);
    check_goes_on(&trial, SGDMA_REASON_ENDED, ALL - IN_MOVE, 3, DONE | ENDED);
    check_byte(&trial, SECOND + SGDMA_DESCRIPTOR_DESC_CONTROL_AT, 0x18);
}

/* Handed over too late: it ends the chain; in the next run it is met in memory. */
static void check_handed_over_late(void)
{
    struct trial trial;

    check_case("handed over while it is in the slot: the chain ends");
    begin_trial(&trial);
    lay_one(&trial, SECOND, LANDING + 1, THIRD, 0);
    run_trial(&trial, IN_MOVE);
    lay_one(&trial, SECOND, LANDING + 1, THIRD, OWNED);
    check_goes_on(&trial, SGDMA_REASON_ENDED, 3, 1, DONE | ENDED);
    check("pointer", core_read(&trial.core, POINTER), SECOND);
    core_write(&trial.core, CONTROL, 0);
    core_write(&trial.core, CONTROL, RUN);
    check_second_lands(&trial, 8, LANDING + 1);
    check("run number", core_run_number(&trial.core), 2);
}

/* The core whose first descriptor links there, in Move of it. */
static void link_badly(struct trial *trial, uint32_t next, uint32_t kind)
{
    begin_trial(trial);
    lay_one(trial, FIRST, LANDING, next, OWNED);
    check("reason", run_trial(trial, IN_MOVE).reason, SGDMA_REASON_BUDGET);
    check("no fault yet", core_fault(&trial->core).code, 0);
    check_slot(trial, kind, next);
}

/* A bad address faults at its own Fetch, and the descriptor before it is done. */
static void check_bad_address(uint32_t next, uint32_t kind, uint32_t code)
{
    struct trial trial;

    link_badly(&trial, next, kind);
    check_goes_on(&trial, SGDMA_REASON_FAULTED, 3, 1, DONE);
    check("fault", core_fault(&trial.core).code, code);
    check("fault address", core_fault(&trial.core).address, next);
    check("pointer", core_read(&trial.core, POINTER), next);
    check_byte(&trial, LANDING, 0x11);
    check_slot(&trial, SGDMA_SLOT_EMPTY, 0);
}

/* With RUN cleared after so many steps it is not met: the core rests. Pointed to a
   good one, it goes on. */
static void check_never_met(uint32_t next, uint32_t kind, uint32_t steps)
{
    struct trial trial;

    link_badly(&trial, next, kind);
    run_trial(&trial, steps - IN_MOVE);
    core_write(&trial.core, CONTROL, 0);
    check_goes_on(&trial, SGDMA_REASON_REST, steps == IN_FETCH ? 1 : IN_FETCH - steps, 1,
                  DONE);
    check("no fault", core_fault(&trial.core).code, 0);
    check_slot(&trial, SGDMA_SLOT_EMPTY, 0);
    core_write(&trial.core, POINTER, SECOND);
    core_write(&trial.core, CONTROL, RUN);
    check_second_lands(&trial, 8, LANDING + 1);
}

static void check_bad_addresses(void)
{
    static const struct {
        const char *name;
        uint32_t next, kind, code;
    } bad[] = {
        {"misaligned", MISALIGNED, SGDMA_SLOT_MISALIGNED, SGDMA_FAULT_MISALIGNED},
        {"outside", OUTSIDE, SGDMA_SLOT_OUTSIDE, SGDMA_FAULT_DESCRIPTOR_OUTSIDE},
        {"misaligned and outside", 3, SGDMA_SLOT_MISALIGNED, SGDMA_FAULT_MISALIGNED},
    };

    for (size_t i = 0; i < COUNT(bad); i++) {
        check_case(bad[i].name);
        check_bad_address(bad[i].next, bad[i].kind, bad[i].code);
        for (uint32_t steps = IN_MOVE; steps <= IN_FETCH; steps++)
            check_never_met(bad[i].next, bad[i].kind, steps);
    }
}

/* A byte lands on the control byte of the one in the slot: it reads as done, runs
   all the same, and has its record then. */
static void check_data_over(void)
{
    uint32_t its_control = SECOND + SGDMA_DESCRIPTOR_DESC_CONTROL_AT;
    struct trial trial;
    struct descriptor d;

    check_case("data over the descriptor in the slot");
    begin_trial(&trial);
    lay_one(&trial, FIRST, its_control, SECOND, OWNED);
    put_beat(trial.in, 0, 0x0018);
    check("records used", run_trial(&trial, IN_MOVE + 1).used, 0);
    d = core_descriptor(&trial.core, SECOND);
    check("reads as done", is_done(&d), true);
    check_goes_on(&trial, SGDMA_REASON_ENDED, ALL - IN_MOVE - 1, 3, DONE | ENDED);
    check_byte(&trial, LANDING + 1, 0x22);
    check_byte(&trial, its_control, 0);
    check("its record", record_at(trial.ledger, 1).descriptor, SECOND);
}

/* "An unparked descriptor that links to itself now runs twice before Ended." */
static void check_linked_to_itself(void)
{
    static const uint8_t last_four[] = {1, 0, 0, 0};
    struct trial trial;

    check_case("linked to itself");
    begin_trial(&trial);
    lay_one(&trial, FIRST, LANDING, FIRST, OWNED);
    check_goes_on(&trial, SGDMA_REASON_ENDED, 8, 2, DONE | ENDED);
    check("beats left", trial.in.beats, BEATS - 2);
    check_byte(&trial, LANDING, 0x22);
    check_bytes("last four", core_byte(&trial.core, FIRST + 28), last_four, 4);
    check("pointer", core_read(&trial.core, POINTER), FIRST);
    for (size_t i = 0; i < 2; i++)
        check("record", record_at(trial.ledger, i).descriptor, FIRST);
}

/* Emptied on entering Halted, and by a fault of a byte; Rest, Ended and the faults
   of Fetch are above. */
static void check_emptied(void)
{
    struct trial trial;

    check_case("Halted empties the slot");
    begin_trial(&trial);
    core_write(&trial.core, CONTROL, RUN | SGDMA_CONTROL_STOP_DMA_ER);
    put_beat(trial.in, 0, UINT32_C(1) << SGDMA_INPUT_ERROR_SHIFT);
    run_trial(&trial, IN_MOVE);
    check_slot(&trial, SGDMA_SLOT_DESCRIPTOR, SECOND);
    check_goes_on(&trial, SGDMA_REASON_HALTED, 2, 1, DONE | SGDMA_STATUS_ERROR);
    check_slot(&trial, SGDMA_SLOT_EMPTY, 0);

    check_case("a fault in Move empties the slot");
    begin_trial(&trial);
    lay_one(&trial, FIRST, BASE + LENGTH, SECOND, OWNED);
    run_trial(&trial, IN_MOVE);
    check_slot(&trial, SGDMA_SLOT_DESCRIPTOR, SECOND);
    check_goes_on(&trial, SGDMA_REASON_FAULTED, 1, 0, 0);
    check_slot(&trial, SGDMA_SLOT_EMPTY, 0);
}

/* RUN cleared and set again in Move: the slot stays. In Rest it is empty. */
static void check_run_again(void)
{
    struct trial trial;

    check_case("RUN cleared and set again in Move");
    begin_trial(&trial);
    run_trial(&trial, IN_MOVE);
    rewrite_second(&trial);
    core_write(&trial.core, CONTROL, 0);
    core_write(&trial.core, CONTROL, RUN);
    check("run number", core_run_number(&trial.core), 2);
    check_second_lands(&trial, ALL - IN_MOVE, LANDING + 1);

    check_case("RUN cleared, and set again in Rest");
    begin_trial(&trial);
    run_trial(&trial, IN_MOVE);
    rewrite_second(&trial);
    core_write(&trial.core, CONTROL, 0);
    check_goes_on(&trial, SGDMA_REASON_REST, 2, 1, DONE);
    core_write(&trial.core, CONTROL, RUN);
    check("run number", core_run_number(&trial.core), 2);
    check_second_lands(&trial, 8, ELSEWHERE);
}

/* A reset in Move: nothing in the slot, and the number of runs stays. */
static void check_reset(void)
{
    struct trial trial;

    check_case("reset, and RUN again");
    begin_trial(&trial);
    run_trial(&trial, IN_MOVE);
    rewrite_second(&trial);
    core_write(&trial.core, CONTROL, RESET | RUN);
    check_byte(&trial, SECOND, 0);
    check("slot kind", trial.core.image[SGDMA_IMAGE_SLOT_AT], 0x40);
    core_write(&trial.core, CONTROL, RESET | RUN);
    check_slot(&trial, SGDMA_SLOT_EMPTY, 0);
    check("run number", core_run_number(&trial.core), 1);
    check("control", core_read(&trial.core, CONTROL), 0);
    core_write(&trial.core, POINTER, FIRST);
    core_write(&trial.core, CONTROL, RUN);
    check("run number", core_run_number(&trial.core), 2);
    check_second_lands(&trial, ALL, ELSEWHERE);
}

/* "The run number rises by 1 whenever RUN goes 0 to 1, stays at its largest value
   and outlives a reset." */
static void check_run_numbers(void)
{
    static const struct {
        uint32_t control, number;
    } writes[] = {
        {RUN, 1},         {RUN, 1},         {0, 1},         {RUN, 2},
        {RUN | RESET, 2}, {RUN | RESET, 2}, {RESET, 2},     {RUN | RESET, 2},
        {RUN | RESET, 3}, {0, 3},           {SGDMA_CONTROL_PARK, 3}, {RUN, 4},
    };
    struct trial trial;

    check_case("the run number");
    begin_trial(&trial);
    core_create(&trial.core, SGDMA_MODE_STREAM_TO_MEMORY, BASE, trial.memory, LENGTH);
    check("at first", core_run_number(&trial.core), 0);
    for (size_t i = 0; i < COUNT(writes); i++) {
        core_write(&trial.core, CONTROL, writes[i].control);
        check("run number", core_run_number(&trial.core), writes[i].number);
    }
    set_run_number(&trial, UINT32_MAX - 1);
    for (int i = 0; i < 3; i++) {
        core_write(&trial.core, CONTROL, 0);
        core_write(&trial.core, CONTROL, RUN);
        check("the largest", core_run_number(&trial.core), UINT32_MAX);
    }
}

/* Saved with the slot held, after every number of steps: on other bytes the core
   goes on as it would have. */
static void check_saved(void)
{
    struct trial trial, other;
    uint8_t memory[LENGTH];

    check_case("saved with the slot held, and gone on with elsewhere");
    for (uint32_t steps = 0; steps <= ALL; steps++) {
        begin_trial(&trial);
        run_trial(&trial, steps);
        if (steps >= IN_MOVE && steps <= IN_FETCH)
            rewrite_second(&trial);
        begin_trial(&other);
        memcpy(other.core.image, trial.core.image, SGDMA_IMAGE_SIZE);
        memcpy(other.memory, trial.memory, LENGTH);
        other.in = stream_from(other.in, BEATS - trial.in.beats);
        other.ledger.used = trial.ledger.used;
        check_goes_on(&other, SGDMA_REASON_ENDED, ALL - steps, 3, DONE | ENDED);
        memcpy(memory, other.memory, LENGTH);
        check_second_lands(&trial, ALL - steps, LANDING + 1);
        check_bytes("image", other.core.image, trial.core.image, SGDMA_IMAGE_SIZE);
        check_bytes("memory", memory, trial.memory, LENGTH);
    }
}

void test_ahead(void)
{
    check_places();
    check_rewritten();
    check_written_back();
    check_handed_over_late();
    check_bad_addresses();
    check_data_over();
    check_linked_to_itself();
    check_emptied();
    check_run_again();
    check_reset();
    check_run_numbers();
    check_saved();
}
