#include "sums.h"

#include <inttypes.h>
#include <stdio.h>

#include "show.h"

/*
 * The chain runs until the third descriptor is in hand. There RUN goes off and on, so
 * that its write-back is of the second run. A reset drops the fourth. The chain is
 * handed over again, with the samples from the first on; the second packet is now to
 * land where memory ends after 8 bytes.
 */
enum { SHORT = 1, SHORT_LANDING = BASE + MEMORY - 8 };

/* Where every beat has gone that was taken since the core was created. */
struct account {
    uint32_t run;
    uint32_t ledger;    /* the bytes of all records */
    uint32_t in_hand;   /* of the descriptor in Move or WriteBack */
    uint32_t abandoned; /* by each reset, and by each fault 14 */
    uint32_t taken;
};

struct sums {
    struct firmware firmware;
    uint32_t abandoned;
};

static void write_control(struct sums *sums, uint32_t more)
{
    struct firmware *firmware = &sums->firmware;

    core_write(&firmware->core, SGDMA_REGISTER_CONTROL, firmware->control | more);
}

static void start(struct sums *sums)
{
    firmware_start(&sums->firmware);
}

/* The bytes before the one that meets the fault have landed one behind the other. */
static void run_slice(struct sums *sums)
{
    struct slice slice = firmware_slice(&sums->firmware);
    struct fault fault = core_fault(&sums->firmware.core);

    if (slice.ran.steps && fault.code == SGDMA_FAULT_DESTINATION_OUTSIDE)
        sums->abandoned += fault.address - SHORT_LANDING;
}

static void clear_run(struct sums *sums)
{
    sums->firmware.control &= ~SGDMA_CONTROL_RUN;
    write_control(sums, 0);
}

static void set_run(struct sums *sums)
{
    sums->firmware.control |= SGDMA_CONTROL_RUN;
    write_control(sums, 0);
}

static void arm(struct sums *sums)
{
    write_control(sums, SGDMA_CONTROL_SW_RESET);
}

static void reset(struct sums *sums)
{
    sums->abandoned += core_in_hand(&sums->firmware.core);
    write_control(sums, SGDMA_CONTROL_SW_RESET);
}

static void hand_over(struct sums *sums)
{
    struct firmware *firmware = &sums->firmware;

    for (size_t i = 0; i < DESCRIPTORS; i++)
        firmware_build(firmware, i,
                       i == SHORT ? SHORT_LANDING : LANDING + PACKET * (uint32_t)i);
    firmware->in = (struct stream){firmware->beats, SAMPLES};
}

/* What is done, and where the beats must be after it. */
static const struct {
    const char *name;
    void (*make)(struct sums *sums);
    struct account must;
} CALLS[] = {
    {"pointer, RUN", start, {1, 0, 0, 0, 0}},
    {"slice", run_slice, {1, 16, 0, 0, 16}},
    {"slice", run_slice, {1, 32, 2, 0, 34}},
    {"RUN cleared", clear_run, {1, 32, 2, 0, 34}},
    {"RUN set", set_run, {2, 32, 2, 0, 34}},
    {"slice", run_slice, {2, 48, 4, 0, 52}},
    {"SW_RESET", arm, {2, 48, 4, 0, 52}},
    {"SW_RESET again", reset, {2, 48, 0, 4, 52}},
    {"a new chain", hand_over, {2, 48, 0, 4, 52}},
    {"pointer, RUN", start, {3, 48, 0, 4, 52}},
    {"slice", run_slice, {3, 64, 0, 4, 68}},
    {"slice", run_slice, {3, 64, 0, 12, 76}},
};

/* The runs that the records must be of. */
static const uint32_t DATES[] = {1, 1, 2, 3};

enum {
    CALL_COUNT = sizeof CALLS / sizeof *CALLS,
    RECORD_COUNT = sizeof DATES / sizeof *DATES
};

static uint32_t sum_of(const struct account *account)
{
    return account->ledger + account->in_hand + account->abandoned;
}

static struct account account_of(const struct sums *sums)
{
    struct account account = {
        .run = core_run_number(&sums->firmware.core),
        .ledger = ledger_bytes(sums->firmware.ledger),
        .in_hand = core_in_hand(&sums->firmware.core),
        .abandoned = sums->abandoned,
        .taken = sums->firmware.taken,
    };

    return account;
}

/* What was done, the beats that it took, and the addition. */
static void show_account(const char *name, uint32_t beats, const struct account *a)
{
    printf("    %-14s  %3" PRIu32 "  %5" PRIu32 "  %6" PRIu32 " + %7" PRIu32 " + %9" PRIu32
           " = %12" PRIu32 "\n",
           name, a->run, beats, a->ledger, a->in_hand, a->abandoned, sum_of(a));
}

static void show_total(const struct account *a)
{
    printf("    in all: %" PRIu32 " in the ledger + %" PRIu32 " in hand + %" PRIu32
           " abandoned = %" PRIu32 " of %" PRIu32 " beats taken\n",
           a->ledger, a->in_hand, a->abandoned, sum_of(a), a->taken);
}

static bool account_as(const struct account *a, const struct account *must)
{
    return a->run == must->run && a->ledger == must->ledger &&
           a->in_hand == must->in_hand && a->abandoned == must->abandoned &&
           a->taken == must->taken && sum_of(a) == a->taken;
}

static bool dated_as(struct ledger ledger)
{
    bool as = ledger.used == RECORD_COUNT;

    for (size_t i = 0; as && i < RECORD_COUNT; i++)
        as = record_at(ledger, i).run == DATES[i];
    return as;
}

bool play_sums(size_t number, uint32_t enables)
{
    static struct sums sums;
    struct account account = {0};
    bool as = true;

    show_title(number, "Three runs and a reset",
               "Ledger, in hand, abandoned by reset or fault: together every beat taken.");
    printf("    after           run  beats  ledger + in hand + abandoned = beats in all\n");
    firmware_begin(&sums.firmware, enables);
    for (size_t i = 0; i < CALL_COUNT; i++) {
        uint32_t before = sums.firmware.taken;

        CALLS[i].make(&sums);
        account = account_of(&sums);
        show_account(CALLS[i].name, account.taken - before, &account);
        as = account_as(&account, &CALLS[i].must) && as;
    }
    show_fault(core_fault(&sums.firmware.core));
    printf("\n");
    show_ledger(sums.firmware.ledger, sums.firmware.taken);
    show_total(&account);
    return show_verdict(dated_as(sums.firmware.ledger) && as);
}
