/*
 * The ledger: what a record tells, where it goes, what happens where there is no
 * room for it, and which ledgers are refused. What the known runs and the named
 * ones leave in a ledger stands in their rows.
 */
#include <string.h>

#include "check.h"
#include "rows.h"

ROWS_BEGIN
static const struct row RECORDS[] = {
    {"EOP on the last byte of a descriptor",
     {GIVEN, .beats = {0x0011, 0x0022, 0x0033, 0x0144}},
     {RUN_1, .status = 0x1E, .records = {RECORD_OF_D(4, 0, 1)}}},
    {"errors of several beats, and EOP",
     {GIVEN, .beats = {0x8011, 0x0022, 0x0333}},
     {RUN_1, .ran.steps = 7, .ran.taken = 3, .status = 0x1F,
      .last_four = {3, 0, 0x41, 0}, .landed = {0x11, 0x22, 0x33},
      .records = {RECORD_OF_D(3, 0x41, 1)}}},
};

static const struct row PARKED = {
    "a parked descriptor: a record each time",
    {GIVEN, .d.next = 4096, .control = 0x20020, .beat_count = 7,
     .beats = {0x0111, 0x0822, 0x0333, 0x0044, 0x0055, 0x0066, 0x0077}},
    {RUN_1, .ran.reason = 4, .ran.steps = 15, .ran.taken = 7, .ran.used = 3,
     .status = 0x17, .pointer = 4096, .last_four = {4, 0, 0, 0x80},
     .landed = {0x44, 0x55, 0x66, 0x77},
     .records = {RECORD_OF_D(1, 0, 1), RECORD_OF_D(2, 5, 1), RECORD_OF_D(4, 0, 0)}}};

/* Together these come through every phase, in each mode that has it. */
static const struct given EVERY_PHASE[] = {
    {GIVEN},
    {GIVEN, .beats = {0x0211}, .control = 0x60}, /* to Halted */
    {GIVEN, .pointer = 2},                       /* to Faulted */
    {GIVEN, .mode = 0, .d.source = 4200},
    {GIVEN, .mode = 0, .pointer = 2},
    {GIVEN, .mode = 1, .d.source = 4200, .room = 4},
    {GIVEN, .mode = 1, .pointer = 2},
};
ROWS_END

static const struct given KNOWN_RUN_1 = {GIVEN};
static const uint8_t ITS_RECORD[SGDMA_RECORD_SIZE] = {RECORD_OF_D(4, 0, 0)};

enum { BEFORE_BACK = 6 }; /* its steps before WriteBack: Rest, Fetch, four in Move */

/* Each byte of each field is another one. The run number is put into the image. */
static void check_layout(void)
{
    enum { BASE = 0x1A2B3C00, AT = 0x40, BEATS = 0x0506 };
    static const uint8_t wanted[] = {0x61, 0x72, 0x83, 0x94, 0x1A, 0x2B,
                                     0x3C, 0x40, 0x05, 0x06, 0x53, 0x01};
    static uint8_t beats[SGDMA_BEAT_SIZE * BEATS];
    uint8_t memory[ROW_LENGTH] = {0}, records[2 * SGDMA_RECORD_SIZE] = {0};
    struct descriptor d = {.destination = BASE, .next = BASE + 0x80, .control = 0x84};
    struct stream in = {beats, BEATS}, none = {NULL, 0};
    struct ledger ledger = {records, 2, 0};
    struct record record;
    struct core core;

    check_case("the layout of a record");
    put_beat(in, 0, 0x51 << SGDMA_INPUT_ERROR_SHIFT);
    put_beat(in, BEATS - 1, 0x12 << SGDMA_INPUT_ERROR_SHIFT | SGDMA_INPUT_EOP);
    core_create(&core, SGDMA_MODE_STREAM_TO_MEMORY, BASE, memory, sizeof memory);
    core_build(&core, BASE + AT, &d);
    core_write(&core, SGDMA_REGISTER_NEXT_DESCRIPTOR_POINTER, BASE + AT);
    core_write(&core, SGDMA_REGISTER_CONTROL, SGDMA_CONTROL_RUN);
    memcpy(core.image + SGDMA_IMAGE_RUN_NUMBER_AT, wanted, 4);
    check("records used", core_run(&core, in, none, ledger, UINT32_MAX).used, 1);
    check_bytes("record", records, wanted, sizeof wanted);
    record = record_at(ledger, 0);
    check("run", record.run, 0x61728394);
    check("descriptor", record.descriptor, BASE + AT);
    check("actual", record.actual, BEATS);
    check("status", record.status, 0x53);
    check("EOP", record.eop, true);
}

/* Compares what was reported, where no beat was taken or made. */
static void check_ran(struct ran ran, uint32_t reason, uint32_t steps, uint32_t used)
{
    check("reason", ran.reason, reason);
    check("steps", ran.steps, steps);
    check("beats", ran.taken + ran.made, 0);
    check("records used", ran.used, used);
}

static void check_same(const struct setup *setup, const struct setup *wanted)
{
    check_bytes("image", setup->core.image, wanted->core.image, SGDMA_IMAGE_SIZE);
    check_bytes("memory", setup->memory, wanted->memory, sizeof setup->memory);
    check_bytes("ledger", setup->records, wanted->records, sizeof setup->records);
}

/* Known run 1 has put its record behind so many; nothing else has changed. */
static void check_ledger_with_record(const struct setup *setup, size_t used)
{
    uint8_t wanted[sizeof setup->records];

    memset(wanted, UNMADE, sizeof wanted);
    memcpy(wanted + SGDMA_RECORD_SIZE * used, ITS_RECORD, sizeof ITS_RECORD);
    check_bytes("ledger", setup->records, wanted, sizeof wanted);
}

/* Whatever the budget is, the full ledger is the reason, and nothing changes. */
static void check_waits(struct setup *setup)
{
    static const uint32_t budgets[] = {0, 1, UINT32_MAX};
    struct setup before = *setup;

    for (size_t i = 0; i < COUNT(budgets); i++)
        check_ran(run_on(setup, budgets[i]), SGDMA_REASON_LEDGER_FULL, 0,
                  before.ledger.used);
    check_same(setup, &before);
}

/* Compares what there is to see of D's write-back, where it raises the line. */
static void check_told(const struct core *core, bool done, uint32_t status)
{
    struct descriptor d = core_descriptor(core, ROW_D);

    check("done", is_done(&d), done);
    check("status", core_read(core, SGDMA_REGISTER_STATUS), status);
    check("line", core_line(core), done);
}

/*
 * Where there is no room, D is not done and nothing tells that it is, also with
 * RUN 0. Lent room, the core goes on as if it had not waited.
 */
static void check_full(uint32_t used)
{
    uint32_t enables = SGDMA_CONTROL_IE_GLOBAL | SGDMA_CONTROL_IE_DESCRIPTOR;
    struct given given = KNOWN_RUN_1;
    struct setup setup;

    given.control |= enables;
    set_up(&setup, &given);
    setup.ledger = (struct ledger){used ? setup.records : NULL, used, used};
    check("steps before it", run_on(&setup, 100).steps, BEFORE_BACK);
    check_waits(&setup);
    core_write(&setup.core, SGDMA_REGISTER_CONTROL, enables);
    check_waits(&setup);
    check_told(&setup.core, false, SGDMA_STATUS_BUSY);

    setup.ledger = (struct ledger){setup.records, used + 1, used};
    check_ran(run_on(&setup, 0), SGDMA_REASON_BUDGET, 0, used);
    check_ran(run_on(&setup, 9), SGDMA_REASON_REST, 1, used + 1);
    check_told(&setup.core, true, SGDMA_STATUS_DESCRIPTOR_COMPLETED);
    check_ledger_with_record(&setup, used);
}

/* What stops a run whose budget ends just before WriteBack, and one step sooner. */
static void check_before_budget(void)
{
    static const struct {
        uint32_t budget;
        size_t room;
        uint32_t reason;
    } runs[] = {
        {BEFORE_BACK - 1, 0, SGDMA_REASON_BUDGET},
        {BEFORE_BACK, 0, SGDMA_REASON_LEDGER_FULL},
        {BEFORE_BACK, 1, SGDMA_REASON_BUDGET},
    };
    struct setup setup;
    struct ran ran;

    check_case("LedgerFull comes before Budget");
    for (size_t i = 0; i < COUNT(runs); i++) {
        set_up(&setup, &KNOWN_RUN_1);
        setup.ledger.room = runs[i].room;
        ran = run_on(&setup, runs[i].budget);
        check("reason", ran.reason, runs[i].reason);
        check("steps", ran.steps, runs[i].budget);
    }
}

/* Records used stay, also those that no run has made. */
static void check_places(void)
{
    struct setup setup;

    check_case("a record goes behind those used");
    for (uint32_t used = 0; used < ROW_RECORDS; used++) {
        set_up(&setup, &KNOWN_RUN_1);
        setup.ledger.used = used;
        check("records used", run_on(&setup, 100).used, used + 1);
        check_ledger_with_record(&setup, used);
    }
}

/* Two runs, of a and b steps, the number handed on, come where one of a + b comes. */
static void check_handed_on(void)
{
    uint32_t steps = PARKED.must.ran.steps;
    struct setup whole, parts;

    check_case("the number is handed on");
    set_up(&whole, &PARKED.given);
    run_on(&whole, steps);
    for (uint32_t first = 0; first <= steps; first++) {
        set_up(&parts, &PARKED.given);
        run_on(&parts, first);
        check("records used", run_on(&parts, steps - first).used,
              PARKED.must.ran.used);
        check_same(&parts, &whole);
    }
}

static uint32_t run_with(struct setup *setup, size_t ledger_len, uint32_t used)
{
    uint8_t report[SGDMA_REPORT_SIZE];

    return sgdma_run(setup->core.image, sizeof setup->core.image, setup->memory,
                     sizeof setup->memory, setup->in.bytes,
                     SGDMA_BEAT_SIZE * setup->in.beats, setup->out.bytes,
                     SGDMA_BEAT_SIZE * setup->out.beats, setup->records, ledger_len,
                     used, 9, report, sizeof report);
}

/* Whole records, and as many as are used, are a ledger; all else is refused. */
static void check_lengths(void)
{
    struct setup setup, before;

    check_case("the length of a ledger");
    for (size_t length = 0; length <= sizeof setup.records; length++)
        for (uint32_t used = 0; used <= ROW_RECORDS + 1; used++) {
            bool is = length % 12 == 0 && length / 12 >= used;

            set_up(&setup, &KNOWN_RUN_1);
            before = setup;
            check("returned", run_with(&setup, length, used),
                  is ? SGDMA_DONE : SGDMA_BAD_LEDGER);
            if (!is)
                check_same(&setup, &before);
        }
}

static void check_bad(struct setup *setup)
{
    struct setup before = *setup;

    check("part of a record", run_with(setup, SGDMA_RECORD_SIZE + 1, 0),
          SGDMA_BAD_LEDGER);
    check("fewer than are used", run_with(setup, SGDMA_RECORD_SIZE, 2),
          SGDMA_BAD_LEDGER);
    check_same(setup, &before);
}

static void check_refused_everywhere(void)
{
    enum { MODES = 3, PHASES = 7, MODES_WITHOUT_HALTED = 2 };
    static bool met[1 << 9]; /* by edition, mode and phase: the image's first 9 bits */
    size_t count = 0;
    struct setup setup;

    check_case("a bad ledger is refused in every mode and phase");
    for (size_t i = 0; i < COUNT(EVERY_PHASE); i++)
        for (uint32_t steps = 0; steps <= 8; steps++) {
            bool *here;

            set_up(&setup, &EVERY_PHASE[i]);
            run_on(&setup, steps);
            check_bad(&setup);
            here = &met[number_at(setup.core.image, 2) >> 7];
            count += !*here;
            *here = true;
        }
    check("phases met", count, MODES * PHASES - MODES_WITHOUT_HALTED);
}

/*
 * A sample that lands on the control byte of a descriptor marks it done; the ledger
 * does not tell of it. Of three, the first lands on the third: by then the second
 * is read ahead, and the third is not, so that it is met as it is marked.
 */
static void check_mark_without_record(void)
{
    enum { SECOND = 4128, THIRD = 4160, ITS_CONTROL = THIRD + 31 };
    uint8_t memory[ROW_LENGTH] = {0}, records[3 * SGDMA_RECORD_SIZE] = {0};
    uint8_t beats[3 * SGDMA_BEAT_SIZE] = {0};
    struct descriptor first = {
        .destination = ITS_CONTROL, .next = SECOND, .length = 1, .control = 0x80};
    struct descriptor second = {
        .destination = 4224, .next = THIRD, .length = 1, .control = 0x80};
    struct descriptor third = {
        .destination = 4225, .next = 4192, .length = 1, .control = 0x80};
    struct stream in = {beats, 3}, none = {NULL, 0};
    struct ledger ledger = {records, 3, 0};
    struct core core;
    struct ran ran;

    check_case("a done mark without a record");
    core_create(&core, SGDMA_MODE_STREAM_TO_MEMORY, ROW_BASE, memory, sizeof memory);
    core_build(&core, ROW_D, &first);
    core_build(&core, SECOND, &second);
    core_build(&core, THIRD, &third);
    core_write(&core, SGDMA_REGISTER_NEXT_DESCRIPTOR_POINTER, ROW_D);
    core_write(&core, SGDMA_REGISTER_CONTROL, SGDMA_CONTROL_RUN);
    ran = core_run(&core, in, none, ledger, UINT32_MAX);
    check("reason", ran.reason, SGDMA_REASON_ENDED);
    check("steps", ran.steps, 8);
    check("records used", ran.used, 2);
    check("its control", memory[ITS_CONTROL - ROW_BASE], 0);
    check("a record's descriptor", record_at(ledger, 0).descriptor, ROW_D);
    check("a record's descriptor", record_at(ledger, 1).descriptor, SECOND);
}

void test_ledger(void)
{
    for (size_t i = 0; i < COUNT(RECORDS); i++)
        check_row(&RECORDS[i]);
    check_row(&PARKED);
    check_layout();
    check_case("no ledger");
    check_full(0);
    check_case("a ledger of two records, both used");
    check_full(2);
    check_before_budget();
    check_places();
    check_handed_on();
    check_mark_without_record();
    check_lengths();
    check_refused_everywhere();
}
