/*
 * What a ledger tells of a descriptor in a run. The records are laid byte by byte,
 * and what must come out is read off them by hand.
 */
#include <string.h>

#include "check.h"
#include "core.h"

/* Addresses and run numbers of which each byte counts. */
#define D     UINT32_C(0x01020304)
#define E     UINT32_C(0x01020305)
#define F     UINT32_C(0x81020304)
#define RUN   UINT32_C(0x0A0B0C0D)
#define NEXT  UINT32_C(0x0A0B0C0E)
#define UPPER UINT32_C(0x1A0B0C0D)

/* The bytes of a number, and of a record. */
#define TWO(n) (uint8_t)((n) >> 8), (uint8_t)(n)
#define FOUR(n) (uint8_t)((n) >> 24), (uint8_t)((n) >> 16), TWO(n)
#define LAID(run, address, actual, status, flags) \
    FOUR(run), FOUR(address), TWO(actual), (status), (flags)

/* D twice in one run, and once in the next; run and address exchanged; a record in
   which the bits that are 0 are not; what an empty place would read as; and a run of
   the largest number. */
static const uint8_t LEDGER[] = {
    LAID(RUN, D, 0x1122, 0, 0),
    LAID(RUN, E, 0x3344, 0x7F, 1),
    LAID(NEXT, D, 0x5566, 0, 0),
    LAID(D, RUN, 0x7788, 0, 0),
    LAID(RUN, D, 0x99AA, 0x41, 1),
    LAID(UPPER, F, 0xFFFF, 0x80, 0xFE),
    LAID(0, 0, 0, 0, 0),
    LAID(UINT32_MAX, D, 9, 0, 0),
};

enum { RECORDS = sizeof LEDGER / SGDMA_RECORD_SIZE };

struct asked {
    const char *name;
    uint32_t used, run, address;
    uint32_t found, actual;
};

static const struct asked ASKED[] = {
    {"the latest of two", RECORDS, RUN, D, 1, 0x99AA},
    {"the first of two, with one used", 1, RUN, D, 1, 0x1122},
    {"the first of two, before the second is used", 4, RUN, D, 1, 0x1122},
    {"the second of two, the last used", 5, RUN, D, 1, 0x99AA},
    {"another descriptor", RECORDS, RUN, E, 1, 0x3344},
    {"it is not used yet", 1, RUN, E, 0, 0},
    {"it is used", 2, RUN, E, 1, 0x3344},
    {"the next run", RECORDS, NEXT, D, 1, 0x5566},
    {"the next run, not used yet", 2, NEXT, D, 0, 0},
    {"another descriptor in the next run", RECORDS, NEXT, E, 0, 0},
    {"a run that there is not", RECORDS, RUN - 1, D, 0, 0},
    {"an address that there is not", RECORDS, RUN, D - 1, 0, 0},
    {"run and address exchanged", RECORDS, D, RUN, 1, 0x7788},
    {"the upper byte of both", RECORDS, UPPER, F, 1, 0xFFFF},
    {"the upper byte of the run", RECORDS, UPPER, D, 0, 0},
    {"the upper byte of the address", RECORDS, RUN, F, 0, 0},
    {"run 0 and address 0", RECORDS, 0, 0, 1, 0},
    {"run 0 and address 0, not used yet", RECORDS - 2, 0, 0, 0, 0},
    {"none is used", 0, RUN, D, 0, 0},
    {"the largest address", RECORDS, RUN, UINT32_MAX, 0, 0},
    {"the largest run but one", RECORDS, UINT32_MAX - 1, D, 0, 0},
};

/* Asks, over bytes that are not 0; the answer's two numbers must be these. */
static void check_asked(const uint8_t *ledger, size_t length, const struct asked *a)
{
    uint8_t answer[SGDMA_FINDING_SIZE];

    check_case(a->name);
    memset(answer, 0xEE, sizeof answer);
    check("returned", sgdma_find_record(ledger, length, a->used, a->run, a->address,
                                        answer, sizeof answer), SGDMA_DONE);
    check("found", number_at(answer + SGDMA_FINDING_FOUND_AT, 2), a->found);
    check("actual", number_at(answer + SGDMA_FINDING_ACTUAL_AT, 2), a->actual);
    check("whole", number_at(answer, 4), a->found << 16 | a->actual);
}

/* The largest run number is refused, also of a ledger that has it, or has nothing. */
static void check_last_run(void)
{
    static const uint8_t before[SGDMA_FINDING_SIZE] = {0xEE, 0xEE, 0xEE, 0xEE};
    uint8_t answer[sizeof before];

    check_case("the largest run number");
    memcpy(answer, before, sizeof answer);
    for (uint32_t used = 0; used <= RECORDS; used++)
        check("returned", sgdma_find_record(LEDGER, sizeof LEDGER, used, UINT32_MAX, D,
                                            answer, sizeof answer), SGDMA_RUN_UNKNOWN);
    check("no ledger", sgdma_find_record(NULL, 0, 0, UINT32_MAX, 0, answer,
                                         sizeof answer), SGDMA_RUN_UNKNOWN);
    check("and not one", sgdma_find_record(LEDGER, sizeof LEDGER, RECORDS + 1,
                                           UINT32_MAX, D, answer, sizeof answer),
          SGDMA_BAD_LEDGER);
    check_bytes("answer", answer, before, sizeof before);
}

/* Whole records, and as many as are used, can be asked; all else is refused. */
static void check_lengths(void)
{
    uint8_t answer[SGDMA_FINDING_SIZE];

    check_case("the length of a ledger that is asked");
    for (size_t length = 0; length <= sizeof LEDGER; length++)
        for (uint32_t used = 0; used <= RECORDS + 1; used++)
            check("returned", sgdma_find_record(LEDGER, length, used, RUN, D, answer,
                                                sizeof answer),
                  length % 12 == 0 && length / 12 >= used ? SGDMA_DONE
                                                          : SGDMA_BAD_LEDGER);
}

/* What a run leaves is found: D, written back twice under PARK. */
static void check_after_run(void)
{
    enum { BASE = 4096, LENGTH = 128, AT = BASE, TO = BASE + 64 };
    uint8_t memory[LENGTH] = {0}, records[3 * SGDMA_RECORD_SIZE];
    uint8_t beats[6] = {0x01, 0x11, 0x00, 0x22, 0x01, 0x33}; /* EOP, none, EOP */
    struct descriptor d = {
        .destination = TO, .next = AT, .length = 4, .control = SGDMA_DESC_OWNED_BY_HW};
    struct stream in = {beats, 3}, none = {NULL, 0};
    struct ledger ledger = {records, 3, 0};
    struct core core;
    uint32_t used;

    check_case("a run is asked");
    memset(records, 0xEE, sizeof records);
    core_create(&core, SGDMA_MODE_STREAM_TO_MEMORY, BASE, memory, sizeof memory);
    core_build(&core, AT, &d);
    core_write(&core, SGDMA_REGISTER_NEXT_DESCRIPTOR_POINTER, AT);
    core_write(&core, SGDMA_REGISTER_CONTROL, SGDMA_CONTROL_RUN | SGDMA_CONTROL_PARK);
    used = core_run(&core, in, none, ledger, UINT32_MAX).used;
    check("records used", used, 2);
    for (uint32_t asked = 0; asked <= used; asked++) {
        uint32_t run = record_at(ledger, 0).run;
        struct asked latest = {"of a run", asked, run, AT, asked != 0, asked};
        struct asked other = {"of no run", asked, run + 7, AT, 0, 0};

        check_asked(records, sizeof records, &latest);
        check_asked(records, sizeof records, &other);
    }
}

void test_finding(void)
{
    for (size_t i = 0; i < COUNT(ASKED); i++)
        check_asked(LEDGER, sizeof LEDGER, &ASKED[i]);
    check_last_run();
    check_lengths();
    check_after_run();
}
