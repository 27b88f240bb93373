/*
 * A ledger of one record more than 32 bits can count: the record before the last
 * finds its place, and behind it there is no room. The system is asked for its 48
 * GiB, of which hardly any are touched; where it does not give them, that is told.
 */
#define _DEFAULT_SOURCE /* for MAP_ANONYMOUS and MAP_NORESERVE */

#include <stdio.h>
#include <sys/mman.h>

#include "check.h"
#include "rows.h"

static const size_t ROOM = UINT64_C(1) << 32;

ROWS_BEGIN
/* D is parked and linked to itself; eight beats fill it twice. */
static const struct given TWICE = {
    GIVEN, .d.next = ROW_D, .control = SGDMA_CONTROL_RUN | SGDMA_CONTROL_PARK,
    .beat_count = 8,
};
ROWS_END

static void check_largest(uint8_t *bytes)
{
    static const uint8_t wanted[2 * SGDMA_RECORD_SIZE] = {RECORD_OF_D(4, 0, 0)};
    struct setup setup;
    struct ran ran;

    set_up(&setup, &TWICE);
    setup.ledger = (struct ledger){bytes, ROOM, UINT32_MAX - 1};
    ran = run_on(&setup, 100);
    check("reason", ran.reason, SGDMA_REASON_LEDGER_FULL);
    /* Rest; Fetch, four in Move and WriteBack; Fetch and four in Move. */
    check("steps", ran.steps, 12);
    check("records used", ran.used, UINT32_MAX);
    ran = run_on(&setup, 100);
    check("reason again", ran.reason, SGDMA_REASON_LEDGER_FULL);
    check("no step", ran.steps, 0);
    check("records still used", ran.used, UINT32_MAX);
    check_bytes("the last two records",
                bytes + SGDMA_RECORD_SIZE * (size_t)(UINT32_MAX - 1), wanted,
                sizeof wanted);
}

void test_largest_ledger(void)
{
    size_t length = SGDMA_RECORD_SIZE * ROOM;
    uint8_t *bytes = mmap(NULL, length, PROT_READ | PROT_WRITE,
                          MAP_PRIVATE | MAP_ANONYMOUS | MAP_NORESERVE, -1, 0);

    check_case("the largest number of records");
    if (bytes == MAP_FAILED) {
        printf("tests: no 48 GiB of addresses here: 7 tests not made\n");
        return;
    }
    check_largest(bytes);
    munmap(bytes, length);
}
