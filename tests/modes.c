/*
 * Two chains worked out by hand: three descriptors that copy from memory to memory,
 * one of them onto itself, and three that send memory to the stream. Both with
 * STOP_DMA_ER, which does nothing where no beat is taken.
 */
#include <string.h>

#include "check.h"
#include "trial.h"

enum {
    ROOM = 9, /* beats of output: one more than come out */
    BEATS_OUT = 8,
    OWNED = SGDMA_DESC_OWNED_BY_HW,
    SOP = SGDMA_DESC_WRITE_FIXED_ADDRESS, /* in mode 1 */
    EOP = SGDMA_DESC_GENERATE_EOP
};

/* A chain of three, in the order in which it is walked; what stands at LANDING
   before it and after it; and what it costs. */
struct chain {
    const char *name;
    uint32_t mode;
    uint32_t seats[CHAIN + 1];
    struct descriptor descriptors[CHAIN];
    const char *before, *after;
    uint32_t steps;
    uint32_t made;
    uint32_t beats[BEATS_OUT];
};

static const struct chain CHAINS[] = {
    /* ABC goes on over itself; then the last C, where I was, twice; then A, B and C
       to one place */
    {"memory to memory", SGDMA_MODE_MEMORY_TO_MEMORY, {FIRST, SECOND, THIRD, END},
     {{.source = LANDING, .destination = LANDING + 3, .length = 6, .control = OWNED},
      {.source = LANDING + 8, .destination = LANDING + 12, .length = 2,
       .control = OWNED | SGDMA_DESC_READ_FIXED_ADDRESS},
      {.source = LANDING, .destination = LANDING + 15, .length = 3,
       .control = OWNED | SGDMA_DESC_WRITE_FIXED_ADDRESS}},
     "ABCDEFGHI.......", "ABCABCABC...CC.C", 19, 0, {0}},
    /* a packet, an end without a beginning, and a beginning without an end */
    {"memory to stream", SGDMA_MODE_MEMORY_TO_STREAM, {FIRST, THIRD, SECOND, END},
     {{.source = LANDING, .length = 5, .control = OWNED | SOP | EOP},
      {.source = LANDING + 5, .length = 1, .control = OWNED | EOP},
      {.source = LANDING + 6, .length = 2,
       .control = OWNED | SOP | SGDMA_DESC_READ_FIXED_ADDRESS}},
     "hello!-.........", "hello!-.........", 16, BEATS_OUT,
     {0x268, 0x65, 0x6C, 0x6C, 0x16F, 0x121, 0x22D, 0x2D}},
};

/* The descriptors in memory and the bytes at LANDING, and the core started. */
static void begin_chain(const struct chain *chain, struct core *core, uint8_t *memory)
{
    struct descriptor d;

    memset(memory, 0, LENGTH);
    core_create(core, chain->mode, BASE, memory, LENGTH);
    for (size_t i = 0; i < CHAIN; i++) {
        d = chain->descriptors[i];
        d.next = chain->seats[i + 1];
        core_build(core, chain->seats[i], &d);
    }
    memcpy(core_byte(core, LANDING), chain->before, strlen(chain->before));
    core_write(core, POINTER, FIRST);
    core_write(core, CONTROL, RUN | SGDMA_CONTROL_STOP_DMA_ER);
}

/* Of the window the bytes at LANDING and the last four of each descriptor. */
static void check_window(const struct chain *chain, const uint8_t *before,
                         const uint8_t *memory)
{
    uint8_t wanted[LENGTH];
    size_t four;

    memcpy(wanted, before, LENGTH);
    memcpy(wanted + LANDING - BASE, chain->after, strlen(chain->after));
    for (size_t i = 0; i < CHAIN; i++) {
        four = chain->seats[i] - BASE + 28;
        wanted[four] = (uint8_t)chain->descriptors[i].length;
        wanted[four + 3] = (uint8_t)(chain->descriptors[i].control & ~OWNED);
    }
    check_bytes("window", memory, wanted, LENGTH);
}

static void check_records(const struct chain *chain, struct ledger ledger)
{
    struct record record;

    for (size_t i = 0; i < CHAIN; i++) {
        record = record_at(ledger, i);
        check("run", record.run, 1);
        check("descriptor", record.descriptor, chain->seats[i]);
        check("actual", record.actual, chain->descriptors[i].length);
        check("status", record.status, 0);
        check("EOP", record.eop, false);
    }
}

static void check_to_its_end(const struct chain *chain)
{
    uint8_t memory[LENGTH], before[LENGTH];
    uint8_t made[SGDMA_BEAT_SIZE * ROOM] = {0}, records[SGDMA_RECORD_SIZE * CHAIN];
    const struct stream none = {NULL, 0}, out = {made, ROOM};
    struct ledger ledger = {records, CHAIN, 0};
    struct core core;
    struct ran ran;

    check_case(chain->name);
    begin_chain(chain, &core, memory);
    memcpy(before, memory, LENGTH);
    ran = core_run(&core, none, out, ledger, UINT32_MAX);
    check("reason", ran.reason, SGDMA_REASON_ENDED);
    check("steps", ran.steps, chain->steps);
    check("taken", ran.taken, 0);
    check("made", ran.made, chain->made);
    check("used", ran.used, CHAIN);
    check("pointer", core_read(&core, POINTER), END);
    for (size_t i = 0; i < BEATS_OUT; i++)
        check("beat", beat_at(out, i), chain->beats[i]);
    check_window(chain, before, memory);
    check_records(chain, ledger);
}

/* How many of the chain are done, and none behind one that is not. */
static uint32_t done_in_front(const struct chain *chain, const struct core *core)
{
    struct descriptor d;
    uint32_t done = 0;

    for (uint32_t i = 0; i < CHAIN; i++) {
        d = core_descriptor(core, chain->seats[i]);
        if (!is_done(&d))
            continue;
        check("done before it", done, i);
        check("actual", d.actual, chain->descriptors[i].length);
        done++;
    }
    return done;
}

/* After so many steps those are done whose bytes and 2 more have been taken. */
static void check_after(const struct chain *chain, uint32_t steps)
{
    uint8_t memory[LENGTH], made[SGDMA_BEAT_SIZE * ROOM];
    uint8_t records[SGDMA_RECORD_SIZE * CHAIN];
    const struct stream none = {NULL, 0}, out = {made, ROOM};
    const struct ledger ledger = {records, CHAIN, 0};
    struct core core;
    uint32_t done = 0, due = 1;

    begin_chain(chain, &core, memory);
    check("steps", core_run(&core, none, out, ledger, steps).steps, steps);
    for (size_t i = 0; i < CHAIN; i++) {
        due += chain->descriptors[i].length + UINT32_C(2);
        done += due <= steps;
    }
    check("done", done_in_front(chain, &core), done);
}

void test_modes(void)
{
    for (size_t c = 0; c < COUNT(CHAINS); c++) {
        check_to_its_end(&CHAINS[c]);
        for (uint32_t steps = 0; steps <= CHAINS[c].steps; steps++)
            check_after(&CHAINS[c], steps);
    }
}
