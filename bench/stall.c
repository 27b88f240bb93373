#include "stall.h"

#include <inttypes.h>
#include <stdio.h>

#include "beats.h"
#include "show.h"
#include "timer.h"

/*
 * A tick passes with every step of the core. The timer was started long ago, so that
 * it has few ticks left to zero. The stream falls silent after some samples; the
 * firmware then looks for more from time to time, and finds some at the third look.
 */
enum { TICKS_LEFT = 500, SILENT_AFTER = 40, TICKS_TO_A_LOOK = 500, LOOKS = 3 };

/*
 * The stream falls silent after 46 steps: one out of Rest, 3 of Fetch, 40 samples and
 * 2 of WriteBack. The counter passes zero in the ticks of the stall.
 */
#define MUST_EARLIER UINT32_C(454)
#define MUST_LATER   UINT32_C(4294966250)
#define MUST_TICKS   UINT32_C(1500)

struct stall {
    struct firmware firmware;
    struct timer timer;
    size_t slices;
    uint32_t earlier, later, ticks;
};

static void begin(struct stall *stall, uint32_t enables)
{
    stall->slices = 0;
    timer_make(&stall->timer, SGDMA_TIMER_FULL_PERIOD);
    timer_write(&stall->timer, SGDMA_TIMER_REGISTER_CONTROL,
                SGDMA_TIMER_CONTROL_CONT | SGDMA_TIMER_CONTROL_START);
    timer_run(&stall->timer, SGDMA_TIMER_FULL_PERIOD - TICKS_LEFT);
    firmware_begin(&stall->firmware, enables);
    stall->firmware.in.beats = SILENT_AFTER;
    firmware_start(&stall->firmware);
}

/* Runs slices until one is not stopped by its budget; by what it is. */
static uint32_t run_slices(struct stall *stall)
{
    struct slice slice;

    do {
        slice = firmware_slice(&stall->firmware);
        timer_run(&stall->timer, slice.ran.steps);
        show_slice(++stall->slices, &slice);
    } while (slice.ran.reason == SGDMA_REASON_BUDGET);
    return slice.ran.reason;
}

/* A snapshot where the stream falls silent, and one where there are samples again. */
static void time_stall(struct stall *stall)
{
    stall->earlier = timer_snapshot(&stall->timer);
    for (size_t look = 0; look < LOOKS; look++)
        timer_run(&stall->timer, TICKS_TO_A_LOOK);
    stall->firmware.in.beats = SAMPLES - SILENT_AFTER;
    stall->later = timer_snapshot(&stall->timer);
    stall->ticks = timer_elapsed(&stall->timer, stall->earlier, stall->later);
    printf("    silent: snapshot %" PRIu32 "; samples again: snapshot %" PRIu32 "\n"
           "    the stall took %" PRIu32 " ticks\n",
           stall->earlier, stall->later, stall->ticks);
}

bool play_stall(size_t number, uint32_t enables)
{
    static struct stall stall;
    uint32_t status;
    bool as;

    show_title(number, "A stall timed with two snapshots",
               "The timer counts a tick a step, and passes zero while the stream is silent.");
    show_slice_heading();
    begin(&stall, enables);
    as = run_slices(&stall) == SGDMA_REASON_NEEDS_INPUT;
    time_stall(&stall);
    as = run_slices(&stall) == SGDMA_REASON_ENDED && as;
    printf("\n");
    show_beats(stall.firmware.ledger, &stall.firmware.core, stall.firmware.taken);
    status = timer_read(&stall.timer, SGDMA_TIMER_REGISTER_STATUS);
    as = as && stall.earlier == MUST_EARLIER && stall.later == MUST_LATER &&
         stall.ticks == MUST_TICKS &&
         status == (SGDMA_TIMER_STATUS_RUN | SGDMA_TIMER_STATUS_TO) &&
         firmware_done(&stall.firmware) == DESCRIPTORS;
    return show_verdict(as);
}
