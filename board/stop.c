#define _DEFAULT_SOURCE /* for sigaction and flockfile */

#include "parts.h"

#include <inttypes.h>
#include <signal.h>
#include <stdio.h>
#include <stdlib.h>

#define NAMED(refusal) [refusal] = #refusal

static const char *const REFUSALS[] = {
    NAMED(SGDMA_NO_REGISTER),
    NAMED(SGDMA_BAD_MODE),
    NAMED(SGDMA_BAD_WINDOW),
    NAMED(SGDMA_OTHER_WINDOW),
    NAMED(SGDMA_MISALIGNED),
    NAMED(SGDMA_OUTSIDE),
    NAMED(SGDMA_BAD_SIZE),
    NAMED(SGDMA_BAD_IMAGE),
    NAMED(SGDMA_ODD_STREAM),
    NAMED(SGDMA_SLOT_HELD),
    NAMED(SGDMA_NO_TIMER_REGISTER),
    NAMED(SGDMA_NOT_FULL_PERIOD),
    NAMED(SGDMA_RUN_UNKNOWN),
    NAMED(SGDMA_BAD_LEDGER),
    NAMED(SGDMA_NO_PORT),
    NAMED(SGDMA_ADDRESS_TOO_LARGE),
    NAMED(SGDMA_NOTHING_TO_KEEP),
};

static const char *refusal_name(uint32_t refusal)
{
    const char *name = NULL;

    if (refusal < sizeof REFUSALS / sizeof *REFUSALS)
        name = REFUSALS[refusal];
    return name ? name : "a refusal that the board does not know";
}

/* Where the firmware is: the access that it is in, or was in last, with a word before it. */
static void tell_place(const char *word)
{
    const struct board_access *access = &board_state.access;

    if (!access->file)
        fprintf(stderr, "    before the first access of the firmware\n");
    else if (access->does == BOARD_WAIT)
        fprintf(stderr, "    %s%s:%d: wait\n", word, access->file, access->line);
    else
        fprintf(stderr, "    %s%s:%d: %s at 0x%08" PRIX32 ": %s%s%s\n", word, access->file,
                access->line, access->does == BOARD_WRITE ? "write" : "read", access->address,
                access->device ? access->device : "no device",
                access->reg && *access->reg ? " " : "", access->reg ? access->reg : "");
}

/* What is written at the end of the program may be refused too: then there is no second
   end, and what the files have so far is kept. */
static void stop(const char *refusal, const char *word)
{
    static bool stopping;

    board_enter();     /* and never leaves: whoever comes later does not stop it again */
    flockfile(stdout); /* nor does firmware that goes on print over what is told now */
    fflush(stdout);
    fprintf(stderr, "board: stopped after %" PRIu32 " tick%s\n    %s\n", board_state.ticks,
            board_state.ticks == 1 ? "" : "s", refusal);
    tell_place(word);
    if (stopping) {
        fflush(NULL);
        _Exit(BOARD_STOPPED);
    }
    stopping = true;
    exit(BOARD_STOPPED);
}

void board_stop(const char *refusal)
{
    stop(refusal, "");
}

void board_stop_behind(const char *refusal)
{
    stop(refusal, "behind ");
}

void board_stop_call(const char *call, uint32_t number)
{
    char refusal[128], field[32] = "";

    if (SGDMA_FIELD(number))
        snprintf(field, sizeof field, ", field %" PRIu32, SGDMA_FIELD(number));
    snprintf(refusal, sizeof refusal, "%s: %s refused it with %" PRIu32 "%s",
             refusal_name(SGDMA_REFUSAL(number)), call, SGDMA_REFUSAL(number), field);
    board_stop(refusal);
}

/* The firmware was not in the midst of printing: so what is told can be printed. */
static void at_fault(int signal, siginfo_t *info, void *context)
{
    char refusal[128];

    (void)signal;
    (void)context;
    snprintf(refusal, sizeof refusal, "%s, at 0x%08" PRIXPTR, BOARD_NOT_MAPPED,
             (uintptr_t)info->si_addr);
    board_stop_behind(refusal);
}

void board_catch_faults(void)
{
    struct sigaction action = {0};

    action.sa_sigaction = at_fault;
    action.sa_flags = SA_SIGINFO | (int)SA_RESETHAND; /* a second one is not caught */
    sigaction(SIGSEGV, &action, NULL);
}

void board_let_faults(void)
{
    signal(SIGSEGV, SIG_DFL);
}
