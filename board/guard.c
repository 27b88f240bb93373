/*
 * Looks after the firmware, by a thread of its own and not by a signal handler: the
 * firmware may be anywhere when it must be stopped, in the midst of printing too, where
 * a handler could write no file. The thread stops the board by the same calls as
 * everyone else. It does so only where the firmware is outside of the board's code, and
 * holds it out from then on; inside, the firmware finds at its next tick that it is to
 * stop, and does so itself. The signals stay blocked: one that comes when the end has
 * begun, as a second one does, changes nothing, so that the files are written whole.
 */
#define _DEFAULT_SOURCE /* for sigtimedwait, and mutexes that their holder may take again */

#include "parts.h"

#include <pthread.h>
#include <signal.h>
#include <stdio.h>
#include <stdlib.h>
#include <time.h>

enum { SECONDS = 10, NANOSECONDS = 1000000000, NANOSECONDS_TO_A_LOOK = NANOSECONDS / 4 };

static struct {
    bool on;
    pthread_t thread;
    pthread_mutex_t inside; /* held by who is in the board's code */
    sigset_t heeded;
    unsigned long seconds; /* without a tick, after which the board stops; 0: never */
} guard;

/* Written by one thread and read by the other, without the mutex. */
static volatile sig_atomic_t asked; /* the signal that asks for an end; 0: none does */
static volatile sig_atomic_t over;  /* nobody is to be looked after any longer */

/* The ticks at the last look, and the processor's time at which they were first seen. */
struct seen {
    uint32_t ticks;
    uint64_t since;
};

void board_enter(void)
{
    if (guard.on)
        pthread_mutex_lock(&guard.inside);
}

void board_leave(void)
{
    if (guard.on)
        pthread_mutex_unlock(&guard.inside);
}

static const char *end_asked(char *refusal, size_t room)
{
    snprintf(refusal, room, BOARD_INTERRUPTED, asked == SIGINT ? "SIGINT" : "SIGTERM");
    return refusal;
}

void board_heed(void)
{
    char refusal[128];

    if (asked)
        board_stop(end_asked(refusal, sizeof refusal));
}

/* Of the program, so that one that a debugger holds, or that waits for input, spends none. */
static uint64_t processor_time(void)
{
    struct timespec spent;

    clock_gettime(CLOCK_PROCESS_CPUTIME_ID, &spent);
    return (uint64_t)spent.tv_sec * NANOSECONDS + (uint64_t)spent.tv_nsec;
}

/* Whether no tick has passed for so long. */
static bool is_silent(struct seen *seen)
{
    uint64_t now = processor_time();

    if (seen->ticks != board_state.ticks) {
        seen->ticks = board_state.ticks;
        seen->since = now;
    }
    return guard.seconds && (now - seen->since) / NANOSECONDS >= guard.seconds;
}

/* Looks where the firmware is outside of the board's code, and else not at all. */
static void look(struct seen *seen)
{
    char refusal[128];

    if (pthread_mutex_trylock(&guard.inside))
        return;
    if (asked)
        board_stop_behind(end_asked(refusal, sizeof refusal));
    if (is_silent(seen)) {
        snprintf(refusal, sizeof refusal, BOARD_SILENT, guard.seconds);
        board_stop_behind(refusal);
    }
    pthread_mutex_unlock(&guard.inside);
}

static void *look_after(void *begun)
{
    static const struct timespec WAIT = {0, NANOSECONDS_TO_A_LOOK};
    struct seen seen = *(const struct seen *)begun;

    while (!over) {
        int signal = sigtimedwait(&guard.heeded, NULL, &WAIT);

        if (signal == SIGINT || signal == SIGTERM)
            asked = signal;
        look(&seen);
    }
    return NULL;
}

/* A signal that the program was started to ignore is ignored. */
static void heed(int signal)
{
    struct sigaction action;

    if (!sigaction(signal, NULL, &action) && action.sa_handler != SIG_IGN)
        sigaddset(&guard.heeded, signal);
}

static unsigned long seconds_wished(void)
{
    const char *wish = getenv("BOARD_SECONDS");
    char *end = NULL;
    unsigned long seconds = wish ? strtoul(wish, &end, 10) : 0;

    return end && end != wish && !*end ? seconds : SECONDS;
}

static void make_mutex(void)
{
    pthread_mutexattr_t again;

    pthread_mutexattr_init(&again);
    pthread_mutexattr_settype(&again, PTHREAD_MUTEX_RECURSIVE);
    pthread_mutex_init(&guard.inside, &again);
    pthread_mutexattr_destroy(&again);
}

void board_guard(void)
{
    static struct seen begun;

    asked = over = 0;
    begun.ticks = board_state.ticks;
    begun.since = processor_time();
    guard.seconds = seconds_wished();
    sigemptyset(&guard.heeded);
    heed(SIGINT);
    heed(SIGTERM);
    sigaddset(&guard.heeded, SIGUSR1); /* by which the thread is told to look up */
    make_mutex();
    pthread_sigmask(SIG_BLOCK, &guard.heeded, NULL);
    guard.on = true;
    if (!pthread_create(&guard.thread, NULL, look_after, &begun))
        return;
    pthread_sigmask(SIG_UNBLOCK, &guard.heeded, NULL);
    guard.on = false; /* no thread can be made: nobody is looked after */
}

void board_unguard(void)
{
    if (!guard.on || pthread_equal(guard.thread, pthread_self()))
        return;
    over = 1;
    pthread_kill(guard.thread, SIGUSR1);
    pthread_join(guard.thread, NULL);
    guard.on = false;
}
