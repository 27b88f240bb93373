/*
 * An interval timer as firmware holds it: its 14 bytes, and the calls on them, with
 * numbers in place of bytes. Every call made here must be done, as in core.h.
 */
#ifndef TIMER_H
#define TIMER_H

#include "core.h"

struct timer {
    uint8_t bytes[SGDMA_TIMER_SIZE];
};

/* A timer that is stopped. */
void timer_make(struct timer *timer, uint32_t period);
uint32_t timer_read(const struct timer *timer, uint32_t offset);
void timer_write(struct timer *timer, uint32_t offset, uint32_t value);
bool timer_line(const struct timer *timer);

/* Lets ticks pass; how many times the counter reached zero. */
uint32_t timer_run(struct timer *timer, uint32_t ticks);

/* Takes a snapshot of the counter, and reads it. */
uint32_t timer_snapshot(struct timer *timer);

/* The ticks from one snapshot to a later one. */
uint32_t timer_elapsed(const struct timer *timer, uint32_t earlier, uint32_t later);

#endif
