/*
 * The scene of a stream that stalls, and how long it does by the timer.
 */
#ifndef STALL_H
#define STALL_H

#include <stdbool.h>
#include <stddef.h>
#include <stdint.h>

/* Plays it under this number, with these enables; whether it is as it must be. */
bool play_stall(size_t number, uint32_t enables);

#endif
