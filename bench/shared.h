/*
 * The scene of two cores and a timer that share one interrupt controller.
 */
#ifndef SHARED_H
#define SHARED_H

#include <stdbool.h>
#include <stddef.h>
#include <stdint.h>

/* Plays it under this number, with these enables; whether it is as it must be. */
bool play_shared(size_t number, uint32_t enables);

#endif
