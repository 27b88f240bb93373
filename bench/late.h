/*
 * The scene of a descriptor that is rewritten late: while the core holds it.
 */
#ifndef LATE_H
#define LATE_H

#include <stdbool.h>
#include <stddef.h>
#include <stdint.h>

/* Plays it under this number, with these enables; whether it is as it must be. */
bool play_late(size_t number, uint32_t enables);

#endif
