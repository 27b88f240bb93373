/*
 * The scenes of a chain that is checked before it runs, and of one that is mended.
 */
#ifndef CHECKED_H
#define CHECKED_H

#include <stdbool.h>
#include <stddef.h>
#include <stdint.h>

/* Plays it under this number, with these enables; whether it is as it must be. */
bool play_checked(size_t number, uint32_t enables);
bool play_mended(size_t number, uint32_t enables);

#endif
