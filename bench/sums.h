/*
 * The scene of three runs and a reset, in which no beat is lost: the law by which the
 * ledger is added up, after each call.
 */
#ifndef SUMS_H
#define SUMS_H

#include <stdbool.h>
#include <stddef.h>
#include <stdint.h>

/* Plays it under this number, with these enables; whether it is as it must be. */
bool play_sums(size_t number, uint32_t enables);

#endif
