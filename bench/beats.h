/* Where the beats of a stream are that a core has taken. */
#ifndef BEATS_H
#define BEATS_H

#include "core.h"

/*
 * The ledger, which has all records since the core was created, with the sum of its
 * bytes beside the beats taken. Where that is less, a row tells how many are in hand and
 * another how many were abandoned, by a fault or a reset: no beat is anywhere else.
 */
void show_beats(struct ledger ledger, const struct core *core, uint32_t taken);

#endif
