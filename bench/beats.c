#include "beats.h"

#include <inttypes.h>
#include <stdio.h>

#include "tell.h"

/* The number stands under the sum of the ledger. */
static void show_rest(uint32_t beats, const char *where)
{
    if (beats)
        printf("%34" PRIu32 "  %s\n", beats, where);
}

void show_beats(struct ledger ledger, const struct core *core, uint32_t taken)
{
    uint32_t in_hand = core_in_hand(core);

    show_ledger(ledger, taken);
    show_rest(in_hand, "in hand");
    show_rest(taken - ledger_bytes(ledger) - in_hand, "abandoned");
}
