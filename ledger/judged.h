/*
 * A saved ledger, held against a dump of the memory: what the descriptor of each record
 * says of it.
 */
#ifndef JUDGED_H
#define JUDGED_H

#include "core.h"
#include "file.h"

enum verdict {
    NOT_ASKED,    /* there is no dump */
    AGREES,       /* the descriptor is done, with the record's count and errors */
    LATER,        /* a later record is of the same descriptor: nothing is left of this one */
    OWNED_AGAIN,  /* the descriptor is owned, as one that was handed over anew or parked */
    CONTRADICTED, /* it is done, with another count or other errors */
    OUTSIDE       /* the dump has no descriptor there */
};

/*
 * Judges all records, the last first; verdicts has room for as many as are used. What a
 * long ledger takes is shown on a terminal.
 */
void judge(struct ledger ledger, struct dump dump, enum verdict *verdicts);

/* Whether the record is to be marked, and the verdict in a few words. */
bool is_marked(enum verdict verdict);
const char *verdict_name(enum verdict verdict);

#endif
