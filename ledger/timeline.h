/* A long ledger as a picture. */
#ifndef TIMELINE_H
#define TIMELINE_H

#include <stdio.h>

#include "judged.h"

/*
 * Writes an SVG picture: a row for each run, in which each record is a box as wide as its
 * bytes; boxes with errors, with EOP and of marked records stand out.
 */
void write_timeline(FILE *file, struct ledger ledger, const enum verdict *verdicts);

#endif
