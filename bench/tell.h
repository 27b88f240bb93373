/*
 * What a core, a timer, a ledger, a check and a mend tell, in words, on the screen.
 */
#ifndef TELL_H
#define TELL_H

#include "core.h"

/* Why a run stopped. */
const char *reason_name(uint32_t reason);

/* A status as it was read, in number and names: of a core, and of a timer. */
void show_status(uint32_t status);
void show_timer_status(uint32_t status);

/* A refusal; where it is that of an image, with the field in words. */
void show_refused(uint32_t number);

/* The code and address of a fault, where there is one, and what was met there. */
void show_fault(struct fault fault);

/* What a check tells of a chain: that it is sound, or where and why it is not. */
void show_checked(const struct checked *checked);

/* What a mend has changed, or that it has changed nothing. */
void show_mended(const struct mended *mended);

/* The heading of a ledger and the row of a record, each without the line's end; and how
   wide the column of the run is, which its largest run tells. */
int run_width(struct ledger ledger);
void show_ledger_heading(int run_width);
void show_record(size_t number, const struct record *record, int run_width);

/* A row for each record used; and with the sum of their bytes beside the beats taken. */
void show_records(struct ledger ledger);
void show_ledger(struct ledger ledger, uint32_t taken);

#endif
