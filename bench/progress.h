/* How far long work is, on a terminal: one line that is rewritten. */
#ifndef PROGRESS_H
#define PROGRESS_H

#include <stdint.h>

/* Shows a count now and then, on standard error where that is a terminal. */
void show_progress(uint64_t count, const char *what);

/* Takes the line away. */
void end_progress(void);

#endif
