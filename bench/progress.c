#define _DEFAULT_SOURCE /* for isatty and fileno */

#include "progress.h"

#include <inttypes.h>
#include <stdbool.h>
#include <stdio.h>
#include <unistd.h>

enum { OFTEN = 1 << 16, WIDTH = 40 };

static bool is_shown(void)
{
    return isatty(fileno(stderr));
}

/* The cursor is left at the line's begin, so that what is told next stands over it. */
void show_progress(uint64_t count, const char *what)
{
    if (count % OFTEN == 0 && is_shown())
        fprintf(stderr, "%10" PRIu64 " %s\r", count, what);
}

void end_progress(void)
{
    if (is_shown())
        fprintf(stderr, "%*s\r", WIDTH, "");
}
