/*
 * Waiting, on the board: its time passes. A loop of the firmware that neither waits so
 * nor makes an access is granted no step, and does not end by what a core does: the board
 * stops there.
 */
#ifndef PRIV_ALT_BUSY_SLEEP_H
#define PRIV_ALT_BUSY_SLEEP_H

#include <stdint.h>

/* Returns 0. */
unsigned int board_wait(uint32_t microseconds, const char *file, int line);

#define alt_busy_sleep(us) board_wait((us), __FILE__, __LINE__)

#endif
