/* Waiting, on the target: its own library has this function, which the handbook does
   not print. */
#ifndef PRIV_ALT_BUSY_SLEEP_H
#define PRIV_ALT_BUSY_SLEEP_H

unsigned int alt_busy_sleep(unsigned int us);

#endif
