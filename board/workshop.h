/* The workshop's board: what stands in system.h, with a stream of samples. */
#ifndef WORKSHOP_H
#define WORKSHOP_H

#include "board.h"

/* Its description; the first call lays the samples. */
const struct board *workshop_board(void);

#endif
