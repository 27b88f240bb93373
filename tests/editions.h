/*
 * Moves of an image from edition to edition.
 */
#ifndef EDITIONS_H
#define EDITIONS_H

#include "sgdma.h"

/* Makes every move of an image of edition 2, and of the 44 bytes that edition 1
   has of it. `field` is the lowest that is wrong, or 0. */
void check_moves(const uint8_t *image, uint32_t field);

#endif
