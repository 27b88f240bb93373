#ifndef MASKS_H
#define MASKS_H

void try_masks(void);

#endif
