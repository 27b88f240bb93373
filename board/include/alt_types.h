/* The handbook's names of numbers by their width (figures 23-6 and 23-7). */
#ifndef ALT_TYPES_H
#define ALT_TYPES_H

#include <stdint.h>

typedef uint8_t alt_u8;
typedef uint16_t alt_u16;
typedef uint32_t alt_u32;

#endif
