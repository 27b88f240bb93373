/*
 * Chains that are laid byte by byte in one large window.
 */
#ifndef LAID_H
#define LAID_H

#include "core.h"

enum {
    SIZE = 32,    /* of a descriptor */
    NEXT = 16,    /* where its link stands */
    CONTROL = 31, /* and its control byte */
    OWNED = 0x80,
    MOST = 65536, /* bytes of a window */
    FILL = 0xA5   /* what is written over */
};

extern uint8_t window[MOST + 1];

/* A descriptor: what it leads to, and its control byte. */
struct link {
    uint32_t at, next;
    uint8_t control;
};

/*
 * A window of 160 bytes, 0x1000 to 0x10A0. A leads to B, B to C, and C to the end D,
 * which is not owned.
 */
enum { LENGTH = 160 };
#define BASE UINT32_C(0x1000)
#define A    UINT32_C(0x1000)
#define B    UINT32_C(0x1040)
#define C    UINT32_C(0x1020)
#define D    UINT32_C(0x1080)

extern const struct link CHAIN[4];

void put_link(uint32_t base, const struct link *link);

/* Lays these four, over bytes that are all `other`. */
void lay_chain(uint8_t other);

/* Descriptors side by side from the base on, so many of them owned, over zeros; the
   last of these leads to `next`. */
void lay_row(uint32_t base, uint32_t owned, uint32_t next);

/* A core over a window of zeros with these four in it, each of one byte. */
void build_chain(struct core *core, const struct link links[4]);

/* Starts the core at A, with a beat and room for a record for each of the four. */
struct ran run_chain(struct core *core);

#endif
