/*
 * A core as firmware holds it: its image, the memory it lends, and the calls on
 * them, with numbers in place of bytes.
 *
 * Every call made here must be done. A refusal is an error of the program that
 * makes the call: it is told, and the program ends.
 */
#ifndef CORE_H
#define CORE_H

#include <stdbool.h>
#include <stddef.h>
#include <stdint.h>

#include "sgdma.h"

struct core {
    uint8_t image[SGDMA_IMAGE_SIZE];
    uint8_t *memory; /* the window; it belongs to whoever made the core */
    size_t length;
    uint32_t base;
};

/* Every named field of a descriptor. */
struct descriptor {
    uint32_t source;
    uint32_t destination;
    uint32_t next;
    uint16_t length;
    uint16_t actual;
    uint8_t status;
    uint8_t control;
};

/* A stream of beats, in or out: two bytes each. */
struct stream {
    uint8_t *bytes;
    size_t beats;
};

/* A ledger, and how much of it is used. */
struct ledger {
    uint8_t *bytes;
    size_t room;   /* how many records it holds, the used ones among them */
    uint32_t used; /* what the last run reported; the next one is told it */
};

/* A record of a ledger: what was written back. */
struct record {
    uint32_t run;
    uint32_t descriptor; /* its address */
    uint16_t actual;
    uint8_t status;
    bool eop;
};

/* What a run reports. */
struct ran {
    uint32_t reason;
    uint32_t steps;
    uint32_t taken;
    uint32_t made;
    uint32_t used; /* records of the ledger */
};

struct fault {
    uint32_t code; /* 0 where there is none */
    uint32_t address;
};

/* What the core has read ahead. */
struct slot {
    uint32_t kind;
    uint32_t address; /* 0 where it is empty */
};

/* What a check tells of a chain. */
struct checked {
    uint32_t verdict;
    uint32_t position; /* of what is wrong; where it is sound, how many are owned */
    uint32_t address;  /* of what is wrong, or of the end */
};

/* What a mend tells: the descriptor that was changed, and its control byte. */
struct mended {
    bool any; /* false where the chain was sound, and the others are 0 */
    uint32_t address;
    uint8_t old, new;
};

/* What is done where a call was refused: it tells the call and ends the program. One
   that is put in its place must not return either. */
extern void (*at_refusal)(const char *call, uint32_t number);

/* Where the number is a refusal, does what is done then. */
void must_be_done(const char *call, uint32_t number);

/* The value that a call has written, which must have been done. */
uint32_t value_of(const char *call, uint32_t number,
                  const uint8_t value[SGDMA_VALUE_SIZE]);

/* A number of `size` bytes, the most significant first. */
uint32_t number_at(const uint8_t *bytes, size_t size);

/* Beat `place` of a stream. */
uint32_t beat_at(struct stream stream, size_t place);
void put_beat(struct stream stream, size_t place, uint32_t beat);

/* What is left of a stream after its first beats. */
struct stream stream_from(struct stream stream, size_t beats);

/* Record `place` of a ledger, and the bytes of all that are used. */
struct record record_at(struct ledger ledger, size_t place);
uint32_t ledger_bytes(struct ledger ledger);

void core_create(struct core *core, uint32_t mode, uint32_t base,
                 uint8_t *memory, size_t length);
uint32_t core_read(const struct core *core, uint32_t offset);
void core_write(struct core *core, uint32_t offset, uint32_t value);
bool core_line(const struct core *core);
struct ran core_run(struct core *core, struct stream in, struct stream out,
                    struct ledger ledger, uint32_t budget);
struct fault core_fault(const struct core *core);
struct slot core_slot(const struct core *core);

/* How often RUN has gone from 0 to 1; and the bytes moved of the descriptor in
   hand, 0 where there is none. */
uint32_t core_run_number(const struct core *core);
uint32_t core_in_hand(const struct core *core);

/*
 * Looks whether the image is good, and nothing else: SGDMA_DONE, or the refusal
 * with its field. The one call that may be refused here.
 */
uint32_t core_look(const struct core *core);

/* The builder takes what firmware sets; actual and status become 0. */
void core_build(struct core *core, uint32_t address, const struct descriptor *d);
struct descriptor core_descriptor(const struct core *core, uint32_t address);
bool is_done(const struct descriptor *d);

/* Checks the chain at a pointer, in a slice at a base; and in the core's memory. */
struct checked check_chain(const uint8_t *window, size_t length, uint32_t base,
                           uint32_t pointer);
struct checked core_check(const struct core *core, uint32_t pointer);

/* Mends the chain at a pointer, in a slice at a base: SGDMA_DONE, or the refusal. It
   is no error to ask where there is nothing to keep. */
uint32_t mend_chain(uint8_t *window, size_t length, uint32_t base, uint32_t pointer,
                    struct mended *mended);

/* The byte of memory at a bus address of the window. */
uint8_t *core_byte(const struct core *core, uint32_t address);

#endif
