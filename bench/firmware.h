/*
 * What the bench firmware does with a core: it lays a chain of descriptors, lets
 * the core fill their places from a stream of samples, keeps the ledger of what
 * was done, and serves the interrupt line.
 */
#ifndef FIRMWARE_H
#define FIRMWARE_H

#include "core.h"

enum {
    BASE = 0x1000,
    MEMORY = 512,
    CHAIN = BASE,           /* the first descriptor */
    LANDING = BASE + 0x100, /* where its samples land */
    DESCRIPTORS = 4,
    PACKET = 16, /* the bytes that a descriptor asks for */
    SAMPLES = DESCRIPTORS * PACKET,
    SLICE = 20 /* the steps between two looks at the line */
};

/*
 * A sample is one byte: its stream in the upper two bits and its number in the
 * lower six. A scene has at most 64 samples, so each byte of memory alone tells
 * whether it came from this stream, and as which sample.
 */
enum stream_name { OLD_STREAM = 1, THIS_STREAM = 2 };

uint8_t sample(enum stream_name stream, size_t number);

/* The firmware with its core, its memory, its ledger and the stream it is given. */
struct firmware {
    struct core core;
    uint8_t memory[MEMORY];
    uint8_t records[SGDMA_RECORD_SIZE * DESCRIPTORS];
    struct ledger ledger; /* those of them that are lent, and how many are used */
    uint8_t beats[SGDMA_BEAT_SIZE * SAMPLES];
    struct stream in; /* the beats not taken yet */
    uint32_t taken;   /* beats, in all runs so far */
    uint32_t control; /* what the control register is to hold */
};

/* What was seen at the end of a slice. */
struct slice {
    struct ran ran;
    bool line;
    uint32_t status; /* as read, where the line was up */
};

/*
 * Creates the core and lays its memory: old samples wherever samples may land,
 * and the chain. The stream is that of all samples; the ledger is empty, and all
 * of it is lent.
 */
void firmware_begin(struct firmware *firmware, uint32_t control);

/* The descriptor at this place of the chain asks for a packet that lands there. */
void firmware_build(struct firmware *firmware, size_t place, uint32_t landing);

/* How many descriptors of the chain are done. */
size_t firmware_done(const struct firmware *firmware);

/* Points the core to the chain and sets RUN. */
void firmware_start(struct firmware *firmware);

/* Runs a slice, and keeps what the next one is to be lent. */
struct ran firmware_run(struct firmware *firmware);

/* Reads status, and clears the bits that were read and what is pending. */
uint32_t firmware_acknowledge(struct firmware *firmware);

/* Runs a slice, and where the line is up then, acknowledges. */
struct slice firmware_slice(struct firmware *firmware);

/* Lends all of the ledger from now on; the room that is new, in records. */
size_t firmware_lend_all(struct firmware *firmware);

#endif
