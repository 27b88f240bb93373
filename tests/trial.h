/*
 * A core with a chain whose every step is known: three descriptors of one byte each
 * stand one after the other, and behind them one that is not owned. A core takes a
 * step to leave Rest, and for each of them a Fetch, a Move and a WriteBack; the
 * Fetch of the last one ends the chain.
 */
#ifndef TRIAL_H
#define TRIAL_H

#include "core.h"

enum {
    BASE = 4096,
    LENGTH = 256,
    CHAIN = 3, /* descriptors */
    FIRST = BASE,
    SECOND = FIRST + SGDMA_DESCRIPTOR_SIZE,
    THIRD = SECOND + SGDMA_DESCRIPTOR_SIZE,
    END = THIRD + SGDMA_DESCRIPTOR_SIZE,
    LANDING = 4224, /* of the first; the others land behind it */
    BEATS = 2 * CHAIN,
    RECORDS = 2 * CHAIN,
    IN_MOVE = 2,       /* steps to there, of the first descriptor, */
    IN_WRITE_BACK = 3, /* to there */
    IN_FETCH = 4,      /* and to the Fetch of the second */
    ALL = 11           /* steps of the whole chain */
};

#define POINTER SGDMA_REGISTER_NEXT_DESCRIPTOR_POINTER
#define CONTROL SGDMA_REGISTER_CONTROL
#define RUN     SGDMA_CONTROL_RUN
#define RESET   SGDMA_CONTROL_SW_RESET

/* A core with its memory, and what is left of its stream and its ledger. */
struct trial {
    struct core core;
    uint8_t memory[LENGTH];
    uint8_t beats[SGDMA_BEAT_SIZE * BEATS];
    uint8_t records[SGDMA_RECORD_SIZE * RECORDS];
    struct stream in;
    struct ledger ledger;
};

/* The chain, the beats 0x11, 0x22 and so on, and a core started there. */
void begin_trial(struct trial *trial);

/* A descriptor of one byte. */
void lay_one(struct trial *trial, uint32_t address, uint32_t landing, uint32_t next,
             uint32_t control);

/* Hands the whole chain over, and starts the core there. */
void start_chain(struct trial *trial);

/* Takes up to so many steps, over what those before have left. */
struct ran run_trial(struct trial *trial, uint32_t budget);

/* Another run number in the image. */
void set_run_number(struct trial *trial, uint32_t number);

#endif
