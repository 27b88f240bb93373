/*
 * Everything that a call can be given, and the calls on it. A refused one must
 * leave all of it as it was.
 */
#ifndef LENT_H
#define LENT_H

#include "sgdma.h"

enum { LENT_BASE = 4096, LENT_LENGTH = 256 };

struct lent {
    uint8_t image[SGDMA_IMAGE_SIZE + 2];
    uint8_t window[LENT_LENGTH];
    uint8_t beats[8];
    uint8_t out[8];
    uint8_t ledger[3 * SGDMA_RECORD_SIZE];
    uint8_t answer[SGDMA_DESCRIPTOR_ANSWER_SIZE + 2]; /* or value, report, .. */
    size_t image_len, window_len, beats_len, out_len, ledger_len, answer_len;
    uint64_t base;
    uint32_t mode, offset, address, used, run;
};

typedef uint32_t lent_call(struct lent *);

lent_call lent_create;
lent_call lent_read_register;
lent_call lent_write_register;
lent_call lent_line;
lent_call lent_run;
lent_call lent_build_descriptor;
lent_call lent_read_descriptor;
lent_call lent_find_record;
lent_call lent_check_chain;
lent_call lent_mend_chain;

/* What a call with no error is given, over a core that has steps to take, up to
   the write-back of a descriptor. */
void lent_prepare(struct lent *l, size_t answer_len);

/* Makes the call, and sees that it returns the refusal, with the field that goes
   with it or 0, and that a refused call changes nothing. */
void check_lent(lent_call *call, struct lent *l, uint32_t refusal, uint32_t field);

#endif
