#include "lent.h"

#include <string.h>

#include "check.h"

uint32_t lent_create(struct lent *l)
{
    return sgdma_create(l->image, l->image_len, l->mode, l->base, l->window_len);
}

uint32_t lent_read_register(struct lent *l)
{
    return sgdma_read_register(l->image, l->image_len, l->offset, l->answer,
                               l->answer_len);
}

uint32_t lent_write_register(struct lent *l)
{
    return sgdma_write_register(l->image, l->image_len, l->offset, 1);
}

uint32_t lent_line(struct lent *l)
{
    return sgdma_line(l->image, l->image_len, l->answer, l->answer_len);
}

uint32_t lent_run(struct lent *l)
{
    return sgdma_run(l->image, l->image_len, l->window, l->window_len, l->beats,
                     l->beats_len, l->out, l->out_len, l->ledger, l->ledger_len,
                     l->used, 9, l->answer, l->answer_len);
}

uint32_t lent_build_descriptor(struct lent *l)
{
    return sgdma_build_descriptor(l->window, l->window_len, l->base, l->address,
                                  1, 2, 3, 4, 5);
}

uint32_t lent_read_descriptor(struct lent *l)
{
    return sgdma_read_descriptor(l->window, l->window_len, l->base, l->address,
                                 l->answer, l->answer_len);
}

uint32_t lent_find_record(struct lent *l)
{
    return sgdma_find_record(l->ledger, l->ledger_len, l->used, l->run, l->address,
                             l->answer, l->answer_len);
}

uint32_t lent_check_chain(struct lent *l)
{
    return sgdma_check_chain(l->window, l->window_len, l->base, l->address, l->answer,
                             l->answer_len);
}

uint32_t lent_mend_chain(struct lent *l)
{
    return sgdma_mend_chain(l->window, l->window_len, l->base, l->address, l->answer,
                            l->answer_len);
}

static void start(struct lent *l)
{
    check("create", lent_create(l), SGDMA_DONE);
    check("build", sgdma_build_descriptor(l->window, l->window_len, LENT_BASE,
                                          LENT_BASE, 0, LENT_BASE + 64,
                                          LENT_BASE + 32, 4,
                                          SGDMA_DESC_OWNED_BY_HW), SGDMA_DONE);
    check("write", sgdma_write_register(l->image, l->image_len,
                                        SGDMA_REGISTER_NEXT_DESCRIPTOR_POINTER,
                                        LENT_BASE), SGDMA_DONE);
    check("write", sgdma_write_register(l->image, l->image_len,
                                        SGDMA_REGISTER_CONTROL,
                                        SGDMA_CONTROL_RUN), SGDMA_DONE);
}

void lent_prepare(struct lent *l, size_t answer_len)
{
    memset(l, 0, sizeof *l);
    memset(l->ledger, 0xEE, sizeof l->ledger);
    memset(l->answer, 0xEE, sizeof l->answer);
    l->image_len = SGDMA_IMAGE_SIZE;
    l->window_len = sizeof l->window;
    l->beats_len = sizeof l->beats;
    l->out_len = sizeof l->out;
    l->ledger_len = sizeof l->ledger;
    l->answer_len = answer_len;
    l->base = LENT_BASE;
    l->mode = SGDMA_MODE_STREAM_TO_MEMORY;
    l->offset = SGDMA_REGISTER_CONTROL;
    l->address = LENT_BASE;
    l->used = 1;
    start(l);
}

void check_lent(lent_call *call, struct lent *l, uint32_t refusal, uint32_t field)
{
    struct lent before;
    uint32_t returned;

    memcpy(&before, l, sizeof before);
    returned = call(l);
    check("returned", returned, refusal + 256 * field);
    check("refusal", SGDMA_REFUSAL(returned), refusal);
    check("field", SGDMA_FIELD(returned), field);
    if (refusal != SGDMA_DONE)
        check_bytes("lent bytes", (const uint8_t *)l, (const uint8_t *)&before,
                    sizeof before);
}
