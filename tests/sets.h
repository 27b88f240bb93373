/*
 * Calls made with every set of their errors at once: the first error in the order
 * of refusals is told, and no lent byte has changed.
 *
 * The file that includes this has defined before
 *
 *   struct lent     everything that its calls can be given
 *   lent_prepare    what a call with no error is given, with an answer of so many
 *                   bytes where the call has one
 */
#ifndef SETS_H
#define SETS_H

#include <string.h>

#include "check.h"

/* An error, and the number that must be returned where it is the first. */
struct error {
    void (*make)(struct lent *);
    uint32_t number;
};

/* A call, with its errors in the order in which they are refused. */
struct call {
    const char *name;
    uint32_t (*make)(struct lent *);
    size_t answer_len;
    struct error errors[12]; /* the last is none */
};

/* Makes those errors whose bits are set; the number that must be returned. */
static uint32_t make_errors(struct lent *l, const struct error *errors, unsigned set)
{
    uint32_t number = SGDMA_DONE;

    for (size_t i = 0; errors[i].make; i++) {
        if (!(set >> i & 1))
            continue;
        errors[i].make(l);
        if (number == SGDMA_DONE)
            number = errors[i].number;
    }
    return number;
}

static void check_set(const struct call *call, unsigned set)
{
    struct lent l, before;
    uint32_t number;

    lent_prepare(&l, call->answer_len);
    number = make_errors(&l, call->errors, set);
    memcpy(&before, &l, sizeof before);
    check("returned", call->make(&l), number);
    if (number != SGDMA_DONE)
        check_bytes("lent bytes", (const uint8_t *)&l, (const uint8_t *)&before,
                    sizeof before);
}

static void check_sets(const struct call *calls, size_t count)
{
    for (size_t c = 0; c < count; c++) {
        size_t errors = 0;

        while (calls[c].errors[errors].make)
            errors++;
        check_case(calls[c].name);
        for (unsigned set = 0; set < 1u << errors; set++)
            check_set(&calls[c], set);
    }
}

#endif
