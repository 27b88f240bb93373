/*
 * Refusals: each call is made with every set of its errors at once. The first of
 * them in the paper's order is returned, and no lent byte has changed.
 */
#include <stdbool.h>

#include "lent.h"
#include "sets.h"

#define BAD_EDITION (SGDMA_BAD_IMAGE + 256 * SGDMA_FIELD_EDITION)

/* The errors. They are made so that any of them can be made together. */
static void short_image(struct lent *l) { l->image_len -= 1; }
static void long_image(struct lent *l) { l->image_len += 2; }
static void short_answer(struct lent *l) { l->answer_len -= 1; }
static void long_answer(struct lent *l) { l->answer_len += 2; }
static void bad_edition(struct lent *l) { l->image[0] ^= 0x10; }
static void odd_beats(struct lent *l) { l->beats_len -= 1; }
static void odd_out(struct lent *l) { l->out_len -= 1; }
static void part_of_a_record(struct lent *l) { l->ledger_len -= 1; }
static void one_record_short(struct lent *l) { l->used = 4; }
static void most_used(struct lent *l) { l->used = UINT32_MAX; }
static void last_run(struct lent *l) { l->run = UINT32_MAX; }
static void bad_mode(struct lent *l) { l->mode += 1; }
static void bad_base(struct lent *l) { l->base += UINT64_C(1) << 32; }
static void other_window(struct lent *l) { l->window_len -= 1; }
static void no_register(struct lent *l) { l->offset += 1; }
static void misaligned(struct lent *l) { l->address += 2; }
static void outside(struct lent *l) { l->address += LENT_LENGTH; }

static const struct call CALLS[] = {
    {"sgdma_create", lent_create, 0,
     {{short_image, SGDMA_BAD_SIZE}, {long_image, SGDMA_BAD_SIZE},
      {bad_mode, SGDMA_BAD_MODE}, {bad_base, SGDMA_BAD_WINDOW}}},
    {"sgdma_read_register", lent_read_register, SGDMA_VALUE_SIZE,
     {{short_image, SGDMA_BAD_SIZE}, {long_image, SGDMA_BAD_SIZE},
      {short_answer, SGDMA_BAD_SIZE}, {long_answer, SGDMA_BAD_SIZE},
      {bad_edition, BAD_EDITION}, {no_register, SGDMA_NO_REGISTER}}},
    {"sgdma_write_register", lent_write_register, 0,
     {{short_image, SGDMA_BAD_SIZE}, {long_image, SGDMA_BAD_SIZE},
      {bad_edition, BAD_EDITION}, {no_register, SGDMA_NO_REGISTER}}},
    {"sgdma_line", lent_line, SGDMA_VALUE_SIZE,
     {{short_image, SGDMA_BAD_SIZE}, {long_image, SGDMA_BAD_SIZE},
      {short_answer, SGDMA_BAD_SIZE}, {long_answer, SGDMA_BAD_SIZE},
      {bad_edition, BAD_EDITION}}},
    {"sgdma_run", lent_run, SGDMA_REPORT_SIZE,
     {{short_image, SGDMA_BAD_SIZE}, {long_image, SGDMA_BAD_SIZE},
      {short_answer, SGDMA_BAD_SIZE}, {long_answer, SGDMA_BAD_SIZE},
      {bad_edition, BAD_EDITION}, {odd_beats, SGDMA_ODD_STREAM},
      {odd_out, SGDMA_ODD_STREAM}, {part_of_a_record, SGDMA_BAD_LEDGER},
      {one_record_short, SGDMA_BAD_LEDGER}, {most_used, SGDMA_BAD_LEDGER},
      {other_window, SGDMA_OTHER_WINDOW}}},
    {"sgdma_build_descriptor", lent_build_descriptor, 0,
     {{bad_base, SGDMA_BAD_WINDOW}, {misaligned, SGDMA_MISALIGNED},
      {outside, SGDMA_OUTSIDE}}},
    {"sgdma_read_descriptor", lent_read_descriptor, SGDMA_DESCRIPTOR_ANSWER_SIZE,
     {{short_answer, SGDMA_BAD_SIZE}, {long_answer, SGDMA_BAD_SIZE},
      {bad_base, SGDMA_BAD_WINDOW}, {misaligned, SGDMA_MISALIGNED},
      {outside, SGDMA_OUTSIDE}}},
    {"sgdma_find_record", lent_find_record, SGDMA_FINDING_SIZE,
     {{short_answer, SGDMA_BAD_SIZE}, {long_answer, SGDMA_BAD_SIZE},
      {part_of_a_record, SGDMA_BAD_LEDGER}, {one_record_short, SGDMA_BAD_LEDGER},
      {most_used, SGDMA_BAD_LEDGER}, {last_run, SGDMA_RUN_UNKNOWN}}},
    {"sgdma_check_chain", lent_check_chain, SGDMA_CHECK_SIZE,
     {{short_answer, SGDMA_BAD_SIZE}, {long_answer, SGDMA_BAD_SIZE},
      {bad_base, SGDMA_BAD_WINDOW}}},
    {"sgdma_mend_chain", lent_mend_chain, SGDMA_MEND_SIZE,
     {{short_answer, SGDMA_BAD_SIZE}, {long_answer, SGDMA_BAD_SIZE},
      {bad_base, SGDMA_BAD_WINDOW}, {misaligned, SGDMA_NOTHING_TO_KEEP},
      {outside, SGDMA_NOTHING_TO_KEEP}}},
};

/* The calls that are lent no image. */
static lent_call *const WITHOUT_IMAGE[] = {
    lent_build_descriptor, lent_read_descriptor, lent_find_record, lent_check_chain,
    lent_mend_chain,
};

static bool has_image(lent_call *call)
{
    for (size_t i = 0; i < COUNT(WITHOUT_IMAGE); i++)
        if (WITHOUT_IMAGE[i] == call)
            return false;
    return true;
}

/* An image of the size that edition 1 had: "7 means 85 bytes for edition 2". */
static void check_edition_1(void)
{
    enum { ITS_SIZE = 44, ITS_EDITION = 1 << 4 };

    check_case("an image of edition 1");
    check("size of edition 2", SGDMA_IMAGE_SIZE, 85);
    for (size_t i = 0; i < COUNT(CALLS); i++) {
        struct lent l;

        if (!has_image(CALLS[i].make))
            continue;
        lent_prepare(&l, CALLS[i].answer_len);
        l.image[0] = (uint8_t)((l.image[0] & 0x0F) | ITS_EDITION);
        l.image_len = ITS_SIZE;
        check_lent(CALLS[i].make, &l, SGDMA_BAD_SIZE, 0);
    }
}

/* A slice of length 0 may be NULL: where a size is asked for, that is wrong. */
static void check_null(void)
{
    uint8_t image[SGDMA_IMAGE_SIZE], report[SGDMA_REPORT_SIZE];

    check_case("NULL with length 0");
    check("image", sgdma_create(NULL, 0, 0, 0, 0), SGDMA_BAD_SIZE);
    check("image and value", sgdma_line(NULL, 0, NULL, 0), SGDMA_BAD_SIZE);
    check("window, built", sgdma_build_descriptor(NULL, 0, 0, 0, 0, 0, 0, 0, 0),
          SGDMA_OUTSIDE);
    check("answer", sgdma_read_descriptor(NULL, 0, 0, 0, NULL, 0), SGDMA_BAD_SIZE);
    check("finding", sgdma_find_record(NULL, 0, 0, 0, 0, NULL, 0), SGDMA_BAD_SIZE);
    check("check", sgdma_check_chain(NULL, 0, 0, 0, NULL, 0), SGDMA_BAD_SIZE);
    check("mend", sgdma_mend_chain(NULL, 0, 0, 0, NULL, 0), SGDMA_BAD_SIZE);
    check("no window", sgdma_create(image, sizeof image, 0, 0, 0), SGDMA_DONE);
    check("window, streams and ledger",
          sgdma_run(image, sizeof image, NULL, 0, NULL, 0, NULL, 0, NULL, 0, 0, 9,
                    report, sizeof report), SGDMA_DONE);
    check("a ledger without the record that is used",
          sgdma_run(image, sizeof image, NULL, 0, NULL, 0, NULL, 0, NULL, 0, 1, 9,
                    report, sizeof report), SGDMA_BAD_LEDGER);
    check("an empty ledger, asked",
          sgdma_find_record(NULL, 0, 0, 0, 0, report, SGDMA_FINDING_SIZE), SGDMA_DONE);
    check("an empty window, checked",
          sgdma_check_chain(NULL, 0, 0, 0, report, SGDMA_CHECK_SIZE), SGDMA_DONE);
    check("nothing is in it", report[SGDMA_CHECK_VERDICT_AT + 1], SGDMA_CHAIN_OUTSIDE);
    check("an empty window, mended",
          sgdma_mend_chain(NULL, 0, 0, 0, report, SGDMA_MEND_SIZE), SGDMA_NOTHING_TO_KEEP);
}

void test_refusals(void)
{
    check_sets(CALLS, COUNT(CALLS));
    check_edition_1();
    check_null();
}
