/*
 * Chains that are mended. Each is laid byte by byte, and what must be left of it and
 * told is worked out by hand from the order.
 */
#include <string.h>

#include "check.h"
#include "laid.h"

static uint8_t before[sizeof window];

/* Mends over bytes that are not 0. The control byte of the descriptor at `address`
   must have become `new`; where `address` is 0, nothing has changed. */
static void check_mended(uint32_t base, size_t length, uint32_t pointer, uint32_t address,
                         uint8_t new)
{
    uint8_t answer[SGDMA_MEND_SIZE + 1], old = 0;

    memcpy(before, window, sizeof before);
    memset(answer, FILL, sizeof answer);
    check("returned", sgdma_mend_chain(window, length, base, pointer, answer,
                                       SGDMA_MEND_SIZE), SGDMA_DONE);
    if (address) {
        uint8_t *control = before + (address - base) + CONTROL;

        old = *control;
        *control = new;
    }
    check_bytes("window", window, before, sizeof window);
    check("mended", number_at(answer + SGDMA_MEND_MENDED_AT, 2), address != 0);
    check("address", number_at(answer + SGDMA_MEND_ADDRESS_AT, 4), address);
    check("old byte", answer[SGDMA_MEND_OLD_AT], old);
    check("new byte", answer[SGDMA_MEND_NEW_AT], new);
    check("first bytes", number_at(answer, 4),
          (address ? UINT32_C(1) << 16 : 0) | address >> 16);
    check("last bytes", number_at(answer + 4, 4),
          (address & 0xFFFF) << 16 | (uint32_t)old << 8 | new);
    check("past the answer", answer[SGDMA_MEND_SIZE], FILL);
}

/* After a mend the chain is sound, with so many owned and this end; and mended again
   it stays as it is. */
static void check_sound(uint32_t base, size_t length, uint32_t pointer, uint32_t owned,
                        uint32_t end)
{
    struct checked checked = check_chain(window, length, base, pointer);

    check("verdict", checked.verdict, SGDMA_CHAIN_SOUND);
    check("owned", checked.position, owned);
    check("end", checked.address, end);
    check_mended(base, length, pointer, 0, 0);
}

/* A link that is wrong, the descriptor before it, its byte as it must become, and how
   many are owned then. */
struct row {
    const char *name;
    struct link changed;
    uint32_t last;
    uint8_t new;
    uint32_t owned;
};

static const struct row ROWS[] = {
    /* the first alone is kept, as an end */
    {"second misaligned", {A, B + 1, OWNED}, A, 0, 0},
    {"second outside", {A, BASE + LENGTH, OWNED}, A, 0, 0},
    {"second a word below", {A, BASE - 4, OWNED | 0x42}, A, 0x42, 0},
    {"first to itself", {A, A, 0xFF}, A, 0x7F, 0},
    {"first a word into itself", {A, A + 4, OWNED}, A, 0, 0},
    /* two are kept */
    {"third misaligned", {B, C + 2, 0x81}, B, 0x01, 1},
    {"third outside", {B, 0xFFFFFFFC, 0x85}, B, 0x05, 1},
    {"third back to the first", {B, A, 0x85}, B, 0x05, 1},
    {"third in the last word of the first", {B, A + 28, OWNED}, B, 0, 1},
    {"third up to the first word of the second", {B, B - 28, OWNED}, B, 0, 1},
    {"third misaligned, outside and over the first", {B, A - 3, OWNED}, B, 0, 1},
    /* all that were owned are kept, one of them as the end */
    {"end misaligned", {C, D + 3, 0xFF}, C, 0x7F, 2},
    {"end outside", {C, D + 4, 0xFE}, C, 0x7E, 2},
    {"end over the second", {C, B + 4, OWNED}, C, 0, 2},
    {"end over the one before it", {C, C, OWNED}, C, 0, 2},
    /* the end was owned, and leads on */
    {"on to the first", {D, A, 0xFF}, D, 0x7F, 3},
    {"on to itself", {D, D, OWNED}, D, 0, 3},
    {"on past the window", {D, BASE + LENGTH, OWNED}, D, 0, 3},
};

static void check_row(const struct row *row, uint8_t other)
{
    check_case(row->name);
    lay_chain(other);
    put_link(BASE, &row->changed);
    check_mended(BASE, LENGTH, A, row->last, row->new);
    check_sound(BASE, LENGTH, A, row->owned, row->last);
}

/* "a sound chain is untouched", from each of its descriptors. */
static void check_untouched(void)
{
    check_case("sound chains");
    lay_chain(FILL);
    check_sound(BASE, LENGTH, A, 3, D);
    check_sound(BASE, LENGTH, B, 2, D);
    check_sound(BASE, LENGTH, C, 1, D);
    check_sound(BASE, LENGTH, D, 0, D);
}

/* The longest: the 2,048th and the 2,049th are wrong. */
static void check_longest(void)
{
    const uint32_t base = 0xFFFF0000, last = base + 2047 * SIZE;

    check_case("the 2,048th is wrong");
    lay_row(base, 2047, last + 2);
    check_mended(base, MOST, base, last - SIZE, 0);
    check_sound(base, MOST, base, 2046, last - SIZE);
    check_case("the 2,049th is wrong");
    lay_row(base, 2048, base);
    check_mended(base, MOST, base, last, 0);
    check_sound(base, MOST, base, 2047, last);
    check_case("2,047 owned");
    lay_row(base, 2047, last);
    check_sound(base, MOST, base, 2047, last);
}

/* A dump that does not begin at a multiple of 4. */
static void check_odd_base(void)
{
    const uint32_t base = BASE - 3;

    check_case("a base that is no multiple of 4");
    memset(window, FILL, sizeof window);
    put_link(base, &(struct link){A, A + 2, 0xC1});
    check_mended(base, 3 + SIZE, A, A, 0x41);
    check_sound(base, 3 + SIZE, A, 0, A);
}

/* "23 NothingToKeep when the defect is the first descriptor"; 3 before it, and 7
   before both, at every size of an answer up to 32. No byte changes. */
static void check_refused(void)
{
    static const uint32_t pointers[] = {A + 1, A + 2, A + 3, BASE - 4, BASE - 32, D + 4,
                                        BASE + LENGTH, 0, 0xFFFFFFFC, 0xFFFFFFFF};
    uint8_t answer[SIZE], filled[SIZE];

    check_case("a mend that is refused");
    lay_chain(FILL);
    memset(filled, FILL, sizeof filled);
    memcpy(answer, filled, sizeof answer);
    memcpy(before, window, sizeof before);
    for (size_t i = 0; i < COUNT(pointers); i++)
        for (size_t size = 0; size <= SIZE; size++) {
            check("nothing to keep", sgdma_mend_chain(window, LENGTH, BASE, pointers[i],
                                                      answer, size), size == 8 ? 23 : 7);
            check("no window", sgdma_mend_chain(window, LENGTH, UINT64_C(0xFFFFFF61),
                                                pointers[i], answer, size), size == 8 ? 3 : 7);
            check("far away", sgdma_mend_chain(window, LENGTH, UINT64_C(0x100001000),
                                               pointers[i], answer, size), size == 8 ? 3 : 7);
            check("too long", sgdma_mend_chain(window, MOST + 1, 0, pointers[i], answer,
                                               size), size == 8 ? 3 : 7);
        }
    check("the names", SGDMA_NOTHING_TO_KEEP, 23);
    check_bytes("answer", answer, filled, sizeof answer);
    check_bytes("window", window, before, sizeof window);
}

/* The chain is damaged at this position, mended and run: those before the last that
   was kept are done, and the core stands at that one. */
static void check_run(uint32_t position)
{
    struct link links[COUNT(CHAIN)];
    struct mended mended = {0};
    struct core core;
    struct ran ran;

    check_case("what is mended is run");
    memcpy(links, CHAIN, sizeof links);
    links[3].control = OWNED;
    links[position - 1].next = A;
    build_chain(&core, links);
    check("mend", mend_chain(window, core.length, BASE, A, &mended), SGDMA_DONE);
    check("the last that is kept", mended.address, links[position - 1].at);
    ran = run_chain(&core);
    check("reason", ran.reason, SGDMA_REASON_ENDED);
    check("records", ran.used, position - 1);
    check("pointer", core_read(&core, SGDMA_REGISTER_NEXT_DESCRIPTOR_POINTER),
          mended.address);
    for (uint32_t i = 0; i < COUNT(links); i++)
        check("done marks", core_descriptor(&core, links[i].at).actual, i + 1 < position);
}

void test_mend(void)
{
    for (size_t i = 0; i < COUNT(ROWS); i++) {
        check_row(&ROWS[i], 0);
        check_row(&ROWS[i], FILL);
    }
    check_untouched();
    check_longest();
    check_odd_base();
    check_refused();
    for (uint32_t position = 1; position <= 4; position++)
        check_run(position);
}
