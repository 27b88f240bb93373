/*
 * Chains that are checked. Each is laid byte by byte, and what must be told of it is
 * worked out by hand from the order.
 */
#include <stdbool.h>
#include <string.h>

#include "check.h"
#include "laid.h"

/* Checks over bytes that are not 0, and sees every byte of the answer; the window is
   lent as const, and must be as it was. */
static void check_told(uint64_t base, size_t length, uint32_t pointer,
                       struct checked wanted)
{
    static uint8_t before[sizeof window];
    uint8_t answer[SGDMA_CHECK_SIZE + 1];

    memcpy(before, window, sizeof before);
    memset(answer, FILL, sizeof answer);
    check("returned", sgdma_check_chain(window, length, base, pointer, answer,
                                        SGDMA_CHECK_SIZE), SGDMA_DONE);
    check("verdict", number_at(answer + SGDMA_CHECK_VERDICT_AT, 2), wanted.verdict);
    check("position", number_at(answer + SGDMA_CHECK_POSITION_AT, 4), wanted.position);
    check("address", number_at(answer + SGDMA_CHECK_ADDRESS_AT, 4), wanted.address);
    check("first bytes", number_at(answer, 4), wanted.verdict << 16 | wanted.position >> 16);
    check("bytes between", number_at(answer + 4, 4),
          wanted.position << 16 | wanted.address >> 16);
    check("last bytes", number_at(answer + 8, 2), wanted.address & 0xFFFF);
    check("past the answer", answer[SGDMA_CHECK_SIZE], FILL);
    check_bytes("window", window, before, sizeof window);
}

/* Each row changes some of the four. */
struct row {
    const char *name;
    struct link changed[2]; /* none where the address is 0 */
    uint32_t pointer;
    struct checked told;
};

#define AS_IT_IS {{0, 0, 0}}
#define LINK(from, to) {{from, to, OWNED}}
#define SOUND(k, end) {SGDMA_CHAIN_SOUND, k, end}
#define MISALIGNED(position, address) {SGDMA_CHAIN_MISALIGNED, position, address}
#define OUTSIDE(position, address) {SGDMA_CHAIN_OUTSIDE, position, address}
#define OVERLAPS(position, address) {SGDMA_CHAIN_OVERLAPS, position, address}

static const struct row ROWS[] = {
    /* sound, from each descriptor; the end's own link is not followed */
    {"three owned", AS_IT_IS, A, SOUND(3, D)},
    {"two owned", AS_IT_IS, B, SOUND(2, D)},
    {"one owned", AS_IT_IS, C, SOUND(1, D)},
    {"none owned", AS_IT_IS, D, SOUND(0, D)},
    {"the first is not owned", {{A, B, 0x7F}}, A, SOUND(0, A)},
    {"the second is not owned", {{B, C, 0}}, A, SOUND(1, B)},
    {"the third is not owned", {{C, D, 0x40}}, A, SOUND(2, C)},
    {"the end is the first 32 bytes", {{A, B, 0}, {B, A, OWNED}}, B, SOUND(1, A)},
    {"the end between two others", LINK(A, 0x1060), A, SOUND(1, 0x1060)},

    /* position 0: the pointer */
    {"pointer by 1", AS_IT_IS, A + 1, MISALIGNED(0, A + 1)},
    {"pointer by 2", AS_IT_IS, A + 2, MISALIGNED(0, A + 2)},
    {"pointer by 3", AS_IT_IS, A + 3, MISALIGNED(0, A + 3)},
    {"pointer a word below", AS_IT_IS, BASE - 4, OUTSIDE(0, BASE - 4)},
    {"pointer a descriptor below", AS_IT_IS, BASE - 32, OUTSIDE(0, BASE - 32)},
    {"pointer a word too far", AS_IT_IS, D + 4, OUTSIDE(0, D + 4)},
    {"pointer at the window's end", AS_IT_IS, BASE + LENGTH, OUTSIDE(0, BASE + LENGTH)},
    {"pointer 0", AS_IT_IS, 0, OUTSIDE(0, 0)},
    {"pointer at the top", AS_IT_IS, 0xFFFFFFFC, OUTSIDE(0, 0xFFFFFFFC)},
    {"pointer at the very top", AS_IT_IS, 0xFFFFFFFF, MISALIGNED(0, 0xFFFFFFFF)},

    /* position 1: by the link of A */
    {"second misaligned", LINK(A, B + 2), A, MISALIGNED(1, B + 2)},
    {"second outside", LINK(A, BASE + LENGTH), A, OUTSIDE(1, BASE + LENGTH)},
    {"second a word below", LINK(A, BASE - 4), A, OUTSIDE(1, BASE - 4)},
    {"to itself", LINK(A, A), A, OVERLAPS(1, A)},
    {"a word into itself", LINK(A, A + 4), A, OVERLAPS(1, A + 4)},
    {"its last word", LINK(A, A + 28), A, OVERLAPS(1, A + 28)},
    {"right behind it", LINK(A, A + 32), A, SOUND(2, D)},
    {"a word into one that comes later", LINK(A, C + 4), A, SOUND(1, C + 4)},

    /* the end: by the link of C */
    {"end misaligned", LINK(C, D + 1), A, MISALIGNED(3, D + 1)},
    {"end outside", LINK(C, D + 4), A, OUTSIDE(3, D + 4)},
    {"end far outside", LINK(C, D + 0x10000), A, OUTSIDE(3, D + 0x10000)},
    {"end a word into the second", LINK(C, B + 28), A, OVERLAPS(3, B + 28)},
    {"end all but a word of the second", LINK(C, B + 4), A, OVERLAPS(3, B + 4)},
    {"end in the last word of the first", LINK(B, A + 28), A, OVERLAPS(2, A + 28)},
    {"end up to the first word of the first", LINK(B, B - 28), B, OVERLAPS(1, B - 28)},
    {"next to the first, below", LINK(B, B - 32), B, SOUND(2, D)},
    {"end between the second and the end", LINK(C, B + 32), A, SOUND(3, B + 32)},

    /* owned to the last, and on */
    {"back to the first", {{D, A, OWNED}}, A, OVERLAPS(4, A)},
    {"back to the second", {{D, B, OWNED}}, A, OVERLAPS(4, B)},
    {"back to itself", {{D, D, OWNED}}, A, OVERLAPS(4, D)},
    {"a word low of the last", {{D, D - 4, OWNED}}, A, OVERLAPS(4, D - 4)},
    {"by its last word low", {{D, D - 28, OWNED}}, A, OVERLAPS(4, D - 28)},
    {"on past the window", {{D, BASE + LENGTH, OWNED}}, A, OUTSIDE(4, BASE + LENGTH)},
    {"on to no multiple of 4", {{D, 0xFFFFFFFE, OWNED}}, A, MISALIGNED(4, 0xFFFFFFFE)},
    {"two that lead to each other", LINK(B, A), A, OVERLAPS(2, A)},
    {"the same from the other", LINK(B, A), B, OVERLAPS(2, B)},

    /* several causes at one position: the first is told */
    {"misaligned and outside", LINK(B, BASE - 2), A, MISALIGNED(2, BASE - 2)},
    {"misaligned and overlapping", LINK(B, A + 1), A, MISALIGNED(2, A + 1)},
    {"outside and overlapping", LINK(B, A - 4), A, OUTSIDE(2, A - 4)},
    {"outside and overlapping above", LINK(D, D + 4), D, OUTSIDE(1, D + 4)},
    {"all three", LINK(B, A - 3), A, MISALIGNED(2, A - 3)},
    /* several positions: the first is told */
    {"two defects", {{A, 0x1062, OWNED}, {B, A, OWNED}}, A, MISALIGNED(1, 0x1062)},
    {"a loop before what is outside", {{B, A, OWNED}, {C, 0, OWNED}}, A, OVERLAPS(2, A)},
};

static void check_row(const struct row *row)
{
    check_case(row->name);
    lay_chain(0);
    for (size_t i = 0; i < COUNT(row->changed); i++)
        if (row->changed[i].at)
            put_link(BASE, &row->changed[i]);
    check_told(BASE, LENGTH, row->pointer, row->told);
}

/* What a descriptor is to transfer, and every byte that has no name, does not
   matter; nor does what a run has left in it. */
static void check_other_bytes(void)
{
    check_case("all other bytes set");
    lay_chain(0xFF);
    check_told(BASE, LENGTH, A, (struct checked)SOUND(3, D));
}

/* The largest window has room for 2,048: 2,047 owned ones and the end. */
static void check_longest(void)
{
    static const uint32_t bases[] = {0, 0x1000, 0xFFFF0000};

    for (size_t i = 0; i < COUNT(bases); i++) {
        uint32_t base = bases[i], last = base + 2047 * SIZE;

        check_case("2,047 owned");
        lay_row(base, 2047, last);
        check_told(base, MOST, base, (struct checked)SOUND(2047, last));
        check_told(base, MOST, last - SIZE, (struct checked)SOUND(1, last));
        check_case("the 2,048th is wrong");
        lay_row(base, 2047, last + 1);
        check_told(base, MOST, base, (struct checked)MISALIGNED(2047, last + 1));
        lay_row(base, 2047, last - 4);
        check_told(base, MOST, base, (struct checked)OVERLAPS(2047, last - 4));
        check_case("2,048 owned");
        lay_row(base, 2048, base);
        check_told(base, MOST, base, (struct checked)OVERLAPS(2048, base));
        lay_row(base, 2048, last);
        check_told(base, MOST, base, (struct checked)OVERLAPS(2048, last));
        lay_row(base, 2048, base + 2);
        check_told(base, MOST, base, (struct checked)MISALIGNED(2048, base + 2));
    }
    check_case("2,048 owned, and on past the window");
    lay_row(0x1000, 2048, 0x11000);
    check_told(0x1000, MOST, 0x1000, (struct checked)OUTSIDE(2048, 0x11000));
    check_case("one byte less");
    lay_row(0x1000, 2047, 0x10FE0);
    check_told(0x1000, MOST - 1, 0x1000, (struct checked)OUTSIDE(2047, 0x10FE0));
}

/* The address must be a multiple of 4, and not the place in the window. */
static void check_odd_bases(void)
{
    for (uint32_t odd = 1; odd < 4; odd++) {
        uint32_t base = BASE + odd, first = BASE + 4;
        const struct link links[] = {{first, first + SIZE, OWNED},
                                     {first + SIZE, first + 2, OWNED}};

        check_case("a base that is no multiple of 4");
        memset(window, 0, sizeof window);
        put_link(base, &links[0]);
        check_told(base, 4 - odd + 2 * SIZE, first, (struct checked)SOUND(1, first + SIZE));
        check_told(base, 4 - odd + 2 * SIZE - 1, first,
                   (struct checked)OUTSIDE(1, first + SIZE));
        check_told(base, 4 - odd + 2 * SIZE, base, (struct checked)MISALIGNED(0, base));
        check_told(base, 4 - odd + 2 * SIZE, BASE, (struct checked)OUTSIDE(0, BASE));
        put_link(base, &links[1]);
        check_told(base, 4 - odd + 2 * SIZE, first, (struct checked)MISALIGNED(2, first + 2));
    }
}

/* "3 for a bad window", and 7 before it, at every size of an answer up to 32. */
static void check_refused(void)
{
    static const struct {
        uint64_t base;
        size_t length;
        uint32_t number;
    } windows[] = {
        {0, MOST, SGDMA_DONE},
        {0, MOST + 1, SGDMA_BAD_WINDOW},
        {UINT64_C(0xFFFF0000), MOST, SGDMA_DONE},
        {UINT64_C(0xFFFF0001), MOST, SGDMA_BAD_WINDOW},
        {UINT64_C(0xFFFFFFFF), 1, SGDMA_DONE},
        {UINT64_C(0xFFFFFFFF), 2, SGDMA_BAD_WINDOW},
        {UINT64_C(0x100000000), 0, SGDMA_BAD_WINDOW},
        {UINT64_C(0x100001000), LENGTH, SGDMA_BAD_WINDOW},
        {UINT64_MAX, 64, SGDMA_BAD_WINDOW},
        {0, 0, SGDMA_DONE},
    };
    uint8_t before[SIZE], answer[SIZE];

    memset(window, 0, sizeof window);
    memset(before, FILL, sizeof before);
    for (size_t i = 0; i < COUNT(windows); i++)
        for (size_t size = 0; size <= SIZE; size++) {
            bool whole = size == 10;

            check_case("windows, and answers of each size");
            memcpy(answer, before, sizeof answer);
            check("returned", sgdma_check_chain(window, windows[i].length, windows[i].base,
                                                0, answer, size),
                  whole ? windows[i].number : SGDMA_BAD_SIZE);
            if (!whole || windows[i].number != SGDMA_DONE)
                check_bytes("answer", answer, before, sizeof answer);
        }
}

/* A core runs the chain that was sound: as many are done as were owned. */
static void check_run(void)
{
    struct core core;
    struct checked checked;
    struct ran ran;

    check_case("what is sound is run");
    build_chain(&core, CHAIN);
    checked = core_check(&core, A);
    check("verdict", checked.verdict, SGDMA_CHAIN_SOUND);
    check("owned", checked.position, 3);
    ran = run_chain(&core);
    check("reason", ran.reason, SGDMA_REASON_ENDED);
    check("records", ran.used, checked.position);
    check("pointer", core_read(&core, SGDMA_REGISTER_NEXT_DESCRIPTOR_POINTER),
          checked.address);
    for (size_t i = 0; i < COUNT(CHAIN); i++)
        check("done mark", core_byte(&core, CHAIN[i].at)[CONTROL], CHAIN[i].control & 0x7F);
    checked = core_check(&core, A);
    check("then none is owned", checked.position, 0);
}

void test_chains(void)
{
    for (size_t i = 0; i < COUNT(ROWS); i++)
        check_row(&ROWS[i]);
    check_other_bytes();
    check_longest();
    check_odd_bases();
    check_refused();
    check_run();
}
