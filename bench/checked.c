#include "checked.h"

#include <inttypes.h>
#include <stdio.h>

#include "beats.h"
#include "show.h"

/* The descriptors of the chain, and the end behind them. */
enum {
    FIRST = CHAIN,
    SECOND = FIRST + SGDMA_DESCRIPTOR_SIZE,
    THIRD = SECOND + SGDMA_DESCRIPTOR_SIZE,
    LAST = THIRD + SGDMA_DESCRIPTOR_SIZE,
    END = LAST + SGDMA_DESCRIPTOR_SIZE
};

/* A link as it is wrong, and what must be told of the chain then. */
static const struct {
    uint32_t from, right, wrong;
    struct checked must;
} DAMAGES[] = {
    {SECOND, THIRD, THIRD + 2, {SGDMA_CHAIN_MISALIGNED, 2, THIRD + 2}},
    {LAST, END, BASE + MEMORY - 16, {SGDMA_CHAIN_OUTSIDE, 4, BASE + MEMORY - 16}},
    {THIRD, LAST, FIRST, {SGDMA_CHAIN_OVERLAPS, 3, FIRST}},
    {LAST, END, LAST + 4, {SGDMA_CHAIN_OVERLAPS, 4, LAST + 4}},
};

static const struct checked SOUND = {SGDMA_CHAIN_SOUND, DESCRIPTORS, END};

/* What is left of the chain by a crash, and by the mend. */
static const struct checked CRASHED = {SGDMA_CHAIN_OUTSIDE, 3, 0xDEADBEEC};
static const struct checked KEPT = {SGDMA_CHAIN_SOUND, 2, THIRD};

static void lead(struct core *core, uint32_t from, uint32_t to)
{
    struct descriptor d = core_descriptor(core, from);

    d.next = to;
    core_build(core, from, &d);
}

/* Checks the chain, and shows what is told; whether it is what must be. */
static bool checks(const struct core *core, const struct checked *must)
{
    struct checked checked = core_check(core, CHAIN);

    printf("        ");
    show_checked(&checked);
    return checked.verdict == must->verdict && checked.position == must->position &&
           checked.address == must->address;
}

static bool damage(struct core *core)
{
    bool as = true;

    for (size_t i = 0; i < sizeof DAMAGES / sizeof *DAMAGES; i++) {
        printf("    0x%04" PRIX32 " leads to 0x%04" PRIX32 "\n", DAMAGES[i].from,
               DAMAGES[i].wrong);
        lead(core, DAMAGES[i].from, DAMAGES[i].wrong);
        as = checks(core, &DAMAGES[i].must) && as;
        lead(core, DAMAGES[i].from, DAMAGES[i].right);
    }
    return as;
}

/* Runs the chain: all that were owned are done, and the core stands at the end. The
   end itself reads as done too where it is one of the four. */
static bool runs(struct firmware *firmware, const struct checked *sound)
{
    struct slice slice;
    size_t number = 0;

    show_slice_heading();
    firmware_start(firmware);
    do {
        slice = firmware_slice(firmware);
        show_slice(++number, &slice);
    } while (slice.ran.reason == SGDMA_REASON_BUDGET);
    return slice.ran.reason == SGDMA_REASON_ENDED &&
           firmware_done(firmware) == sound->position + (sound->address < END) &&
           firmware->ledger.used == sound->position &&
           core_read(&firmware->core, SGDMA_REGISTER_NEXT_DESCRIPTOR_POINTER) == sound->address;
}

bool play_checked(size_t number, uint32_t enables)
{
    struct firmware firmware;
    bool as;

    show_title(number, "A chain that is checked before it runs",
               "What is wrong is told with position and cause; put right, all of it runs.");
    firmware_begin(&firmware, enables);
    as = damage(&firmware.core);
    printf("    put right\n");
    as = checks(&firmware.core, &SOUND) && as;
    printf("\n");
    as = runs(&firmware, &SOUND) && as;
    printf("\n");
    show_beats(firmware.ledger, &firmware.core, firmware.taken);
    return show_verdict(as);
}

/* Mends the chain, and shows what has changed; whether it is what must have. */
static bool mends(struct core *core)
{
    struct mended mended = {0};
    uint32_t number = mend_chain(core->memory, core->length, core->base, CHAIN, &mended);

    printf("        ");
    show_mended(&mended);
    return number == SGDMA_DONE && mended.any && mended.address == KEPT.address &&
           mended.old == SGDMA_DESC_OWNED_BY_HW && mended.new == 0;
}

/* Where the pointer itself is wrong there is nothing to keep. */
static bool keeps_nothing(struct core *core)
{
    struct mended mended = {0};
    uint32_t number = mend_chain(core->memory, core->length, core->base, CHAIN + 2, &mended);

    printf("    with the pointer 0x%04X\n    ", (unsigned)CHAIN + 2);
    show_refused(number);
    return number == SGDMA_NOTHING_TO_KEEP && !mended.any;
}

bool play_mended(size_t number, uint32_t enables)
{
    struct firmware firmware;
    bool as;

    show_title(number, "A chain that is mended after a crash",
               "What stood before the defect is kept: the last of it is the end, unrecorded.");
    firmware_begin(&firmware, enables);
    lead(&firmware.core, THIRD, CRASHED.address);
    printf("    0x%04X leads to 0x%04" PRIX32 "\n", (unsigned)THIRD, CRASHED.address);
    as = checks(&firmware.core, &CRASHED);
    as = mends(&firmware.core) && as;
    as = checks(&firmware.core, &KEPT) && as;
    as = keeps_nothing(&firmware.core) && as;
    printf("\n");
    as = runs(&firmware, &KEPT) && as;
    printf("\n");
    show_beats(firmware.ledger, &firmware.core, firmware.taken);
    return show_verdict(as);
}
