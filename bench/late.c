#include "late.h"

#include <inttypes.h>
#include <stdio.h>

#include "beats.h"
#include "show.h"

/*
 * After the first slice the core has the second descriptor in hand and the third one
 * in its slot: a step out of Rest, a Fetch, 16 samples, a WriteBack and a Fetch. The
 * firmware then finds that the third packet shall land elsewhere.
 */
enum { REWRITTEN = 2, ELSEWHERE = LANDING + 0x80 };

static bool run_slice(struct firmware *firmware, size_t number)
{
    struct slice slice = firmware_slice(firmware);

    show_slice(number, &slice);
    return slice.ran.reason == SGDMA_REASON_BUDGET;
}

/* Rewrites the descriptor, and writes the pointer again where that is to be. Whether
   the core held it before, and holds nothing once the pointer is written. */
static bool rewrite(struct firmware *firmware, bool pointer_too)
{
    struct core *core = &firmware->core;
    uint32_t pointer = core_read(core, SGDMA_REGISTER_NEXT_DESCRIPTOR_POINTER);
    bool held = core_slot(core).kind == SGDMA_SLOT_DESCRIPTOR;

    firmware_build(firmware, REWRITTEN, ELSEWHERE);
    printf("    0x%04" PRIX32 " is in the slot, and is rewritten to land at 0x%04X",
           core_slot(core).address, (unsigned)ELSEWHERE);
    if (pointer_too) {
        core_write(core, SGDMA_REGISTER_NEXT_DESCRIPTOR_POINTER, pointer);
        printf(";\n    the pointer is written again, and the slot is empty");
    }
    printf("\n");
    return held && (core_slot(core).kind == SGDMA_SLOT_EMPTY) == pointer_too;
}

/* Whether each descriptor is done and full, and all its samples are where it says
   but for those of the rewritten one, of which so many are. */
static bool chain_as(const struct firmware *firmware, size_t fresh)
{
    uint32_t address = CHAIN;
    bool as = true;

    show_found_heading();
    for (size_t i = 0; i < DESCRIPTORS; i++) {
        struct found found = find(&firmware->core, address, PACKET * i);

        show_found(&found);
        as = as && found.done && found.d.actual == PACKET &&
             found.fresh == (i == REWRITTEN ? fresh : PACKET);
        address = found.d.next;
    }
    return as;
}

static bool play_half(uint32_t enables, bool pointer_too, size_t fresh)
{
    struct firmware firmware;
    size_t number = 1;
    bool as;

    show_slice_heading();
    firmware_begin(&firmware, enables);
    firmware_start(&firmware);
    run_slice(&firmware, number);
    as = rewrite(&firmware, pointer_too);
    while (run_slice(&firmware, ++number))
        ;
    printf("\n");
    as = chain_as(&firmware, fresh) && as;
    printf("\n");
    show_beats(firmware.ledger, &firmware.core, firmware.taken);
    return as && firmware.ledger.used == DESCRIPTORS;
}

bool play_late(size_t number, uint32_t enables)
{
    bool late, right;

    show_title(number, "A descriptor rewritten late, and then rightly",
               "The core has read it ahead: the old one runs, and the new one reads as done.");
    late = play_half(enables, false, 0);
    printf("\n    The same again, with the pointer written too: the new one runs.\n\n");
    right = play_half(enables, true, PACKET);
    return show_verdict(late && right);
}
