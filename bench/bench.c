/*
 * The bench: what the firmware sees of the core when a stream is good, and when
 * it is not. Each scene is played, shown and compared with what must come of
 * it; the program fails where one is not as it must be.
 */
#include "beats.h"
#include "checked.h"
#include "late.h"
#include "shared.h"
#include "show.h"
#include "stall.h"
#include "sums.h"

#include <inttypes.h>
#include <stdio.h>
#include <string.h>

/* What must be found of a descriptor and, where it is done, in its record. */
struct must {
    bool done;
    uint16_t count;
    uint8_t status;
    size_t fresh;
    bool eop; /* in the record alone */
};

struct scene {
    const char *title;
    const char *see;
    /* What is given, beside the chain and a stream of all samples. */
    uint32_t control;     /* beside RUN and the enables */
    size_t silent_after;  /* the samples that come, where not all do */
    size_t marked;        /* the sample whose beat is marked, */
    uint32_t mark;        /* and with what */
    uint32_t landing;     /* where the last packet is to land, where elsewhere */
    size_t saved_after;   /* the slice after which the core is saved */
    size_t room;          /* the records that are lent at first, where not all are */
    size_t spoiled_after; /* the slice after which the image is spoiled */
    /* What must come of it. */
    uint32_t reason;
    uint32_t status; /* all that was read at interrupts */
    struct fault fault;
    struct must found[DESCRIPTORS];
};

#define FULL      {true, PACKET, 0, PACKET, false}
#define UNTOUCHED {false, 0, 0, 0, false}
#define PART(n)   {false, 0, 0, n, false}

#define ENABLES                                                \
    (SGDMA_CONTROL_IE_GLOBAL | SGDMA_CONTROL_IE_ERROR |        \
     SGDMA_CONTROL_IE_DESCRIPTOR | SGDMA_CONTROL_IE_CHAIN)
#define SOME_DONE (SGDMA_STATUS_DESCRIPTOR_COMPLETED | SGDMA_STATUS_BUSY)
#define ALL_DONE  (SOME_DONE | SGDMA_STATUS_CHAIN_COMPLETED)

static const struct scene SCENES[] = {
    {
        .title = "A good run",
        .see = "Four descriptors of 16 samples: all are done, no byte is stale.",
        .reason = SGDMA_REASON_ENDED,
        .status = ALL_DONE,
        .found = {FULL, FULL, FULL, FULL},
    },
    {
        .title = "A stream that stops short",
        .see = "Nothing comes after 40 samples: the third descriptor stays owned.",
        .silent_after = 40,
        .reason = SGDMA_REASON_NEEDS_INPUT,
        .status = SOME_DONE,
        .found = {FULL, FULL, PART(8), UNTOUCHED},
    },
    {
        .title = "An error beat under STOP_DMA_ER",
        .see = "Sample 20 has errors 0x03: its descriptor is filled, and is the last.",
        .control = SGDMA_CONTROL_STOP_DMA_ER,
        .marked = 20,
        .mark = UINT32_C(0x03) << SGDMA_INPUT_ERROR_SHIFT,
        .reason = SGDMA_REASON_HALTED,
        .status = SOME_DONE | SGDMA_STATUS_ERROR,
        .found = {FULL, {true, PACKET, 0x03, PACKET, false}, UNTOUCHED, UNTOUCHED},
    },
    {
        .title = "EOP early",
        .see = "Sample 25 has EOP: its descriptor counts 10, the rest there is stale.",
        .marked = 25,
        .mark = SGDMA_INPUT_EOP,
        .reason = SGDMA_REASON_ENDED,
        .status = ALL_DONE | SGDMA_STATUS_EOP_ENCOUNTERED,
        .found = {FULL, {true, 10, 0, 10, true}, FULL, FULL},
    },
    {
        .title = "A fault",
        .see = "The last packet runs out of memory: owned, though 8 bytes came.",
        .landing = BASE + MEMORY - 8,
        .reason = SGDMA_REASON_FAULTED,
        .status = SOME_DONE,
        .fault = {SGDMA_FAULT_DESTINATION_OUTSIDE, BASE + MEMORY},
        .found = {FULL, FULL, FULL, PART(8)},
    },
    {
        .title = "Saved in the middle and restored",
        .see = "The good run again, half of it on a second core: the same end.",
        .saved_after = 2,
        .reason = SGDMA_REASON_ENDED,
        .status = ALL_DONE,
        .found = {FULL, FULL, FULL, FULL},
    },
    {
        .title = "A full ledger",
        .see = "Room for two records: no third is done before there is room for it.",
        .room = 2,
        .reason = SGDMA_REASON_ENDED,
        .status = ALL_DONE,
        .found = {FULL, FULL, FULL, FULL},
    },
    {
        .title = "A spoiled image",
        .see = "A stray write: refused, and the field is told, until all are put back.",
        .spoiled_after = 2,
        .reason = SGDMA_REASON_ENDED,
        .status = ALL_DONE,
        .found = {FULL, FULL, FULL, FULL},
    },
};

/* Six more are played by themselves. */
enum { SCENE_COUNT = sizeof SCENES / sizeof *SCENES, ALL_SCENES = SCENE_COUNT + 6 };

/* What came of a scene. */
struct outcome {
    uint32_t reason;
    uint32_t status;
    bool recorded;  /* after each slice, as many descriptors were done as records used */
    bool mended;    /* of a spoiled image the fields were told, the lowest first */
    struct fault fault;
    struct found found[DESCRIPTORS];
};

static void prepare(struct firmware *firmware, const struct scene *scene)
{
    firmware_begin(firmware, ENABLES | scene->control);
    put_beat(firmware->in, scene->marked,
             beat_at(firmware->in, scene->marked) | scene->mark);
    if (scene->silent_after)
        firmware->in.beats = scene->silent_after;
    if (scene->landing)
        firmware_build(firmware, DESCRIPTORS - 1, scene->landing);
    if (scene->room)
        firmware->ledger.room = scene->room;
    firmware_start(firmware);
}

/* The bytes of the records used. */
static size_t recorded(const struct firmware *firmware)
{
    return SGDMA_RECORD_SIZE * (size_t)firmware->ledger.used;
}

/*
 * Saves image, memory and ledger, wipes them, and restores them as a second core,
 * for which the stream goes on.
 */
static void move_over(struct firmware *to, struct firmware *from)
{
    struct stream rest = from->in;

    firmware_begin(to, from->control);
    memcpy(to->core.image, from->core.image, sizeof to->core.image);
    memcpy(to->memory, from->memory, sizeof to->memory);
    memcpy(to->records, from->records, recorded(from));
    to->ledger.used = from->ledger.used;
    to->taken = from->taken;
    memset(from->core.image, 0xFF, sizeof from->core.image);
    memset(from->memory, 0xFF, sizeof from->memory);
    memset(from->records, 0xFF, sizeof from->records);
    to->in = rest;
    printf("    saved: %zu bytes of image, %zu of memory, %zu of ledger; "
           "a second core goes on\n",
           sizeof to->core.image, sizeof to->memory, recorded(to));
}

/* The fields that a stray write spoils, and the bytes where they stand. */
static const struct spoiled {
    uint32_t field;
    size_t at, size;
} SPOILED[] = {
    {SGDMA_FIELD_STATUS, 2, 1},
    {SGDMA_FIELD_COUNT, 3, 1},
    {SGDMA_FIELD_CONTROL, 4, 4},
};

/*
 * Spoils the image, and puts back the field that is told, as it was before, until
 * the core is no longer refused. Whether each was told, the lowest first.
 */
static bool spoil_and_mend(struct core *core)
{
    uint8_t before[SGDMA_IMAGE_SIZE];
    bool as = true;

    memcpy(before, core->image, sizeof before);
    memset(core->image + 2, 0xFF, 6);
    printf("    spoiled: 0xFF is written over bytes 2 to 7 of the image\n");
    for (size_t i = 0; i < sizeof SPOILED / sizeof *SPOILED; i++) {
        const struct spoiled *spoiled = &SPOILED[i];
        uint32_t refused = core_look(core);

        show_refused(refused);
        as = as && refused == SGDMA_BAD_IMAGE + 256 * spoiled->field;
        memcpy(core->image + spoiled->at, before + spoiled->at, spoiled->size);
    }
    printf("    mended: each field told is put back from a copy; the core goes on\n");
    return as && core_look(core) == SGDMA_DONE;
}

/* Whether the firmware runs another slice; where the ledger is full, it lends more. */
static bool goes_on(struct firmware *firmware, uint32_t reason)
{
    size_t more = reason == SGDMA_REASON_LEDGER_FULL ? firmware_lend_all(firmware) : 0;

    if (more)
        printf("    full, with %zu descriptors done: room for %zu more records is lent\n",
               firmware_done(firmware), more);
    return reason == SGDMA_REASON_BUDGET || more;
}

/* Runs slices until one is stopped by something that the firmware cannot mend. */
static struct firmware *run(const struct scene *scene, struct firmware both[2],
                            struct outcome *outcome)
{
    struct firmware *firmware = &both[0];
    struct slice slice;
    size_t number = 0;

    show_slice_heading();
    outcome->status = 0;
    outcome->recorded = outcome->mended = true;
    do {
        slice = firmware_slice(firmware);
        number++;
        show_slice(number, &slice);
        outcome->status |= slice.status;
        outcome->recorded &= firmware_done(firmware) == slice.ran.used;
        if (number == scene->saved_after) {
            move_over(&both[1], firmware);
            firmware = &both[1];
        }
        if (number == scene->spoiled_after)
            outcome->mended = spoil_and_mend(&firmware->core);
    } while (goes_on(firmware, slice.ran.reason));
    outcome->reason = slice.ran.reason;
    outcome->fault = core_fault(&firmware->core);
    return firmware;
}

/* Walks the chain. What is done begins where what was done before it ends. */
static void walk(const struct core *core, struct outcome *outcome)
{
    uint32_t address = CHAIN;
    size_t first = 0;

    show_found_heading();
    for (size_t i = 0; i < DESCRIPTORS; i++) {
        struct found *found = &outcome->found[i];

        *found = find(core, address, first);
        show_found(found);
        address = found->d.next;
        first += found->done ? found->d.actual : 0;
    }
}

static const char *compared(bool same)
{
    return same ? "the same" : "DIFFERS";
}

/* Whether the scene played without a break comes to the same image, memory, ledger. */
static bool same_end(const struct scene *scene, const struct firmware *end)
{
    struct firmware whole;
    bool image, memory, ledger;

    prepare(&whole, scene);
    while (firmware_slice(&whole).ran.reason == SGDMA_REASON_BUDGET)
        ;
    image = !memcmp(whole.core.image, end->core.image, sizeof whole.core.image);
    memory = !memcmp(whole.memory, end->memory, sizeof whole.memory);
    ledger = whole.ledger.used == end->ledger.used &&
             !memcmp(whole.records, end->records, recorded(end));
    printf("    against one core alone: image %s, memory %s, ledger %s\n",
           compared(image), compared(memory), compared(ledger));
    return image && memory && ledger;
}

static bool found_as(const struct found *found, const struct must *must)
{
    return found->done == must->done && found->d.actual == must->count &&
           found->d.status == must->status && found->fresh == must->fresh;
}

/* Whether the record at this place tells of this descriptor what it must. RUN is set
   once in these scenes. */
static bool recorded_as(struct ledger ledger, size_t place, uint32_t descriptor,
                        const struct must *must)
{
    struct record record;

    if (place >= ledger.used)
        return false;
    record = record_at(ledger, place);
    return record.run == 1 && record.descriptor == descriptor &&
           record.actual == must->count && record.status == must->status &&
           record.eop == must->eop;
}

/*
 * Each descriptor is as it must be, and a record is there for each that is done
 * and for no other. Every beat taken is a fresh byte of one of them.
 */
static bool chain_as(const struct firmware *end, const struct outcome *outcome,
                     const struct must *must)
{
    bool as = true;
    size_t records = 0, fresh = 0;

    for (size_t i = 0; i < DESCRIPTORS; i++) {
        const struct found *found = &outcome->found[i];

        as = as && found_as(found, &must[i]);
        if (must[i].done)
            as = as && recorded_as(end->ledger, records++, found->address, &must[i]);
        fresh += must[i].fresh;
    }
    return as && outcome->recorded && end->ledger.used == records &&
           end->taken == fresh;
}

static bool as_it_must_be(const struct scene *scene, const struct firmware *end,
                          const struct outcome *outcome)
{
    return outcome->reason == scene->reason &&
           outcome->status == scene->status && outcome->mended &&
           outcome->fault.code == scene->fault.code &&
           outcome->fault.address == scene->fault.address &&
           chain_as(end, outcome, scene->found);
}

static bool play(size_t number, const struct scene *scene)
{
    struct firmware both[2];
    struct firmware *end;
    struct outcome outcome;
    bool as;

    show_title(number, scene->title, scene->see);
    prepare(&both[0], scene);
    end = run(scene, both, &outcome);
    show_fault(outcome.fault);
    printf("\n");
    walk(&end->core, &outcome);
    printf("\n");
    show_beats(end->ledger, &end->core, end->taken);
    as = as_it_must_be(scene, end, &outcome);
    if (scene->saved_after || scene->spoiled_after)
        as = same_end(scene, end) && as;
    return show_verdict(as);
}

int main(void)
{
    size_t good = 0;

    show_legend();
    for (size_t i = 0; i < SCENE_COUNT; i++)
        good += play(i + 1, &SCENES[i]);
    good += play_late(SCENE_COUNT + 1, ENABLES);
    good += play_stall(SCENE_COUNT + 2, ENABLES);
    good += play_shared(SCENE_COUNT + 3, ENABLES);
    good += play_sums(SCENE_COUNT + 4, ENABLES);
    good += play_checked(SCENE_COUNT + 5, ENABLES);
    good += play_mended(SCENE_COUNT + 6, ENABLES);
    printf("\n%zu of %d scenes are as they must be\n", good, ALL_SCENES);
    return good == ALL_SCENES ? 0 : 1;
}
