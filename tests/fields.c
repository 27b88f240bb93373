/*
 * Which field spoils an image: every rule is broken alone, two at once, and all
 * at once. Each call that reads an image is refused and tells the lowest field;
 * and so does every move of it, and of what edition 1 has of it.
 */
#include <stdbool.h>
#include <string.h>

#include "check.h"
#include "editions.h"
#include "lent.h"

/* The fields in the order of the layout, and their bits. */
static const struct {
    uint32_t field;
    unsigned bits;
} LAYOUT[] = {
    {SGDMA_FIELD_EDITION, 4},
    {SGDMA_FIELD_MODE, 2},
    {SGDMA_FIELD_PHASE, 3},
    {SGDMA_FIELD_ARMED, 1},
    {SGDMA_FIELD_PENDING, 1},
    {SGDMA_FIELD_FAULT, 5},
    {SGDMA_FIELD_STATUS, 8},
    {SGDMA_FIELD_COUNT, 8},
    {SGDMA_FIELD_CONTROL, 32},
    {SGDMA_FIELD_POINTER, 32},
    {SGDMA_FIELD_BASE, 32},
    {SGDMA_FIELD_WINDOW_LENGTH, 32},
    {SGDMA_FIELD_DESCRIPTOR_ADDRESS, 32},
    {SGDMA_FIELD_SOURCE, 32},
    {SGDMA_FIELD_DESTINATION, 32},
    {SGDMA_FIELD_LENGTH, 16},
    {SGDMA_FIELD_DESCRIPTOR_CONTROL, 8},
    {SGDMA_FIELD_ERRORS, 8},
    {SGDMA_FIELD_MOVED, 16},
    {SGDMA_FIELD_EOP_SEEN, 1},
    {SGDMA_FIELD_ZERO, 15},
    {SGDMA_FIELD_FAULT_ADDRESS, 32},
    {SGDMA_FIELD_SLOT_KIND, 2},
    {SGDMA_FIELD_SLOT_ZERO, 6},
    {SGDMA_FIELD_SLOT_ADDRESS, 32},
    {SGDMA_FIELD_SLOT_BYTES, 256},
    {SGDMA_FIELD_RUN_NUMBER, 32},
};

/* A field and what stands there. */
struct set {
    uint32_t field;
    uint32_t value;
};

/* "Number the image fields in layout order from 1" */
static void check_numbers(void)
{
    size_t bits = 0;

    check_case("the fields of an image");
    for (size_t i = 0; i < COUNT(LAYOUT); i++) {
        check("number", LAYOUT[i].field, i + 1);
        bits += LAYOUT[i].bits;
    }
    check("bits", bits, 8 * SGDMA_IMAGE_SIZE);
}

static void put_bit(uint8_t *image, size_t place, uint32_t bit)
{
    uint8_t *byte = &image[place / 8];
    uint8_t mask = (uint8_t)(0x80 >> place % 8);

    *byte = (uint8_t)(bit ? *byte | mask : *byte & ~mask);
}

/* Puts a number into its field, the most significant bit first. */
static void put(uint8_t *image, struct set set)
{
    size_t i = 0, place = 0;

    while (LAYOUT[i].field != set.field)
        place += LAYOUT[i++].bits;
    for (unsigned bit = LAYOUT[i].bits; bit-- > 0; place++)
        put_bit(image, place, bit < 32 ? set.value >> bit & 1 : 0);
}

static void put_all(uint8_t *image, const struct set *sets, size_t count)
{
    for (size_t i = 0; i < count && sets[i].field; i++)
        put(image, sets[i]);
}

enum phase { REST, FETCH, MOVE, WRITE_BACK, ENDED, HALTED, FAULTED };

/* A good image. Of the four bytes of a descriptor in hand, one is moved in Move. */
static void make_image(uint8_t *image, uint32_t mode, enum phase phase)
{
    bool busy = phase >= FETCH && phase <= ENDED;
    const struct set always[] = {
        {SGDMA_FIELD_EDITION, 2},
        {SGDMA_FIELD_MODE, mode},
        {SGDMA_FIELD_PHASE, phase},
        {SGDMA_FIELD_STATUS, busy ? SGDMA_STATUS_BUSY : 0},
        {SGDMA_FIELD_CONTROL, SGDMA_CONTROL_RUN},
        {SGDMA_FIELD_BASE, LENT_BASE},
        {SGDMA_FIELD_WINDOW_LENGTH, LENT_LENGTH},
    };
    const struct set in_hand[] = {
        {SGDMA_FIELD_DESCRIPTOR_ADDRESS, LENT_BASE},
        {SGDMA_FIELD_SOURCE, LENT_BASE + 64},
        {SGDMA_FIELD_DESTINATION, LENT_BASE + 128},
        {SGDMA_FIELD_LENGTH, 4},
        {SGDMA_FIELD_DESCRIPTOR_CONTROL, SGDMA_DESC_OWNED_BY_HW},
        {SGDMA_FIELD_MOVED, phase == MOVE ? 1 : 4},
    };
    const struct set fault[] = {
        {SGDMA_FIELD_FAULT, SGDMA_FAULT_DESCRIPTOR_OUTSIDE},
        {SGDMA_FIELD_FAULT_ADDRESS, LENT_BASE + LENT_LENGTH},
    };

    memset(image, 0, SGDMA_IMAGE_SIZE);
    put_all(image, always, COUNT(always));
    if (phase == MOVE || phase == WRITE_BACK)
        put_all(image, in_hand, COUNT(in_hand));
    if (phase == FAULTED)
        put_all(image, fault, COUNT(fault));
}

/* Every call that reads an image must answer so on this one. */
static void check_calls(const uint8_t *image, uint32_t refusal, uint32_t field)
{
    static const struct {
        lent_call *make;
        size_t answer_len;
    } calls[] = {
        {lent_read_register, SGDMA_VALUE_SIZE},
        {lent_write_register, 0},
        {lent_line, SGDMA_VALUE_SIZE},
        {lent_run, SGDMA_REPORT_SIZE},
    };

    for (size_t i = 0; i < COUNT(calls); i++) {
        struct lent lent;

        lent_prepare(&lent, calls[i].answer_len);
        memcpy(lent.image, image, SGDMA_IMAGE_SIZE);
        check_lent(calls[i].make, &lent, refusal, field);
    }
    check_moves(image, field);
}

#define MODE_0 SGDMA_MODE_MEMORY_TO_MEMORY
#define MODE_1 SGDMA_MODE_MEMORY_TO_STREAM
#define MODE_2 SGDMA_MODE_STREAM_TO_MEMORY
#define RUN    SGDMA_CONTROL_RUN

/* Addresses for the slot, and a slot that is held at the pointer. */
enum { INSIDE = LENT_BASE + 32, UNALIGNED = LENT_BASE + 2, PAST = LENT_BASE + LENT_LENGTH - 28 };
#define AT(address, kind)                                                      \
    {SGDMA_FIELD_POINTER, (address)}, {SGDMA_FIELD_SLOT_ADDRESS, (address)},   \
    {SGDMA_FIELD_SLOT_KIND, (kind)}

/* A rule: the good image, what is put there so that it is broken and no other is,
   and the field that is told. */
static const struct rule {
    const char *broken;
    uint32_t mode;
    enum phase phase;
    struct set sets[4];
    uint32_t told;
} RULES[] = {
    {"edition 1", MODE_2, REST, {{SGDMA_FIELD_EDITION, 1}}, SGDMA_FIELD_EDITION},
    {"edition 0", MODE_2, MOVE, {{SGDMA_FIELD_EDITION, 0}}, SGDMA_FIELD_EDITION},
    {"mode 3", MODE_2, REST, {{SGDMA_FIELD_MODE, 3}}, SGDMA_FIELD_MODE},
    {"phase 7", MODE_2, REST, {{SGDMA_FIELD_PHASE, 7}}, SGDMA_FIELD_PHASE},
    {"Halted in mode 0", MODE_2, HALTED, {{SGDMA_FIELD_MODE, 0}}, SGDMA_FIELD_PHASE},
    {"Halted in mode 1", MODE_2, HALTED, {{SGDMA_FIELD_MODE, 1}}, SGDMA_FIELD_PHASE},
    {"a fault code in Rest", MODE_2, REST, {{SGDMA_FIELD_FAULT, 10}},
     SGDMA_FIELD_FAULT},
    {"a fault code in Move", MODE_2, MOVE, {{SGDMA_FIELD_FAULT, 14}},
     SGDMA_FIELD_FAULT},
    {"fault code 9", MODE_0, FAULTED, {{SGDMA_FIELD_FAULT, 9}}, SGDMA_FIELD_FAULT},
    {"fault code 15", MODE_0, FAULTED, {{SGDMA_FIELD_FAULT, 15}}, SGDMA_FIELD_FAULT},
    {"fault code 12 in mode 2", MODE_2, FAULTED, {{SGDMA_FIELD_FAULT, 12}},
     SGDMA_FIELD_FAULT},
    {"fault code 13 in mode 2", MODE_2, FAULTED, {{SGDMA_FIELD_FAULT, 13}},
     SGDMA_FIELD_FAULT},
    {"fault code 14 in mode 1", MODE_1, FAULTED, {{SGDMA_FIELD_FAULT, 14}},
     SGDMA_FIELD_FAULT},
    {"status bit 5", MODE_2, REST, {{SGDMA_FIELD_STATUS, 0x20}}, SGDMA_FIELD_STATUS},
    {"status bit 7", MODE_2, REST, {{SGDMA_FIELD_STATUS, 0x80}}, SGDMA_FIELD_STATUS},
    {"BUSY in Rest", MODE_2, REST, {{SGDMA_FIELD_STATUS, SGDMA_STATUS_BUSY}},
     SGDMA_FIELD_STATUS},
    {"BUSY in Halted", MODE_2, HALTED, {{SGDMA_FIELD_STATUS, SGDMA_STATUS_BUSY}},
     SGDMA_FIELD_STATUS},
    {"no BUSY in Fetch", MODE_2, FETCH, {{SGDMA_FIELD_STATUS, 0}},
     SGDMA_FIELD_STATUS},
    {"no BUSY in Ended", MODE_2, ENDED, {{SGDMA_FIELD_STATUS, 0}},
     SGDMA_FIELD_STATUS},
    {"ERROR in mode 0", MODE_0, REST, {{SGDMA_FIELD_STATUS, SGDMA_STATUS_ERROR}},
     SGDMA_FIELD_STATUS},
    {"EOP_ENCOUNTERED in mode 1", MODE_1, REST,
     {{SGDMA_FIELD_STATUS, SGDMA_STATUS_EOP_ENCOUNTERED}}, SGDMA_FIELD_STATUS},
    {"count 255", MODE_2, REST, {{SGDMA_FIELD_COUNT, 255}}, SGDMA_FIELD_COUNT},
    {"control bit 18", MODE_2, REST, {{SGDMA_FIELD_CONTROL, RUN | SGDMA_BIT(18)}},
     SGDMA_FIELD_CONTROL},
    {"control bit 31", MODE_2, REST, {{SGDMA_FIELD_CONTROL, RUN | SGDMA_BIT(31)}},
     SGDMA_FIELD_CONTROL},
    {"armed without SW_RESET", MODE_2, REST, {{SGDMA_FIELD_ARMED, 1}},
     SGDMA_FIELD_CONTROL},
    {"SW_RESET without armed", MODE_2, MOVE,
     {{SGDMA_FIELD_CONTROL, RUN | SGDMA_CONTROL_SW_RESET}}, SGDMA_FIELD_CONTROL},
    {"no RUN in Ended", MODE_2, ENDED, {{SGDMA_FIELD_CONTROL, 0}},
     SGDMA_FIELD_CONTROL},
    {"no RUN in Halted", MODE_2, HALTED, {{SGDMA_FIELD_CONTROL, 0}},
     SGDMA_FIELD_CONTROL},
    {"a window that is too long", MODE_2, REST,
     {{SGDMA_FIELD_WINDOW_LENGTH, SGDMA_WINDOW_LENGTH_MAX + 1}},
     SGDMA_FIELD_WINDOW_LENGTH},
    {"a window that ends too high", MODE_2, REST, {{SGDMA_FIELD_BASE, UINT32_MAX}},
     SGDMA_FIELD_WINDOW_LENGTH},
    {"an address in Rest", MODE_2, REST,
     {{SGDMA_FIELD_DESCRIPTOR_ADDRESS, LENT_BASE}}, SGDMA_FIELD_DESCRIPTOR_ADDRESS},
    {"a misaligned address", MODE_2, MOVE,
     {{SGDMA_FIELD_DESCRIPTOR_ADDRESS, LENT_BASE + 2}},
     SGDMA_FIELD_DESCRIPTOR_ADDRESS},
    {"an address below the window", MODE_0, WRITE_BACK,
     {{SGDMA_FIELD_DESCRIPTOR_ADDRESS, LENT_BASE - 4}},
     SGDMA_FIELD_DESCRIPTOR_ADDRESS},
    {"an address at the window's end", MODE_2, WRITE_BACK,
     {{SGDMA_FIELD_DESCRIPTOR_ADDRESS, LENT_BASE + LENT_LENGTH - 28}},
     SGDMA_FIELD_DESCRIPTOR_ADDRESS},
    {"a source in Rest", MODE_2, REST, {{SGDMA_FIELD_SOURCE, 1}}, SGDMA_FIELD_SOURCE},
    {"a source in Faulted", MODE_0, FAULTED, {{SGDMA_FIELD_SOURCE, 1}},
     SGDMA_FIELD_SOURCE},
    {"a destination in Rest", MODE_2, REST, {{SGDMA_FIELD_DESTINATION, 1}},
     SGDMA_FIELD_DESTINATION},
    {"a destination in Ended", MODE_2, ENDED, {{SGDMA_FIELD_DESTINATION, 1}},
     SGDMA_FIELD_DESTINATION},
    {"a length in Rest", MODE_2, REST, {{SGDMA_FIELD_LENGTH, 1}}, SGDMA_FIELD_LENGTH},
    /* Then no number of bytes moved is right either: its field is a higher one. */
    {"length 0 in mode 0", MODE_0, MOVE, {{SGDMA_FIELD_LENGTH, 0}},
     SGDMA_FIELD_LENGTH},
    {"length 0 in mode 1", MODE_1, WRITE_BACK, {{SGDMA_FIELD_LENGTH, 0}},
     SGDMA_FIELD_LENGTH},
    {"a descriptor control in Rest", MODE_2, REST,
     {{SGDMA_FIELD_DESCRIPTOR_CONTROL, SGDMA_DESC_OWNED_BY_HW}},
     SGDMA_FIELD_DESCRIPTOR_CONTROL},
    {"a descriptor that is not owned", MODE_2, MOVE,
     {{SGDMA_FIELD_DESCRIPTOR_CONTROL, SGDMA_DESC_OWNED_BY_HW - 1}},
     SGDMA_FIELD_DESCRIPTOR_CONTROL},
    {"errors in Rest", MODE_2, REST, {{SGDMA_FIELD_ERRORS, 1}}, SGDMA_FIELD_ERRORS},
    {"errors bit 7", MODE_2, MOVE, {{SGDMA_FIELD_ERRORS, 0x80}}, SGDMA_FIELD_ERRORS},
    {"errors in mode 0", MODE_0, MOVE, {{SGDMA_FIELD_ERRORS, 1}}, SGDMA_FIELD_ERRORS},
    {"errors in mode 1", MODE_1, WRITE_BACK, {{SGDMA_FIELD_ERRORS, 1}},
     SGDMA_FIELD_ERRORS},
    {"bytes moved in Rest", MODE_2, REST, {{SGDMA_FIELD_MOVED, 1}}, SGDMA_FIELD_MOVED},
    {"all bytes moved in Move", MODE_2, MOVE, {{SGDMA_FIELD_MOVED, 4}},
     SGDMA_FIELD_MOVED},
    {"errors before the first byte", MODE_2, MOVE,
     {{SGDMA_FIELD_MOVED, 0}, {SGDMA_FIELD_ERRORS, 1}}, SGDMA_FIELD_MOVED},
    {"no byte moved in WriteBack", MODE_2, WRITE_BACK,
     {{SGDMA_FIELD_MOVED, 0}, {SGDMA_FIELD_EOP_SEEN, 1}}, SGDMA_FIELD_MOVED},
    {"more bytes moved than were to be", MODE_2, WRITE_BACK,
     {{SGDMA_FIELD_MOVED, 5}, {SGDMA_FIELD_EOP_SEEN, 1}}, SGDMA_FIELD_MOVED},
    {"EOP seen in Rest", MODE_2, REST, {{SGDMA_FIELD_EOP_SEEN, 1}},
     SGDMA_FIELD_EOP_SEEN},
    {"EOP seen in Move", MODE_2, MOVE, {{SGDMA_FIELD_EOP_SEEN, 1}},
     SGDMA_FIELD_EOP_SEEN},
    {"EOP seen in mode 0", MODE_0, WRITE_BACK, {{SGDMA_FIELD_EOP_SEEN, 1}},
     SGDMA_FIELD_EOP_SEEN},
    {"written back early without EOP", MODE_2, WRITE_BACK, {{SGDMA_FIELD_MOVED, 3}},
     SGDMA_FIELD_EOP_SEEN},
    {"a zero bit", MODE_2, REST, {{SGDMA_FIELD_ZERO, 1}}, SGDMA_FIELD_ZERO},
    {"another zero bit", MODE_2, MOVE, {{SGDMA_FIELD_ZERO, 0x4000}},
     SGDMA_FIELD_ZERO},
    {"a fault address in Rest", MODE_2, REST, {{SGDMA_FIELD_FAULT_ADDRESS, 1}},
     SGDMA_FIELD_FAULT_ADDRESS},
    {"a fault address in Move", MODE_2, MOVE, {{SGDMA_FIELD_FAULT_ADDRESS, 1}},
     SGDMA_FIELD_FAULT_ADDRESS},
    {"a slot held in Rest", MODE_2, REST, {AT(INSIDE, SGDMA_SLOT_DESCRIPTOR)},
     SGDMA_FIELD_SLOT_KIND},
    {"a slot held in Ended", MODE_1, ENDED, {AT(UNALIGNED, SGDMA_SLOT_MISALIGNED)},
     SGDMA_FIELD_SLOT_KIND},
    {"a slot held in Halted", MODE_2, HALTED, {AT(PAST, SGDMA_SLOT_OUTSIDE)},
     SGDMA_FIELD_SLOT_KIND},
    {"a slot held in Faulted", MODE_0, FAULTED, {AT(INSIDE, SGDMA_SLOT_DESCRIPTOR)},
     SGDMA_FIELD_SLOT_KIND},
    {"zero bits of an empty slot", MODE_2, REST, {{SGDMA_FIELD_SLOT_ZERO, 1}},
     SGDMA_FIELD_SLOT_ZERO},
    {"zero bits of a held slot", MODE_2, MOVE,
     {AT(INSIDE, SGDMA_SLOT_DESCRIPTOR), {SGDMA_FIELD_SLOT_ZERO, 0x20}},
     SGDMA_FIELD_SLOT_ZERO},
    {"an address in an empty slot, Rest", MODE_2, REST,
     {{SGDMA_FIELD_SLOT_ADDRESS, 1}}, SGDMA_FIELD_SLOT_ADDRESS},
    {"an address in an empty slot, Move", MODE_2, MOVE,
     {{SGDMA_FIELD_POINTER, INSIDE}, {SGDMA_FIELD_SLOT_ADDRESS, INSIDE}},
     SGDMA_FIELD_SLOT_ADDRESS},
    {"a slot that is not at the pointer", MODE_2, FETCH,
     {{SGDMA_FIELD_POINTER, INSIDE + 4}, {SGDMA_FIELD_SLOT_ADDRESS, INSIDE},
      {SGDMA_FIELD_SLOT_KIND, SGDMA_SLOT_DESCRIPTOR}}, SGDMA_FIELD_SLOT_ADDRESS},
    {"a fault 11 that is not at the pointer", MODE_2, WRITE_BACK,
     {{SGDMA_FIELD_POINTER, INSIDE}, {SGDMA_FIELD_SLOT_ADDRESS, PAST},
      {SGDMA_FIELD_SLOT_KIND, SGDMA_SLOT_OUTSIDE}}, SGDMA_FIELD_SLOT_ADDRESS},
    {"a descriptor at a misaligned address", MODE_2, MOVE,
     {AT(UNALIGNED, SGDMA_SLOT_DESCRIPTOR)}, SGDMA_FIELD_SLOT_ADDRESS},
    {"a descriptor outside", MODE_2, WRITE_BACK, {AT(PAST, SGDMA_SLOT_DESCRIPTOR)},
     SGDMA_FIELD_SLOT_ADDRESS},
    {"fault 10 at a good address", MODE_2, FETCH, {AT(INSIDE, SGDMA_SLOT_MISALIGNED)},
     SGDMA_FIELD_SLOT_ADDRESS},
    {"fault 10 outside", MODE_2, MOVE, {AT(PAST, SGDMA_SLOT_MISALIGNED)},
     SGDMA_FIELD_SLOT_ADDRESS},
    {"fault 11 at a good address", MODE_2, MOVE, {AT(INSIDE, SGDMA_SLOT_OUTSIDE)},
     SGDMA_FIELD_SLOT_ADDRESS},
    {"fault 11 at a misaligned address", MODE_2, WRITE_BACK, {AT(3, SGDMA_SLOT_OUTSIDE)},
     SGDMA_FIELD_SLOT_ADDRESS},
    {"bytes in an empty slot, Rest", MODE_2, REST, {{SGDMA_FIELD_SLOT_BYTES, 1}},
     SGDMA_FIELD_SLOT_BYTES},
    {"bytes in an empty slot, Move", MODE_2, MOVE, {{SGDMA_FIELD_SLOT_BYTES, 0x80}},
     SGDMA_FIELD_SLOT_BYTES},
    {"bytes with fault 10", MODE_2, FETCH,
     {AT(UNALIGNED, SGDMA_SLOT_MISALIGNED), {SGDMA_FIELD_SLOT_BYTES, 1}},
     SGDMA_FIELD_SLOT_BYTES},
    {"bytes with fault 11", MODE_2, WRITE_BACK,
     {AT(PAST, SGDMA_SLOT_OUTSIDE), {SGDMA_FIELD_SLOT_BYTES, 1}},
     SGDMA_FIELD_SLOT_BYTES},
};

/* What looks odd in slot and run number, and yet keeps every rule. */
static const struct {
    enum phase phase;
    struct set sets[4];
} GOOD[] = {
    {FETCH, {AT(INSIDE, SGDMA_SLOT_DESCRIPTOR)}},
    {MOVE, {AT(INSIDE, SGDMA_SLOT_DESCRIPTOR), {SGDMA_FIELD_SLOT_BYTES, UINT32_MAX}}},
    {WRITE_BACK, {AT(LENT_BASE, SGDMA_SLOT_DESCRIPTOR)}},
    {FETCH, {AT(UNALIGNED, SGDMA_SLOT_MISALIGNED)}},
    {MOVE, {AT(3, SGDMA_SLOT_MISALIGNED)}},
    {MOVE, {AT(PAST, SGDMA_SLOT_OUTSIDE)}},
    {WRITE_BACK, {AT(LENT_BASE - 4, SGDMA_SLOT_OUTSIDE)}},
    {REST, {{SGDMA_FIELD_RUN_NUMBER, UINT32_MAX}}},
    {FAULTED, {{SGDMA_FIELD_RUN_NUMBER, 1}}},
};

static void check_good_slots(void)
{
    uint8_t image[SGDMA_IMAGE_SIZE];

    check_case("slots and run numbers that keep the rules");
    for (size_t i = 0; i < COUNT(GOOD); i++) {
        make_image(image, MODE_2, GOOD[i].phase);
        put_all(image, GOOD[i].sets, COUNT(GOOD[i].sets));
        check_calls(image, SGDMA_DONE, 0);
    }
}

/* The good image of a rule is one. Broken, the rule tells its field. */
static void check_alone(const struct rule *rule)
{
    uint8_t image[SGDMA_IMAGE_SIZE];

    check_case(rule->broken);
    make_image(image, rule->mode, rule->phase);
    check_calls(image, SGDMA_DONE, 0);
    put_all(image, rule->sets, COUNT(rule->sets));
    check_calls(image, SGDMA_BAD_IMAGE, rule->told);
}

static bool changes(const struct rule *rule, uint32_t field)
{
    for (size_t i = 0; i < COUNT(rule->sets); i++)
        if (rule->sets[i].field == field)
            return true;
    return false;
}

/* Whether both rules can be broken in one image. */
static bool go_together(const struct rule *one, const struct rule *other)
{
    for (size_t i = 0; i < COUNT(other->sets) && other->sets[i].field; i++)
        if (changes(one, other->sets[i].field))
            return false;
    return one->mode == other->mode && one->phase == other->phase;
}

/* Both broken: the lower field is told. */
static void check_both(const struct rule *one, const struct rule *other)
{
    uint8_t image[SGDMA_IMAGE_SIZE];

    check_case(one->broken);
    make_image(image, one->mode, one->phase);
    put_all(image, one->sets, COUNT(one->sets));
    put_all(image, other->sets, COUNT(other->sets));
    check_calls(image, SGDMA_BAD_IMAGE,
                one->told < other->told ? one->told : other->told);
}

/* What makes a good image of one of which every bit is 1, field by field. No rule
   is of armed, pending, pointer, base and run number. */
static const struct set REPAIRS[] = {
    {SGDMA_FIELD_EDITION, 2},
    {SGDMA_FIELD_MODE, MODE_2},
    {SGDMA_FIELD_PHASE, REST},
    {SGDMA_FIELD_FAULT, 0},
    {SGDMA_FIELD_STATUS, 0},
    {SGDMA_FIELD_COUNT, 0},
    {SGDMA_FIELD_CONTROL, SGDMA_CONTROL_SW_RESET},
    {SGDMA_FIELD_WINDOW_LENGTH, 0},
    {SGDMA_FIELD_DESCRIPTOR_ADDRESS, 0},
    {SGDMA_FIELD_SOURCE, 0},
    {SGDMA_FIELD_DESTINATION, 0},
    {SGDMA_FIELD_LENGTH, 0},
    {SGDMA_FIELD_DESCRIPTOR_CONTROL, 0},
    {SGDMA_FIELD_ERRORS, 0},
    {SGDMA_FIELD_MOVED, 0},
    {SGDMA_FIELD_EOP_SEEN, 0},
    {SGDMA_FIELD_ZERO, 0},
    {SGDMA_FIELD_FAULT_ADDRESS, 0},
    {SGDMA_FIELD_SLOT_KIND, SGDMA_SLOT_EMPTY},
    {SGDMA_FIELD_SLOT_ZERO, 0},
    {SGDMA_FIELD_SLOT_ADDRESS, 0},
    {SGDMA_FIELD_SLOT_BYTES, 0},
};

/* All are wrong: each is told when those before it are put right. */
static void check_all_wrong(void)
{
    uint8_t image[SGDMA_IMAGE_SIZE];
    struct lent lent;

    check_case("all fields wrong");
    memset(image, 0xFF, sizeof image);
    for (size_t i = 0; i < COUNT(REPAIRS); i++) {
        check_calls(image, SGDMA_BAD_IMAGE, REPAIRS[i].field);
        put(image, REPAIRS[i]);
    }
    lent_prepare(&lent, SGDMA_VALUE_SIZE);
    memcpy(lent.image, image, sizeof image);
    check_lent(lent_line, &lent, SGDMA_DONE, 0);
}

void test_fields(void)
{
    check_numbers();
    for (size_t i = 0; i < COUNT(RULES); i++) {
        check_alone(&RULES[i]);
        for (size_t j = 0; j < i; j++)
            if (go_together(&RULES[i], &RULES[j]))
                check_both(&RULES[i], &RULES[j]);
    }
    check_good_slots();
    check_all_wrong();
}
