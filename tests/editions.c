/*
 * Old images forward, new ones back: every pair of sizes, the numbers and all
 * bytes. The images of fields.c are moved too, each with its broken rule.
 */
#include "editions.h"

#include <stdbool.h>
#include <string.h>

#include "check.h"

enum { OLD = SGDMA_IMAGE_SIZE_FIRST, NEW = SGDMA_IMAGE_SIZE, ROOM = NEW + 11 };
enum { FILL = 0xA5 };

static uint32_t bad_image(uint32_t field)
{
    return field ? SGDMA_BAD_IMAGE + 256 * field : SGDMA_DONE;
}

/* Moves it and sees the number, and that `to` holds what is wanted; refused, or
   past its end, it holds what it held. */
static void check_move(const char *what, const uint8_t *from, size_t from_len, size_t to_len,
                       uint32_t number, const uint8_t *wanted)
{
    uint8_t to[ROOM], after[ROOM];

    memset(to, FILL, sizeof to);
    memset(after, FILL, sizeof after);
    if (number == SGDMA_DONE)
        memcpy(after, wanted, to_len);
    check(what, sgdma_move_image(from, from_len, to, to_len), number);
    check_bytes(what, to, after, sizeof to);
}

/* The number of the edition stands in the upper four bits of the first byte. */
static void number(uint8_t *image, unsigned edition)
{
    image[0] = (uint8_t)(edition << 4 | (image[0] & 0x0F));
}

/* An image of edition 2, its field 1 with the rest: what edition 1 has of it is
   wrong where one of its 22 fields is. */
void check_moves(const uint8_t *image, uint32_t field)
{
    uint8_t old[NEW] = {0}, forward[NEW] = {0};
    bool held = image[SGDMA_IMAGE_SLOT_AT] >> SGDMA_IMAGE_SLOT_KIND_SHIFT != SGDMA_SLOT_EMPTY;
    uint32_t old_field = field > SGDMA_FIELD_FAULT_ADDRESS ? 0 : field;

    memcpy(old, image, OLD);
    if (field != SGDMA_FIELD_EDITION)
        number(old, 1);
    else if (old[0] >> 4 == 1)
        number(old, 2);
    memcpy(forward, old, OLD);
    number(forward, 2);
    check_move("2 to 2", image, NEW, NEW, bad_image(field), image);
    check_move("2 to 1", image, NEW, OLD, !field && held ? SGDMA_SLOT_HELD : bad_image(field), old);
    check_move("1 to 1", old, OLD, OLD, bad_image(old_field), old);
    check_move("1 to 2", old, OLD, NEW, bad_image(old_field), forward);
}

/* A core of mode 2 in Move over the window 0x1000 to 0x1100: two of four bytes are
   moved, an error with them; RUN, IE_GLOBAL and IE_ERROR are set, an interrupt
   pends, and the count is 3. Written down from the table of the header. */
static const uint8_t IN_MOVE[OLD] = {
    0x19, 0x20, 0x14, 0x03,                         /* 1, 2, Move, pending; status; count */
    0x00, 0x00, 0x00, 0x31, 0x00, 0x00, 0x10, 0x40, /* control, pointer */
    0x00, 0x00, 0x10, 0x00, 0x00, 0x00, 0x01, 0x00, /* base, length */
    0x00, 0x00, 0x10, 0x20, 0x00, 0x00, 0x00, 0x00, /* its address, source */
    0x00, 0x00, 0x10, 0x80, 0x00, 0x04, 0x80, 0x05, /* destination, length, control, errors */
    0x00, 0x02, 0x00, 0x00, 0x00, 0x00, 0x00, 0x00, /* moved, EOP seen and zero, fault address */
};

/* A core of mode 0 in Faulted: code 13 at 0xFFFFFFFC, armed. */
static const uint8_t IN_FAULTED[OLD] = {
    0x13, 0x4D, 0x0C, 0xFE,                         /* 1, 0, Faulted, armed, 13; status; count */
    0x00, 0x01, 0x00, 0x20, 0xFF, 0xFF, 0xFF, 0xFF, /* control, pointer */
    0xFF, 0xFF, 0x00, 0x00, 0x00, 0x01, 0x00, 0x00, /* base, length */
    0x00, 0x00, 0x00, 0x00, 0x00, 0x00, 0x00, 0x00, 0x00, 0x00, 0x00, 0x00,
    0x00, 0x00, 0x00, 0x00, 0x00, 0x00, 0x00, 0x00, 0xFF, 0xFF, 0xFF, 0xFC,
};

/* "Forward: slot empty, run number 0. .. Forward then back gives the old bytes
   exactly"; and what is forward is a core, which a call reads. */
static void check_forward(const char *name, const uint8_t *old, uint8_t first)
{
    uint8_t wanted[NEW] = {0}, forward[NEW], value[SGDMA_VALUE_SIZE], back[OLD];

    check_case(name);
    memcpy(wanted, old, OLD);
    wanted[0] = first;
    check_move("forward", old, OLD, NEW, SGDMA_DONE, wanted);
    check("forward", sgdma_move_image(old, OLD, forward, NEW), SGDMA_DONE);
    check("its line", sgdma_line(forward, NEW, value, sizeof value), SGDMA_DONE);
    check("back", sgdma_move_image(forward, NEW, back, OLD), SGDMA_DONE);
    check_bytes("the old bytes", back, old, OLD);
}

/* "Back: allowed only with an empty slot, and the run number is dropped. .. back
   then forward gives the machine with run number 0." */
static void check_back(void)
{
    uint8_t image[NEW] = {0}, zero[NEW] = {0}, back[OLD], forward[NEW];

    check_case("back from run 7");
    memcpy(image, IN_MOVE, OLD);
    number(image, 2);
    memcpy(zero, image, NEW);
    image[SGDMA_IMAGE_RUN_NUMBER_AT + 3] = 7;
    check_move("back", image, NEW, OLD, SGDMA_DONE, IN_MOVE);
    check("back", sgdma_move_image(image, NEW, back, OLD), SGDMA_DONE);
    check("forward", sgdma_move_image(back, OLD, forward, NEW), SGDMA_DONE);
    check_bytes("run 0", forward, zero, NEW);
}

/* A held slot, of each kind, by its three first bytes and the pointer: it stays in
   its own edition. A write of the pointer empties it. */
static void check_held(void)
{
    static const struct {
        uint8_t kind, low;
    } held[] = {{0x40, 0x40}, {0x80, 0x42}, {0xC0, 0xE4}};

    check_case("a held slot");
    for (size_t i = 0; i < COUNT(held); i++) {
        uint8_t image[NEW] = {0};

        memcpy(image, IN_MOVE, OLD);
        number(image, 2);
        image[11] = held[i].low;
        image[SGDMA_IMAGE_SLOT_AT] = held[i].kind;
        memcpy(&image[SGDMA_IMAGE_SLOT_ADDRESS_AT], &image[8], 4);
        check_move("back", image, NEW, OLD, 15, NULL);
        check_move("as it is", image, NEW, NEW, SGDMA_DONE, image);
        image[0] = 0x39;
        check_move("8 before 15", image, NEW, OLD, bad_image(SGDMA_FIELD_EDITION), NULL);
        image[0] = 0x29;
        check("pointer", sgdma_write_register(image, NEW, SGDMA_REGISTER_NEXT_DESCRIPTOR_POINTER,
                                              0x1040), SGDMA_DONE);
        check_move("emptied", image, NEW, OLD, SGDMA_DONE, IN_MOVE);
    }
}

/* A core that is forward runs as it would have: the descriptor in hand is finished
   and written back, and memory ends the chain. */
static void check_runs(void)
{
    static const uint8_t beats[] = {0x00, 0x33, 0x01, 0x44};
    uint8_t image[NEW], window[256] = {0}, ledger[SGDMA_RECORD_SIZE] = {0},
            report[SGDMA_REPORT_SIZE];

    check_case("run after the move forward");
    check("forward", sgdma_move_image(IN_MOVE, OLD, image, NEW), SGDMA_DONE);
    check("run", sgdma_run(image, NEW, window, sizeof window, beats, sizeof beats, NULL, 0, ledger,
                           sizeof ledger, 0, 99, report, sizeof report), SGDMA_DONE);
    check("reason", report[SGDMA_REPORT_REASON_AT + 1], SGDMA_REASON_ENDED);
    check("steps", report[SGDMA_REPORT_STEPS_AT + 3], 4);
    check("third byte", window[0x82], 0x33);
    check("last byte", window[0x83], 0x44);
    check("actual", window[0x20 + SGDMA_DESCRIPTOR_ACTUAL_BYTES_TRANSFERRED_AT], 4);
    check("errors", window[0x20 + SGDMA_DESCRIPTOR_DESC_STATUS_AT], 5);
    check("run 0", ledger[SGDMA_RECORD_RUN_AT + 3], 0);
}

static bool is_edition(size_t size)
{
    return size == 44 || size == 85;
}

/* "another size of either is 7", whatever the bytes are. */
static void check_sizes(void)
{
    static const uint8_t ones[ROOM] = {0xFF};

    check_case("sizes");
    check("edition 1", OLD, 44);
    for (size_t from = 0; from <= ROOM; from++)
        for (size_t to = 0; to <= ROOM; to++)
            if (!is_edition(from) || !is_edition(to))
                check_move("another size", ones, from, to, SGDMA_BAD_SIZE, NULL);
    check("NULL", sgdma_move_image(NULL, 0, NULL, 0), SGDMA_BAD_SIZE);
}

/* The number of the other edition is field 1, never 7: no edition but that of its
   size will do. */
static void check_numbers(void)
{
    uint8_t image[NEW] = {0};

    check_case("numbers of editions");
    memcpy(image, IN_FAULTED, OLD);
    for (unsigned edition = 0; edition < 16; edition++) {
        number(image, edition);
        check("44 bytes", sgdma_move_image(image, OLD, (uint8_t[NEW]){0}, NEW),
              bad_image(edition == 1 ? 0 : SGDMA_FIELD_EDITION));
        check("85 bytes", sgdma_move_image(image, NEW, (uint8_t[OLD]){0}, OLD),
              bad_image(edition == SGDMA_EDITION ? 0 : SGDMA_FIELD_EDITION));
    }
}

void test_editions(void)
{
    check_forward("forward from Move", IN_MOVE, 0x29);
    check_forward("forward from Faulted", IN_FAULTED, 0x23);
    check_back();
    check_held();
    check_runs();
    check_sizes();
    check_numbers();
}
