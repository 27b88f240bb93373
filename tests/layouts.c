/*
 * Where each field stands: the descriptor in the window as the builder writes
 * it, the answer as the reader gives it, and the sizes and limits of what is
 * lent.
 */
#include <string.h>

#include "check.h"
#include "core.h"

enum { BASE = 4096, LENGTH = 96, AT = 32 };

/* Every byte of every field is another one. */
static const struct descriptor D = {0x01020304, 0x05060708, 0x090A0B0C,
                                    0x0D0E,     0x0F10,     0x11,
                                    0x12};

/* A field, where it stands, and its bytes, the most significant first. */
struct field {
    size_t at;
    uint32_t value;
    size_t size;
};

/* What the builder takes; it writes the others as zero. */
static const struct field BUILT[] = {
    {SGDMA_DESCRIPTOR_SOURCE_AT, 0x01020304, 4},
    {SGDMA_DESCRIPTOR_DESTINATION_AT, 0x05060708, 4},
    {SGDMA_DESCRIPTOR_NEXT_DESC_PTR_AT, 0x090A0B0C, 4},
    {SGDMA_DESCRIPTOR_BYTES_TO_TRANSFER_AT, 0x0D0E, 2},
    {SGDMA_DESCRIPTOR_DESC_CONTROL_AT, 0x12, 1},
};

static const struct field WRITTEN_BACK[] = {
    {SGDMA_DESCRIPTOR_ACTUAL_BYTES_TRANSFERRED_AT, 0x0F10, 2},
    {SGDMA_DESCRIPTOR_DESC_STATUS_AT, 0x11, 1},
};

static const struct field ANSWERED[] = {
    {SGDMA_ANSWER_SOURCE_AT, 0x01020304, 4},
    {SGDMA_ANSWER_DESTINATION_AT, 0x05060708, 4},
    {SGDMA_ANSWER_NEXT_DESC_PTR_AT, 0x090A0B0C, 4},
    {SGDMA_ANSWER_BYTES_TO_TRANSFER_AT, 0x0D0E, 2},
    {SGDMA_ANSWER_ACTUAL_BYTES_TRANSFERRED_AT, 0x0F10, 2},
    {SGDMA_ANSWER_DESC_STATUS_AT, 0x11, 1},
    {SGDMA_ANSWER_DESC_CONTROL_AT, 0x12, 1},
};

static void put_fields(uint8_t *bytes, const struct field *fields, size_t count,
                       bool little_endian)
{
    for (size_t f = 0; f < count; f++)
        for (size_t i = 0; i < fields[f].size; i++) {
            size_t shift = little_endian ? i : fields[f].size - 1 - i;

            bytes[fields[f].at + i] = (uint8_t)(fields[f].value >> 8 * shift);
        }
}

/* All 32 bytes are written, and none beside them. */
static void check_builder(void)
{
    uint8_t window[LENGTH], wanted[LENGTH];
    struct core core = {.memory = window, .length = LENGTH, .base = BASE};

    check_case("builder");
    memset(window, 0xEE, sizeof window);
    memset(wanted, 0xEE, sizeof wanted);
    memset(wanted + AT, 0, SGDMA_DESCRIPTOR_SIZE);
    put_fields(wanted + AT, BUILT, COUNT(BUILT), true);
    core_build(&core, BASE + AT, &D);
    check_bytes("window", window, wanted, sizeof window);
}

/* Every field is read, and no reserved byte. */
static void check_reader(void)
{
    uint8_t window[LENGTH], wanted[SGDMA_DESCRIPTOR_ANSWER_SIZE];
    uint8_t answer[SGDMA_DESCRIPTOR_ANSWER_SIZE];

    check_case("reader");
    memset(window, 0xEE, sizeof window);
    put_fields(window + AT, BUILT, COUNT(BUILT), true);
    put_fields(window + AT, WRITTEN_BACK, COUNT(WRITTEN_BACK), true);
    memset(wanted, 0xEE, sizeof wanted);
    put_fields(wanted, ANSWERED, COUNT(ANSWERED), false);
    check("returned", sgdma_read_descriptor(window, sizeof window, BASE, BASE + AT,
                                            answer, sizeof answer), SGDMA_DONE);
    check_bytes("answer", answer, wanted, sizeof answer);
}

/* A descriptor has just room at the window's end, and 4 bytes on it has not. */
static void check_descriptor_size(void)
{
    uint32_t last = BASE + LENGTH - SGDMA_DESCRIPTOR_SIZE;
    uint8_t window[LENGTH];

    check_case("the last descriptor of a window");
    check("inside", sgdma_build_descriptor(window, LENGTH, BASE, last,
                                           0, 0, 0, 0, 0), SGDMA_DONE);
    check("outside", sgdma_build_descriptor(window, LENGTH, BASE, last + 4,
                                            0, 0, 0, 0, 0), SGDMA_OUTSIDE);
}

static void check_window_limits(void)
{
    static const uint64_t end = UINT64_C(1) << 32, most = SGDMA_WINDOW_LENGTH_MAX;
    const struct {
        uint64_t base, length;
        uint32_t returned;
    } windows[] = {
        {0, 0, SGDMA_DONE},           {0, most, SGDMA_DONE},
        {0, most + 1, SGDMA_BAD_WINDOW}, {end - most, most, SGDMA_DONE},
        {end - most + 1, most, SGDMA_BAD_WINDOW}, {end - 1, 0, SGDMA_DONE},
        {end - 1, 1, SGDMA_DONE},     {end - 1, 2, SGDMA_BAD_WINDOW},
        {end, 0, SGDMA_BAD_WINDOW},   {UINT64_MAX, 1, SGDMA_BAD_WINDOW},
        {1, UINT64_MAX, SGDMA_BAD_WINDOW},
    };
    uint8_t image[SGDMA_IMAGE_SIZE];

    check_case("the limits of a window");
    for (size_t i = 0; i < COUNT(windows); i++)
        check("returned", sgdma_create(image, sizeof image,
                                       SGDMA_MODE_MEMORY_TO_MEMORY,
                                       windows[i].base, windows[i].length),
              windows[i].returned);
}

void test_layouts(void)
{
    check_builder();
    check_reader();
    check_descriptor_size();
    check_window_limits();
}
