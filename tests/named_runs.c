/*
 * Runs told in the names of the header: each mode, reason and fault, each bit of
 * desc_control and of a beat, and what RUN, STOP_DMA_ER and PARK do.
 */
#include "check.h"
#include "rows.h"

#define OWNED     SGDMA_DESC_OWNED_BY_HW
#define COMPLETED SGDMA_STATUS_DESCRIPTOR_COMPLETED
#define AT_END    (SGDMA_STATUS_CHAIN_COMPLETED | SGDMA_STATUS_BUSY)

/* Stream to memory, and its end. */
#define FILL                                                                   \
    GIVEN, .mode = SGDMA_MODE_STREAM_TO_MEMORY, .control = SGDMA_CONTROL_RUN,  \
    .d.control = OWNED
#define FILLED                                                                 \
    RUN_1, .ran.reason = SGDMA_REASON_ENDED, .status = COMPLETED | AT_END

/* One beat fills D. */
#define FILL_ONE   FILL, .d.length = 1, .beat_count = 1
#define FILLED_ONE                                                             \
    FILLED, .ran.steps = 5, .ran.taken = 1, .records = {RECORD_OF_D(1, 0, 0)}

/* The four bytes AA BB CC DD go from 4200 to 4224, or to the output. */
#define COPY                                                                   \
    FILL, .mode = SGDMA_MODE_MEMORY_TO_MEMORY, .d.source = 4200,               \
    .data = {0xAA, 0xBB, 0xCC, 0xDD}
#define COPIED                                                                 \
    FILLED, .ran.taken = 0, .landed = {0xAA, 0xBB, 0xCC, 0xDD}
#define SEND   COPY, .mode = SGDMA_MODE_MEMORY_TO_STREAM, .room = 4
#define SENT                                                                   \
    COPIED, .landed = {0}, .ran.made = 4, .made = {0xAA, 0xBB, 0xCC, 0xDD}

/* D is as it was built, and nothing has landed. */
#define NOT_DONE                                                               \
    RUN_1, .ran.taken = 0, .ran.used = 0, .status = 0,                         \
    .last_four = {0, 0, 0, OWNED}, .landed = {0}
#define FAULTED NOT_DONE, .ran.reason = SGDMA_REASON_FAULTED

ROWS_BEGIN
static const struct row REASONS[] = {
    {"Rest: RUN 0",
     {FILL, .control = 0},
     {NOT_DONE, .ran.reason = SGDMA_REASON_REST, .ran.steps = 0, .pointer = 4096}},
    {"Ended", {FILL}, {FILLED}},
    {"Halted: an error beat under STOP_DMA_ER",
     {FILL, .control = SGDMA_CONTROL_RUN | SGDMA_CONTROL_STOP_DMA_ER,
      .beats = {UINT32_C(5) << SGDMA_INPUT_ERROR_SHIFT, 2, 3, 4}},
     {FILLED, .ran.reason = SGDMA_REASON_HALTED, .ran.steps = 7,
      .status = COMPLETED | SGDMA_STATUS_ERROR, .last_four = {4, 0, 5, 0},
      .landed = {0, 2, 3, 4}, .records = {RECORD_OF_D(4, 5, 0)}}},
    {"no halt: an error beat without STOP_DMA_ER",
     {FILL, .beats = {UINT32_C(5) << SGDMA_INPUT_ERROR_SHIFT, 2, 3, 4}},
     {FILLED, .status = COMPLETED | SGDMA_STATUS_ERROR | AT_END,
      .last_four = {4, 0, 5, 0}, .landed = {0, 2, 3, 4},
      .records = {RECORD_OF_D(4, 5, 0)}}},
    {"NeedsInput: no beat",
     {FILL, .beat_count = 0},
     {NOT_DONE, .ran.reason = SGDMA_REASON_NEEDS_INPUT, .ran.steps = 2,
      .status = SGDMA_STATUS_BUSY}},
    {"OutputFull: room for one beat",
     {SEND, .room = 1},
     {NOT_DONE, .ran.reason = SGDMA_REASON_OUTPUT_FULL, .ran.steps = 3,
      .ran.made = 1, .made = {0xAA}, .status = SGDMA_STATUS_BUSY}},
    {"Budget: one step",
     {FILL, .budget = 1},
     {NOT_DONE, .ran.reason = SGDMA_REASON_BUDGET, .ran.steps = 1,
      .status = SGDMA_STATUS_BUSY, .pointer = 4096}},
    {"PARK: owned again, and so filled again",
     {FILL, .d.next = ROW_D, .control = SGDMA_CONTROL_RUN | SGDMA_CONTROL_PARK,
      .beats = {1, 2, 3, 4, 5, 6}, .beat_count = 6},
     {FILLED, .ran.reason = SGDMA_REASON_NEEDS_INPUT, .ran.steps = 10,
      .ran.taken = 6, .status = COMPLETED | SGDMA_STATUS_BUSY, .pointer = ROW_D,
      .last_four = {4, 0, 0, OWNED}, .landed = {5, 6, 3, 4}}},
};

static const struct row FAULTS[] = {
    {"fault: pointer misaligned",
     {FILL, .pointer = 4097},
     {FAULTED, .ran.steps = 2, .pointer = 4097,
      .fault = {SGDMA_FAULT_MISALIGNED, 4097}}},
    {"fault: descriptor below the window",
     {FILL, .pointer = 4092},
     {FAULTED, .ran.steps = 2, .pointer = 4092,
      .fault = {SGDMA_FAULT_DESCRIPTOR_OUTSIDE, 4092}}},
    {"fault: no length, mode 1",
     {SEND, .d.length = 0},
     {FAULTED, .ran.steps = 2, .pointer = 4096,
      .fault = {SGDMA_FAULT_NO_LENGTH, 4096}}},
    {"fault: source outside, mode 0",
     {COPY, .d.source = 4352},
     {FAULTED, .ran.steps = 3, .fault = {SGDMA_FAULT_SOURCE_OUTSIDE, 4352}}},
    {"fault: source outside, mode 1, before no room",
     {SEND, .d.source = 4351, .room = 1},
     {FAULTED, .ran.steps = 4, .ran.made = 1, .made = {0xAA},
      .fault = {SGDMA_FAULT_SOURCE_OUTSIDE, 4352}}},
    {"fault: destination outside, mode 0",
     {COPY, .d.destination = 4352},
     {FAULTED, .ran.steps = 3, .fault = {SGDMA_FAULT_DESTINATION_OUTSIDE, 4352}}},
    {"fault: destination outside, mode 2",
     {FILL, .d.destination = 4349},
     {FAULTED, .ran.steps = 6, .ran.taken = 3, .landed = {0x11, 0x22, 0x33},
      .fault = {SGDMA_FAULT_DESTINATION_OUTSIDE, 4352}}},
};

static const struct row DESCRIPTOR_BITS[] = {
    {"not OWNED_BY_HW",
     {FILL, .d.control = 0},
     {NOT_DONE, .ran.reason = SGDMA_REASON_ENDED, .ran.steps = 2,
      .status = AT_END, .pointer = 4096, .last_four = {0, 0, 0, 0}}},
    {"no other bit, mode 0", {COPY}, {COPIED}},
    {"READ_FIXED_ADDRESS, mode 0",
     {COPY, .d.control = OWNED | SGDMA_DESC_READ_FIXED_ADDRESS},
     {COPIED, .landed = {0xAA, 0xAA, 0xAA, 0xAA},
      .last_four = {4, 0, 0, SGDMA_DESC_READ_FIXED_ADDRESS}}},
    {"WRITE_FIXED_ADDRESS, mode 0",
     {COPY, .d.control = OWNED | SGDMA_DESC_WRITE_FIXED_ADDRESS},
     {COPIED, .landed = {0xDD},
      .last_four = {4, 0, 0, SGDMA_DESC_WRITE_FIXED_ADDRESS}}},
    {"WRITE_FIXED_ADDRESS, mode 2",
     {FILL, .d.control = OWNED | SGDMA_DESC_WRITE_FIXED_ADDRESS},
     {FILLED, .landed = {0x44},
      .last_four = {4, 0, 0, SGDMA_DESC_WRITE_FIXED_ADDRESS}}},
    {"no other bit, mode 1", {SEND}, {SENT}},
    {"WRITE_FIXED_ADDRESS, mode 1: SOP",
     {SEND, .d.control = OWNED | SGDMA_DESC_WRITE_FIXED_ADDRESS},
     {SENT, .made = {SGDMA_OUTPUT_SOP | 0xAA, 0xBB, 0xCC, 0xDD},
      .last_four = {4, 0, 0, SGDMA_DESC_WRITE_FIXED_ADDRESS}}},
    {"GENERATE_EOP, mode 1",
     {SEND, .d.control = OWNED | SGDMA_DESC_GENERATE_EOP},
     {SENT, .made = {0xAA, 0xBB, 0xCC, SGDMA_OUTPUT_EOP | 0xDD},
      .last_four = {4, 0, 0, SGDMA_DESC_GENERATE_EOP}}},
    {"bits 3 to 6 are kept as given",
     {FILL, .d.control = OWNED | 0x78},
     {FILLED, .last_four = {4, 0, 0, 0x78}}},
};

static const struct row BEATS[] = {
    {"all data bits of an output beat",
     {SEND, .data = {0xFF, 0, 0, 0}},
     {SENT, .made = {SGDMA_OUTPUT_DATA_MASK, 0, 0, 0}}},
    {"all data bits of an input beat",
     {FILL_ONE, .beats = {SGDMA_INPUT_DATA_MASK}},
     {FILLED_ONE, .last_four = {1, 0, 0, 0}, .landed = {0xFF}}},
    {"all error bits of an input beat",
     {FILL_ONE, .beats = {SGDMA_INPUT_ERROR_MASK}},
     {FILLED_ONE, .status = COMPLETED | SGDMA_STATUS_ERROR | AT_END,
      .last_four = {1, 0, SGDMA_INPUT_ERROR_MASK >> SGDMA_INPUT_ERROR_SHIFT, 0},
      .landed = {0}, .records = {RECORD_OF_D(1, 0x7F, 0)}}},
    {"EOP of an input beat, length 0",
     {FILL_ONE, .d.length = 0, .beats = {SGDMA_INPUT_EOP}},
     {FILLED_ONE, .status = COMPLETED | SGDMA_STATUS_EOP_ENCOUNTERED | AT_END,
      .last_four = {1, 0, 0, 0}, .landed = {0},
      .records = {RECORD_OF_D(1, 0, 1)}}},
};
ROWS_END

void test_named_runs(void)
{
    static const struct {
        const struct row *rows;
        size_t count;
    } tables[] = {
        {REASONS, COUNT(REASONS)},
        {FAULTS, COUNT(FAULTS)},
        {DESCRIPTOR_BITS, COUNT(DESCRIPTOR_BITS)},
        {BEATS, COUNT(BEATS)},
    };

    for (size_t t = 0; t < COUNT(tables); t++)
        for (size_t i = 0; i < tables[t].count; i++)
            check_row(&tables[t].rows[i]);
}
