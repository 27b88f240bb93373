/*
 * The eleven known runs of the paper, in its numbers, with the records of what
 * they write back.
 */
#include "check.h"
#include "rows.h"

/* Rest, one Fetch, and a fault there. */
#define FAULTED                                                                \
    RUN_1, .ran.reason = 3, .ran.steps = 2, .ran.taken = 0, .ran.used = 0,     \
    .status = 0x00, .last_four = {0, 0, 0, 0x80}, .landed = {0}

ROWS_BEGIN
static const struct row KNOWN_RUNS[] = {
    {"known run 1", {GIVEN}, {RUN_1}},
    {"known run 2: second beat 0x0122",
     {GIVEN, .beats = {0x0011, 0x0122, 0x0033, 0x0044}},
     {RUN_1, .ran.steps = 6, .ran.taken = 2, .status = 0x1E,
      .last_four = {2, 0, 0, 0}, .landed = {0x11, 0x22},
      .records = {RECORD_OF_D(2, 0, 1)}}},
    {"known run 3: pointer 4128",
     {GIVEN, .pointer = 4128},
     {RUN_1, .ran.steps = 2, .ran.taken = 0, .ran.used = 0, .status = 0x18,
      .last_four = {0, 0, 0, 0x80}, .landed = {0}}},
    {"known run 4: three beats",
     {GIVEN, .beat_count = 3},
     {RUN_1, .ran.reason = 4, .ran.steps = 5, .ran.taken = 3, .ran.used = 0,
      .status = 0x10, .last_four = {0, 0, 0, 0x80},
      .landed = {0x11, 0x22, 0x33}}},
    {"known run 5: third beat 0x0633, control 0x60",
     {GIVEN, .beats = {0x0011, 0x0022, 0x0633, 0x0044}, .control = 0x60},
     {RUN_1, .ran.reason = 2, .ran.steps = 7, .status = 0x05,
      .last_four = {4, 0, 3, 0}, .records = {RECORD_OF_D(4, 3, 0)}}},
    {"known run 6: D next 4096, control 0x20020, 8 beats",
     {GIVEN, .d.next = 4096, .control = 0x20020, .beat_count = 8,
      .beats = {0x11, 0x22, 0x33, 0x44, 0x55, 0x66, 0x77, 0x88}},
     {RUN_1, .ran.reason = 4, .ran.steps = 14, .ran.taken = 8, .ran.used = 2,
      .status = 0x14, .pointer = 4096, .last_four = {4, 0, 0, 0x80},
      .landed = {0x55, 0x66, 0x77, 0x88},
      .records = {RECORD_OF_D(4, 0, 0), RECORD_OF_D(4, 0, 0)}}},
    {"known run 7: destination 4350",
     {GIVEN, .d.destination = 4350},
     {FAULTED, .ran.steps = 5, .ran.taken = 2, .fault = {14, 4352},
      .landed = {0x11, 0x22}}},
    {"known run 8: pointer 4098",
     {GIVEN, .pointer = 4098},
     {FAULTED, .pointer = 4098, .fault = {10, 4098}}},
    {"known run 8: pointer 4324",
     {GIVEN, .pointer = 4324},
     {FAULTED, .pointer = 4324, .fault = {11, 4324}}},
    {"known run 8: pointer 4320 is inside",
     {GIVEN, .pointer = 4320},
     {FAULTED, .ran.reason = 1, .status = 0x18, .pointer = 4320}},
    {"known run 9: mode 0, length 0",
     {GIVEN, .mode = 0, .d.length = 0},
     {FAULTED, .pointer = 4096, .fault = {12, 4096}}},
    {"known run 10: mode 1, length 2",
     {GIVEN, .mode = 1, .d.source = 4224, .d.destination = 0, .d.length = 2,
      .d.control = 0x85, .data = {0xAA, 0xBB}, .room = 2},
     {RUN_1, .ran.steps = 6, .ran.taken = 0, .ran.made = 2,
      .made = {0x02AA, 0x01BB}, .last_four = {2, 0, 0, 0x05},
      .records = {RECORD_OF_D(2, 0, 0)}}},
    {"known run 10: mode 1, length 1",
     {GIVEN, .mode = 1, .d.source = 4224, .d.destination = 0, .d.length = 1,
      .d.control = 0x85, .data = {0xAA, 0xBB}, .room = 2},
     {RUN_1, .ran.steps = 5, .ran.taken = 0, .ran.made = 1, .made = {0x03AA},
      .last_four = {1, 0, 0, 0x05}, .records = {RECORD_OF_D(1, 0, 0)}}},
    {"known run 11: budget 8", {GIVEN, .budget = 8}, {RUN_1}},
    {"known run 11: budget 7",
     {GIVEN, .budget = 7},
     {RUN_1, .ran.reason = 6, .ran.steps = 7, .status = 0x14}},
};
ROWS_END

void test_known_runs(void)
{
    for (size_t i = 0; i < COUNT(KNOWN_RUNS); i++)
        check_row(&KNOWN_RUNS[i]);
}
