/*
 * Makes the library's calls for a caller that cannot link it, because the
 * archive is x86-64 code and the caller is not.
 *
 * A frame comes in by stdin: `struct frame`, then each lent slice between its
 * two canaries. The answer goes out by stdout: the number returned, then each
 * slice, also one lent as const, between its canaries as the call left them. The
 * caller chose the canaries and looks at them, so they are not described here.
 * Every number is of this machine's order: least significant byte first.
 */

#include <stdio.h>
#include <stdlib.h>

#include "sgdma.h"

/* The most that any one call takes. */
enum { SLICES = 6, NUMBERS = 7 };

enum function {
    CREATE,
    READ_REGISTER,
    WRITE_REGISTER,
    LINE,
    RUN,
    BUILD_DESCRIPTOR,
    READ_DESCRIPTOR,
    FIND_RECORD,
    MOVE_IMAGE,
    CHECK_CHAIN,
    MEND_CHAIN,
    VIC_CREATE,
    VIC_CONFIGURE,
    VIC_ENABLE,
    VIC_TRIGGER,
    VIC_LINE,
    VIC_CHOOSE,
    TIMER_CREATE,
    TIMER_READ,
    TIMER_WRITE,
    TIMER_LINE,
    TIMER_RUN,
    TIMER_ELAPSED,
};

/* The numbers and the slices each stand in the order of the prototype. */
struct frame {
    uint64_t function;
    uint64_t canary; /* the bytes on either side of each slice */
    uint64_t slices;
    uint64_t numbers[NUMBERS];
    struct {
        uint64_t length;
        uint64_t null;
    } slice[SLICES];
};

/* A slice with its canaries, in a heap block of exactly their size. */
struct lent {
    uint8_t *block;
    size_t size;
    uint8_t *bytes;
    size_t length;
};

static void fail(const char *why)
{
    fprintf(stderr, "bridge: %s\n", why);
    exit(EXIT_FAILURE);
}

static void take(void *to, size_t size)
{
    if (fread(to, 1, size, stdin) != size)
        fail("a frame is cut short");
}

static void give(const void *from, size_t size)
{
    if (fwrite(from, 1, size, stdout) != size)
        fail("an answer cannot be written");
}

static struct lent take_slice(size_t length, size_t canary, int null)
{
    struct lent lent = {.size = canary + length + canary, .length = length};

    lent.block = malloc(lent.size);
    if (lent.block == NULL)
        fail("no memory for a slice");
    take(lent.block, lent.size);
    lent.bytes = null ? NULL : lent.block + canary;
    return lent;
}

#define SLICE(place) lent[place].bytes, lent[place].length

static uint32_t call_core(uint64_t function, const uint64_t *number, const struct lent *lent)
{
    switch (function) {
    case CREATE:
        return sgdma_create(SLICE(0), number[0], number[1], number[2]);
    case READ_REGISTER:
        return sgdma_read_register(SLICE(0), number[0], SLICE(1));
    case WRITE_REGISTER:
        return sgdma_write_register(SLICE(0), number[0], number[1]);
    case LINE:
        return sgdma_line(SLICE(0), SLICE(1));
    case RUN:
        return sgdma_run(SLICE(0), SLICE(1), SLICE(2), SLICE(3), SLICE(4), number[0], number[1],
                         SLICE(5));
    case BUILD_DESCRIPTOR:
        return sgdma_build_descriptor(SLICE(0), number[0], number[1], number[2], number[3],
                                      number[4], number[5], number[6]);
    case READ_DESCRIPTOR:
        return sgdma_read_descriptor(SLICE(0), number[0], number[1], SLICE(1));
    case FIND_RECORD:
        return sgdma_find_record(SLICE(0), number[0], number[1], number[2], SLICE(1));
    case MOVE_IMAGE:
        return sgdma_move_image(SLICE(0), SLICE(1));
    case CHECK_CHAIN:
        return sgdma_check_chain(SLICE(0), number[0], number[1], SLICE(1));
    case MEND_CHAIN:
        return sgdma_mend_chain(SLICE(0), number[0], number[1], SLICE(1));
    }
    fail("no such function");
    return 0;
}

static uint32_t call_controller(uint64_t function, const uint64_t *number,
                                const struct lent *lent)
{
    switch (function) {
    case VIC_CREATE:
        return sgdma_vic_create(SLICE(0), number[0], number[1], number[2]);
    case VIC_CONFIGURE:
        return sgdma_vic_configure(SLICE(0), number[0], number[1], number[2], number[3]);
    case VIC_ENABLE:
        return sgdma_vic_enable(SLICE(0), number[0], number[1]);
    case VIC_TRIGGER:
        return sgdma_vic_trigger(SLICE(0), number[0], number[1]);
    case VIC_LINE:
        return sgdma_vic_line(SLICE(0), number[0], number[1]);
    case VIC_CHOOSE:
        return sgdma_vic_choose(SLICE(0), SLICE(1));
    }
    fail("no such function");
    return 0;
}

static uint32_t call_timer(uint64_t function, const uint64_t *number, const struct lent *lent)
{
    switch (function) {
    case TIMER_CREATE:
        return sgdma_timer_create(SLICE(0), number[0]);
    case TIMER_READ:
        return sgdma_timer_read(SLICE(0), number[0], SLICE(1));
    case TIMER_WRITE:
        return sgdma_timer_write(SLICE(0), number[0], number[1]);
    case TIMER_LINE:
        return sgdma_timer_line(SLICE(0), SLICE(1));
    case TIMER_RUN:
        return sgdma_timer_run(SLICE(0), number[0], SLICE(1));
    case TIMER_ELAPSED:
        return sgdma_timer_elapsed(SLICE(0), number[0], number[1], SLICE(1));
    }
    fail("no such function");
    return 0;
}

#undef SLICE

static uint32_t make_call(uint64_t function, const uint64_t *number, const struct lent *lent)
{
    if (function < VIC_CREATE)
        return call_core(function, number, lent);
    if (function < TIMER_CREATE)
        return call_controller(function, number, lent);
    return call_timer(function, number, lent);
}

static void answer(const struct frame *frame)
{
    struct lent lent[SLICES] = {0};
    uint32_t returned;

    if (frame->slices > SLICES)
        fail("too many slices");
    for (size_t place = 0; place < frame->slices; place++)
        lent[place] = take_slice(frame->slice[place].length, frame->canary,
                                 frame->slice[place].null != 0);
    returned = make_call(frame->function, frame->numbers, lent);
    give(&returned, sizeof returned);
    for (size_t place = 0; place < frame->slices; place++) {
        give(lent[place].block, lent[place].size);
        free(lent[place].block);
    }
    if (fflush(stdout) != 0)
        fail("an answer cannot be written");
}

int main(void)
{
    /* So large that nearly every frame is one read and every answer one write. */
    static char in[1 << 18], out[1 << 18];
    struct frame frame;
    size_t got;

    setvbuf(stdin, in, _IOFBF, sizeof in);
    setvbuf(stdout, out, _IOFBF, sizeof out);
    while ((got = fread(&frame, 1, sizeof frame, stdin)) == sizeof frame)
        answer(&frame);
    if (got != 0)
        fail("a frame is cut short");
    return EXIT_SUCCESS;
}
