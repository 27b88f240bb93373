#include "show.h"

#include <inttypes.h>
#include <stdio.h>

static const char FRESH = '#';
static const char OLD = '.';
static const char STRANGE = '?';
static const char OUTSIDE = ' ';

/* The sign of the byte at an address where this sample must land. */
static char sign(const struct core *core, uint32_t address, size_t number)
{
    uint8_t byte;

    if (address - core->base >= core->length)
        return OUTSIDE;
    byte = *core_byte(core, address);
    if (byte == sample(THIS_STREAM, number))
        return FRESH;
    return byte >> 6 == OLD_STREAM ? OLD : STRANGE;
}

struct found find(const struct core *core, uint32_t address, size_t first)
{
    struct found found = {0};

    found.address = address;
    found.d = core_descriptor(core, address);
    found.done = is_done(&found.d);
    for (size_t i = 0; i < PACKET; i++)
        found.map[i] = sign(core, found.d.destination + (uint32_t)i, first + i);
    while (found.map[found.fresh] == FRESH)
        found.fresh++;
    return found;
}

void show_legend(void)
{
    printf("A core in mode 2 carries a stream of samples into %d bytes of memory, by a\n"
           "chain of %d descriptors of %d bytes each, in slices of %d steps. Each sample\n"
           "carries its number. A byte where samples land is shown as\n"
           "    %c  the sample of this stream that belongs there\n"
           "    %c  a sample of an old stream: stale\n"
           "    %c  anything else\n"
           "The ledger has a record of each descriptor written back, dated with the run: how\n"
           "often RUN had gone from 0 to 1 by then. The number of records is handed on from\n"
           "slice to slice.\n",
           MEMORY, DESCRIPTORS, PACKET, SLICE, FRESH, OLD, STRANGE);
}

/* All titles stand in one column, with the text below them. */
void show_title(size_t number, const char *title, const char *see)
{
    printf("\n%zu.%*s%s\n    %s\n\n", number, number < 10 ? 2 : 1, "", title, see);
}

void show_slice_heading(void)
{
    printf("    slice  steps  beats  records  stopped by  line  "
           "status read and cleared\n");
}

void show_slice(size_t number, const struct slice *slice)
{
    printf("    %5zu  %5" PRIu32 "  %5" PRIu32 "  %7" PRIu32 "  %-10s  %-4s",
           number, slice->ran.steps, slice->ran.taken, slice->ran.used,
           reason_name(slice->ran.reason), slice->line ? "up" : "down");
    if (slice->line)
        show_status(slice->status);
    printf("\n");
}

void show_found_heading(void)
{
    printf("    descriptor     count  status  lands at  bytes there       "
           "from this stream\n");
}

void show_found(const struct found *found)
{
    unsigned count = found->d.actual;

    printf("    0x%04" PRIX32 "  %-5s  %5u    0x%02X    0x%04" PRIX32 "  %s  ",
           found->address, found->done ? "done" : "owned", count,
           found->d.status, found->d.destination, found->map);
    if (!found->done)
        printf("not done\n");
    else if (found->fresh >= count)
        printf("all %u\n", count);
    else
        printf("%zu of %u: STALE\n", found->fresh, count);
}

bool show_verdict(bool as)
{
    if (!as)
        printf("    NOT AS IT MUST BE\n");
    return as;
}
