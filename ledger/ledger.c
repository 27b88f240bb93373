/*
 * A saved ledger on the screen.
 *
 *   ledger FILE SVG [MEMORY BASE]
 *
 * FILE holds records and nothing else. A ledger of many records is shown by runs, with
 * the marked records alone, and as a timeline in the file SVG. MEMORY is a dump of the
 * window that begins at the bus address BASE. It ends with 1 where a record is marked,
 * and with 2 where the files are not what they must be.
 */
#include <inttypes.h>
#include <stdio.h>
#include <stdlib.h>

#include "file.h"
#include "tell.h"
#include "timeline.h"

const char program_name[] = "ledger";

enum { MANY = 40, SOME_MARKED = 1 };

static struct ledger ledger_in(const char *path)
{
    struct file file = read_file(path);
    struct ledger ledger = {file.bytes, file.length / SGDMA_RECORD_SIZE, 0};

    char why[128];

    if (file.length % SGDMA_RECORD_SIZE || ledger.room > UINT32_MAX) {
        snprintf(why, sizeof why, "SGDMA_BAD_LEDGER: it has %zu bytes, which are no whole records of %d",
                 file.length, SGDMA_RECORD_SIZE);
        give_up(path, why);
    }
    ledger.used = (uint32_t)ledger.room;
    return ledger;
}

static size_t count_marked(struct ledger ledger, const enum verdict *verdicts)
{
    size_t marked = 0;

    for (size_t i = 0; i < ledger.used; i++)
        marked += is_marked(verdicts[i]);
    return marked;
}

static void show_row(size_t number, const struct record *record, int run_width, enum verdict verdict)
{
    show_record(number, record, run_width);
    if (verdict != NOT_ASKED)
        printf("%s%s", record->eop ? "  " : "   ", verdict_name(verdict));
    printf("\n");
}

/* The rows of all records, or of the marked ones alone. Where they are not held against
   memory there is no column of it: an empty one would read as if nothing were wrong. */
static void show_rows(struct ledger ledger, const enum verdict *verdicts, bool held, bool all)
{
    int width = run_width(ledger);

    show_ledger_heading(width);
    printf("%s\n", held ? "  memory" : "");
    for (size_t i = 0; i < ledger.used; i++) {
        struct record record = record_at(ledger, i);

        if (all || is_marked(verdicts[i]))
            show_row(i + 1, &record, width, verdicts[i]);
    }
}

/* A row for each stretch of records of one run. */
static void show_runs(struct ledger ledger)
{
    printf("    run         records       bytes  with errors\n");
    for (size_t i = 0; i < ledger.used;) {
        uint32_t run = record_at(ledger, i).run;
        size_t first = i, errors = 0;
        uint64_t bytes = 0;

        for (; i < ledger.used && record_at(ledger, i).run == run; i++) {
            bytes += record_at(ledger, i).actual;
            errors += record_at(ledger, i).status != 0;
        }
        printf("    %-10" PRIu32 "  %7zu  %10" PRIu64 "  %11zu\n", run, i - first, bytes, errors);
    }
    printf("\n");
}

static void show_count(uint32_t records, bool held, size_t marked)
{
    printf("    %" PRIu32 " %s, ", records, records == 1 ? "record" : "records");
    if (held)
        printf("%zu marked\n", marked);
    else
        printf("not held against memory\n");
}

static void draw(const char *path, struct ledger ledger, const enum verdict *verdicts)
{
    FILE *file = fopen(path, "w");

    if (!file)
        give_up(path, "it cannot be written");
    write_timeline(file, ledger, verdicts);
    if (fclose(file))
        give_up(path, "it cannot be written");
    printf("    the timeline, with every record, is %s\n", path);
}

int main(int count, char **arguments)
{
    struct dump dump = {NULL, 0, 0};
    struct ledger ledger;
    enum verdict *verdicts;
    size_t marked;
    bool many, held = count == 5;

    if (count != 3 && count != 5)
        give_up("usage", "ledger FILE SVG [MEMORY BASE]");
    ledger = ledger_in(arguments[1]);
    if (held)
        dump = dump_in(arguments[3], arguments[4]);
    verdicts = malloc((ledger.used + (size_t)1) * sizeof *verdicts);
    if (!verdicts)
        give_up(arguments[1], "it is too large");
    judge(ledger, dump, verdicts);
    marked = count_marked(ledger, verdicts);
    many = ledger.used > MANY;
    if (many)
        show_runs(ledger);
    if (!many || marked)
        show_rows(ledger, verdicts, held, !many);
    show_count(ledger.used, held, marked);
    if (many)
        draw(arguments[2], ledger, verdicts);
    free(verdicts);
    free(ledger.bytes);
    free(dump.bytes);
    return marked ? SOME_MARKED : 0;
}
