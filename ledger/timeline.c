#include "timeline.h"

#include <inttypes.h>

enum { WIDTH = 1200, LABEL = 110, ROW = 18, BOX = 12, MARGIN = 20 };

static bool begins_run(struct ledger ledger, size_t place)
{
    return place == 0 || record_at(ledger, place - 1).run != record_at(ledger, place).run;
}

/* How many rows there are, and the bytes of the longest. */
static uint64_t longest_row(struct ledger ledger, size_t *rows)
{
    uint64_t longest = 1, row = 0;

    *rows = 0;
    for (size_t i = 0; i < ledger.used; i++) {
        if (begins_run(ledger, i)) {
            ++*rows;
            row = 0;
        }
        row += record_at(ledger, i).actual;
        longest = row > longest ? row : longest;
    }
    return longest;
}

static const char *class_of(const struct record *record, enum verdict verdict)
{
    if (is_marked(verdict))
        return "marked";
    if (record->status)
        return "errors";
    return record->eop ? "eop" : "whole";
}

static void write_head(FILE *file, size_t rows)
{
    fprintf(file,
            "<svg xmlns=\"http://www.w3.org/2000/svg\" width=\"%d\" height=\"%zu\" "
            "font-family=\"monospace\" font-size=\"11\">\n"
            "<style>.whole{fill:#4a7fb5}.eop{fill:#3f9c6b}.errors{fill:#d98c2b}"
            ".marked{fill:#c8342f}rect{stroke:#fff;stroke-width:.4}</style>\n"
            "<text x=\"%d\" y=\"14\">blue: whole; green: ended by EOP; orange: errors; "
            "red: contradicted by memory; as wide as its bytes</text>\n",
            WIDTH + LABEL + MARGIN, (rows + 2) * ROW, LABEL);
}

void write_timeline(FILE *file, struct ledger ledger, const enum verdict *verdicts)
{
    size_t rows, row = 0;
    double a_byte = (double)WIDTH / (double)longest_row(ledger, &rows), x = LABEL;

    write_head(file, rows);
    for (size_t i = 0; i < ledger.used; i++) {
        struct record record = record_at(ledger, i);
        double width = a_byte * record.actual;

        if (begins_run(ledger, i)) {
            row++;
            x = LABEL;
            fprintf(file, "<text x=\"4\" y=\"%zu\">run %" PRIu32 "</text>\n",
                    row * ROW + BOX, record.run);
        }
        fprintf(file, "<rect class=\"%s\" x=\"%.2f\" y=\"%zu\" width=\"%.2f\" height=\"%d\">"
                "<title>record %zu: 0x%04" PRIX32 ", %u bytes, errors 0x%02X%s%s</title></rect>\n",
                class_of(&record, verdicts[i]), x, row * ROW + 2, width, BOX, i + 1,
                record.descriptor, (unsigned)record.actual, record.status,
                verdicts[i] == NOT_ASKED ? "" : ", ", verdict_name(verdicts[i]));
        x += width;
    }
    fprintf(file, "</svg>\n");
}
