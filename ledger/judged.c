#include "judged.h"

#include "progress.h"

static const struct {
    const char *name;
    bool marked;
} VERDICTS[] = {
    [NOT_ASKED] = {"", false},
    [AGREES] = {"as in memory", false},
    [LATER] = {"a later one is there", false},
    [OWNED_AGAIN] = {"owned in memory", false},
    [CONTRADICTED] = {"CONTRADICTED by memory", true},
    [OUTSIDE] = {"NO DESCRIPTOR there", true},
};

bool is_marked(enum verdict verdict)
{
    return VERDICTS[verdict].marked;
}

const char *verdict_name(enum verdict verdict)
{
    return VERDICTS[verdict].name;
}

/* The descriptor at an address of the dump; false where there is none. */
static bool look(struct dump dump, uint32_t address, struct descriptor *d)
{
    uint8_t answer[SGDMA_DESCRIPTOR_ANSWER_SIZE];

    if (sgdma_read_descriptor(dump.bytes, dump.length, dump.base, address, answer,
                              sizeof answer))
        return false;
    d->actual = (uint16_t)number_at(answer + SGDMA_ANSWER_ACTUAL_BYTES_TRANSFERRED_AT, 2);
    d->status = answer[SGDMA_ANSWER_DESC_STATUS_AT];
    d->control = answer[SGDMA_ANSWER_DESC_CONTROL_AT];
    return true;
}

/* `seen` has a place for each byte of a dump: where a later record's descriptor is. */
static enum verdict judge_one(const struct record *record, struct dump dump, bool *seen)
{
    struct descriptor d = {0};

    if (!dump.bytes)
        return NOT_ASKED;
    if (!look(dump, record->descriptor, &d))
        return OUTSIDE;
    if (seen[record->descriptor - dump.base])
        return LATER;
    seen[record->descriptor - dump.base] = true;
    if (!is_done(&d))
        return OWNED_AGAIN;
    return d.actual == record->actual && d.status == record->status ? AGREES : CONTRADICTED;
}

void judge(struct ledger ledger, struct dump dump, enum verdict *verdicts)
{
    bool seen[SGDMA_WINDOW_LENGTH_MAX] = {false};

    for (size_t i = ledger.used; i-- > 0;) {
        struct record record = record_at(ledger, i);

        verdicts[i] = judge_one(&record, dump, seen);
        show_progress(i, "records to judge");
    }
    end_progress();
}
