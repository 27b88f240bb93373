#include "tell.h"

#include <inttypes.h>
#include <stdio.h>

static const char *const REASONS[] = {
    [SGDMA_REASON_REST] = "Rest",
    [SGDMA_REASON_ENDED] = "Ended",
    [SGDMA_REASON_HALTED] = "Halted",
    [SGDMA_REASON_FAULTED] = "Faulted",
    [SGDMA_REASON_NEEDS_INPUT] = "NeedsInput",
    [SGDMA_REASON_OUTPUT_FULL] = "OutputFull",
    [SGDMA_REASON_BUDGET] = "Budget",
    [SGDMA_REASON_LEDGER_FULL] = "LedgerFull",
};

struct bit {
    uint32_t bit;
    const char *name;
};

static const struct bit STATUS_BITS[] = {
    {SGDMA_STATUS_ERROR, "ERROR"},
    {SGDMA_STATUS_EOP_ENCOUNTERED, "EOP"},
    {SGDMA_STATUS_DESCRIPTOR_COMPLETED, "DESCRIPTOR"},
    {SGDMA_STATUS_CHAIN_COMPLETED, "CHAIN"},
    {SGDMA_STATUS_BUSY, "BUSY"},
};

static const struct bit TIMER_STATUS_BITS[] = {
    {SGDMA_TIMER_STATUS_TO, "TO"},
    {SGDMA_TIMER_STATUS_RUN, "RUN"},
};

/* What is wrong with a descriptor of a chain. */
static const char *const CAUSES[] = {
    [SGDMA_CHAIN_MISALIGNED] = "it is not a multiple of 4",
    [SGDMA_CHAIN_OUTSIDE] = "its 32 bytes are not in the window",
    [SGDMA_CHAIN_OVERLAPS] = "it overlaps an earlier descriptor",
};

/* What a core has met where it faulted, in the header's words. */
static const char *const FAULTS[] = {
    [SGDMA_FAULT_MISALIGNED] = "the pointer is not a multiple of 4",
    [SGDMA_FAULT_DESCRIPTOR_OUTSIDE] = "the descriptor's 32 bytes are not in the window",
    [SGDMA_FAULT_NO_LENGTH] = "bytes_to_transfer is 0",
    [SGDMA_FAULT_SOURCE_OUTSIDE] = "the byte to read is not in the window",
    [SGDMA_FAULT_DESTINATION_OUTSIDE] = "the byte to write is not in the window",
};

#define IN_HAND "be 0 but in Move and WriteBack"

/* The fields of an image that can be told, and what each must do or be. */
static const struct {
    const char *name;
    const char *rule;
} FIELDS[] = {
    [SGDMA_FIELD_EDITION] = {"edition", "be 2"},
    [SGDMA_FIELD_MODE] = {"mode", "be 0, 1 or 2"},
    [SGDMA_FIELD_PHASE] = {"phase", "be 0 to 6, and Halted in mode 2 only"},
    [SGDMA_FIELD_FAULT] =
        {"fault code", "be 0, but in Faulted 10 to 14, and one of the mode"},
    [SGDMA_FIELD_STATUS] =
        {"status",
         "have 0 in bits 5 to 7, BUSY, ERROR and EOP as phase and mode allow"},
    [SGDMA_FIELD_COUNT] = {"count of descriptors", "be at most 254"},
    [SGDMA_FIELD_CONTROL] =
        {"control",
         "have 0 in bits 18 to 31, SW_RESET as armed, RUN in Ended and Halted"},
    [SGDMA_FIELD_WINDOW_LENGTH] =
        {"window length", "be at most 65,536, and no more than 2^32 with base"},
    [SGDMA_FIELD_DESCRIPTOR_ADDRESS] =
        {"descriptor address", IN_HAND "; there a multiple of 4, inside"},
    [SGDMA_FIELD_SOURCE] = {"source", IN_HAND},
    [SGDMA_FIELD_DESTINATION] = {"destination", IN_HAND},
    [SGDMA_FIELD_LENGTH] = {"length", IN_HAND "; there not 0 in modes 0 and 1"},
    [SGDMA_FIELD_DESCRIPTOR_CONTROL] =
        {"descriptor control", IN_HAND "; there owned"},
    [SGDMA_FIELD_ERRORS] =
        {"errors", IN_HAND "; there 0 in bit 7 and modes 0, 1"},
    [SGDMA_FIELD_MOVED] =
        {"bytes moved", IN_HAND "; there fit length and errors"},
    [SGDMA_FIELD_EOP_SEEN] =
        {"EOP seen", IN_HAND "; there fit the bytes moved"},
    [SGDMA_FIELD_ZERO] = {"zero bits", "be 0"},
    [SGDMA_FIELD_FAULT_ADDRESS] = {"fault address", "be 0 but in Faulted"},
    [SGDMA_FIELD_SLOT_KIND] =
        {"slot kind", "be 0, empty, but in Fetch, Move and WriteBack"},
    [SGDMA_FIELD_SLOT_ZERO] = {"zero bits of the slot", "be 0"},
    [SGDMA_FIELD_SLOT_ADDRESS] =
        {"slot address", "be 0 if empty, else the pointer, and fit the kind"},
    [SGDMA_FIELD_SLOT_BYTES] =
        {"slot bytes", "be 0, but those of a descriptor any"},
};

const char *reason_name(uint32_t reason)
{
    return reason < sizeof REASONS / sizeof *REASONS ? REASONS[reason] : "?";
}

static void show_bits(uint32_t status, const struct bit *bits, size_t count)
{
    printf("  0x%02" PRIX32, status);
    for (size_t i = 0; i < count; i++)
        if (status & bits[i].bit)
            printf(" %s", bits[i].name);
}

void show_status(uint32_t status)
{
    show_bits(status, STATUS_BITS, sizeof STATUS_BITS / sizeof *STATUS_BITS);
}

void show_timer_status(uint32_t status)
{
    show_bits(status, TIMER_STATUS_BITS,
              sizeof TIMER_STATUS_BITS / sizeof *TIMER_STATUS_BITS);
}

void show_refused(uint32_t number)
{
    uint32_t field = SGDMA_FIELD(number);

    printf("    refused: %" PRIu32, SGDMA_REFUSAL(number));
    if (number == SGDMA_NOTHING_TO_KEEP)
        printf(", nothing to keep");
    if (field < sizeof FIELDS / sizeof *FIELDS && FIELDS[field].name)
        printf(", field %" PRIu32 ": %s\n        must %s", field,
               FIELDS[field].name, FIELDS[field].rule);
    printf("\n");
}

/* The code is read from an image that nobody has looked at: it may be any. */
static const char *fault_words(uint32_t code)
{
    const char *words = NULL;

    if (code < sizeof FAULTS / sizeof *FAULTS)
        words = FAULTS[code];
    return words ? words : "no fault has this number";
}

void show_fault(struct fault fault)
{
    if (fault.code)
        printf("    fault %" PRIu32 " at 0x%04" PRIX32 ": %s\n", fault.code,
               fault.address, fault_words(fault.code));
}

void show_checked(const struct checked *checked)
{
    if (checked->verdict == SGDMA_CHAIN_SOUND && !checked->position)
        printf("sound: none owned, 0x%04" PRIX32 " is the end; what lies behind it is not looked at\n",
               checked->address);
    else if (checked->verdict == SGDMA_CHAIN_SOUND)
        printf("sound: %" PRIu32 " owned, and the end at 0x%04" PRIX32 "\n",
               checked->position, checked->address);
    else
        printf("not sound: at position %" PRIu32 ", 0x%04" PRIX32 ": %s\n",
               checked->position, checked->address, CAUSES[checked->verdict]);
}

void show_mended(const struct mended *mended)
{
    if (mended->any)
        printf("mended: 0x%04" PRIX32 " is the end now: its control, at 0x%04" PRIX32
               ", is 0x%02X and was 0x%02X\n",
               mended->address, mended->address + SGDMA_DESCRIPTOR_DESC_CONTROL_AT, mended->new,
               mended->old);
    else
        printf("nothing to mend\n");
}

int run_width(struct ledger ledger)
{
    uint32_t largest = 0;
    int width;

    for (size_t i = 0; i < ledger.used; i++)
        if (record_at(ledger, i).run > largest)
            largest = record_at(ledger, i).run;
    width = snprintf(NULL, 0, "%" PRIu32, largest);
    return width < 3 ? 3 : width;
}

void show_record(size_t number, const struct record *record, int run_width)
{
    unsigned actual = record->actual, errors = record->status;

    printf("    %6zu  %*" PRIu32 "  %*s0x%04" PRIX32 "  %5u    0x%02X  %s", number,
           run_width, record->run, record->descriptor > 0xFFFF ? 0 : 4, "", record->descriptor,
           actual, errors, record->eop ? "yes" : "no");
}

void show_ledger_heading(int run_width)
{
    printf("    ledger  %*s  descriptor  bytes  errors  EOP", run_width, "run");
}

void show_records(struct ledger ledger)
{
    int width = run_width(ledger);

    show_ledger_heading(width);
    printf("\n");
    for (size_t i = 0; i < ledger.used; i++) {
        struct record record = record_at(ledger, i);

        show_record(i + 1, &record, width);
        printf("\n");
    }
}

void show_ledger(struct ledger ledger, uint32_t taken)
{
    show_records(ledger);
    printf("       sum%*s%5" PRIu32 "  of %" PRIu32 " beats taken\n", 16 + run_width(ledger), "",
           ledger_bytes(ledger), taken);
}
