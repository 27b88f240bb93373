#include "core.h"

#include <inttypes.h>
#include <stdio.h>
#include <stdlib.h>

static void tell_and_end(const char *call, uint32_t number)
{
    fprintf(stderr, "%s was refused: %" PRIu32 ", field %" PRIu32 "\n", call,
            SGDMA_REFUSAL(number), SGDMA_FIELD(number));
    exit(2);
}

void (*at_refusal)(const char *call, uint32_t number) = tell_and_end;

void must_be_done(const char *call, uint32_t number)
{
    if (number != SGDMA_DONE)
        at_refusal(call, number);
}

uint32_t value_of(const char *call, uint32_t number,
                  const uint8_t value[SGDMA_VALUE_SIZE])
{
    must_be_done(call, number);
    return number_at(value, SGDMA_VALUE_SIZE);
}

uint32_t number_at(const uint8_t *bytes, size_t size)
{
    uint32_t number = 0;

    for (size_t i = 0; i < size; i++)
        number = number << 8 | bytes[i];
    return number;
}

uint32_t beat_at(struct stream stream, size_t place)
{
    return number_at(stream.bytes + SGDMA_BEAT_SIZE * place, SGDMA_BEAT_SIZE);
}

void put_beat(struct stream stream, size_t place, uint32_t beat)
{
    uint8_t *bytes = stream.bytes + SGDMA_BEAT_SIZE * place;

    bytes[0] = (uint8_t)(beat >> 8);
    bytes[1] = (uint8_t)beat;
}

struct stream stream_from(struct stream stream, size_t beats)
{
    struct stream left = {stream.bytes + SGDMA_BEAT_SIZE * beats,
                          stream.beats - beats};

    return left;
}

struct record record_at(struct ledger ledger, size_t place)
{
    const uint8_t *bytes = ledger.bytes + SGDMA_RECORD_SIZE * place;
    struct record record;

    record.run = number_at(bytes + SGDMA_RECORD_RUN_AT, 4);
    record.descriptor = number_at(bytes + SGDMA_RECORD_DESCRIPTOR_AT, 4);
    record.actual = (uint16_t)number_at(bytes + SGDMA_RECORD_ACTUAL_AT, 2);
    record.status = bytes[SGDMA_RECORD_STATUS_AT];
    record.eop = bytes[SGDMA_RECORD_FLAGS_AT] & SGDMA_RECORD_EOP;
    return record;
}

uint32_t ledger_bytes(struct ledger ledger)
{
    uint32_t bytes = 0;

    for (size_t i = 0; i < ledger.used; i++)
        bytes += record_at(ledger, i).actual;
    return bytes;
}

void core_create(struct core *core, uint32_t mode, uint32_t base,
                 uint8_t *memory, size_t length)
{
    core->memory = memory;
    core->length = length;
    core->base = base;
    must_be_done("sgdma_create", sgdma_create(core->image, sizeof core->image,
                                              mode, base, length));
}

uint32_t core_read(const struct core *core, uint32_t offset)
{
    uint8_t value[SGDMA_VALUE_SIZE];

    return value_of("sgdma_read_register",
                    sgdma_read_register(core->image, sizeof core->image, offset,
                                        value, sizeof value), value);
}

void core_write(struct core *core, uint32_t offset, uint32_t value)
{
    must_be_done("sgdma_write_register",
                 sgdma_write_register(core->image, sizeof core->image, offset,
                                      value));
}

bool core_line(const struct core *core)
{
    uint8_t value[SGDMA_VALUE_SIZE];

    return value_of("sgdma_line", sgdma_line(core->image, sizeof core->image,
                                             value, sizeof value), value) == 1;
}

struct ran core_run(struct core *core, struct stream in, struct stream out,
                    struct ledger ledger, uint32_t budget)
{
    uint8_t report[SGDMA_REPORT_SIZE];
    struct ran ran;

    must_be_done("sgdma_run",
                 sgdma_run(core->image, sizeof core->image,
                           core->memory, core->length,
                           in.bytes, SGDMA_BEAT_SIZE * in.beats,
                           out.bytes, SGDMA_BEAT_SIZE * out.beats,
                           ledger.bytes, SGDMA_RECORD_SIZE * ledger.room,
                           ledger.used, budget, report, sizeof report));
    ran.reason = number_at(report + SGDMA_REPORT_REASON_AT, 2);
    ran.steps = number_at(report + SGDMA_REPORT_STEPS_AT, 4);
    ran.taken = number_at(report + SGDMA_REPORT_TAKEN_AT, 4);
    ran.made = number_at(report + SGDMA_REPORT_MADE_AT, 4);
    ran.used = number_at(report + SGDMA_REPORT_USED_AT, 4);
    return ran;
}

struct fault core_fault(const struct core *core)
{
    struct fault fault;

    fault.code = core->image[SGDMA_IMAGE_FAULT_AT] & SGDMA_IMAGE_FAULT_MASK;
    fault.address = number_at(core->image + SGDMA_IMAGE_FAULT_ADDRESS_AT, 4);
    return fault;
}

struct slot core_slot(const struct core *core)
{
    struct slot slot;

    slot.kind = core->image[SGDMA_IMAGE_SLOT_AT] >> SGDMA_IMAGE_SLOT_KIND_SHIFT;
    slot.address = number_at(core->image + SGDMA_IMAGE_SLOT_ADDRESS_AT, 4);
    return slot;
}

uint32_t core_run_number(const struct core *core)
{
    return number_at(core->image + SGDMA_IMAGE_RUN_NUMBER_AT, 4);
}

uint32_t core_in_hand(const struct core *core)
{
    return number_at(core->image + SGDMA_IMAGE_MOVED_AT, 2);
}

uint32_t core_look(const struct core *core)
{
    uint8_t value[SGDMA_VALUE_SIZE];

    return sgdma_line(core->image, sizeof core->image, value, sizeof value);
}

void core_build(struct core *core, uint32_t address, const struct descriptor *d)
{
    must_be_done("sgdma_build_descriptor",
                 sgdma_build_descriptor(core->memory, core->length, core->base,
                                        address, d->source, d->destination,
                                        d->next, d->length, d->control));
}

struct descriptor core_descriptor(const struct core *core, uint32_t address)
{
    uint8_t answer[SGDMA_DESCRIPTOR_ANSWER_SIZE];
    struct descriptor d;

    must_be_done("sgdma_read_descriptor",
                 sgdma_read_descriptor(core->memory, core->length, core->base,
                                       address, answer, sizeof answer));
    d.source = number_at(answer + SGDMA_ANSWER_SOURCE_AT, 4);
    d.destination = number_at(answer + SGDMA_ANSWER_DESTINATION_AT, 4);
    d.next = number_at(answer + SGDMA_ANSWER_NEXT_DESC_PTR_AT, 4);
    d.length = (uint16_t)number_at(
        answer + SGDMA_ANSWER_BYTES_TO_TRANSFER_AT, 2);
    d.actual = (uint16_t)number_at(
        answer + SGDMA_ANSWER_ACTUAL_BYTES_TRANSFERRED_AT, 2);
    d.status = answer[SGDMA_ANSWER_DESC_STATUS_AT];
    d.control = answer[SGDMA_ANSWER_DESC_CONTROL_AT];
    return d;
}

struct checked check_chain(const uint8_t *window, size_t length, uint32_t base,
                           uint32_t pointer)
{
    uint8_t answer[SGDMA_CHECK_SIZE];
    struct checked checked;

    must_be_done("sgdma_check_chain",
                 sgdma_check_chain(window, length, base, pointer, answer, sizeof answer));
    checked.verdict = number_at(answer + SGDMA_CHECK_VERDICT_AT, 2);
    checked.position = number_at(answer + SGDMA_CHECK_POSITION_AT, 4);
    checked.address = number_at(answer + SGDMA_CHECK_ADDRESS_AT, 4);
    return checked;
}

struct checked core_check(const struct core *core, uint32_t pointer)
{
    return check_chain(core->memory, core->length, core->base, pointer);
}

uint32_t mend_chain(uint8_t *window, size_t length, uint32_t base, uint32_t pointer,
                    struct mended *mended)
{
    uint8_t answer[SGDMA_MEND_SIZE];
    uint32_t number = sgdma_mend_chain(window, length, base, pointer, answer, sizeof answer);

    if (number == SGDMA_DONE) {
        mended->any = number_at(answer + SGDMA_MEND_MENDED_AT, 2) == 1;
        mended->address = number_at(answer + SGDMA_MEND_ADDRESS_AT, 4);
        mended->old = answer[SGDMA_MEND_OLD_AT];
        mended->new = answer[SGDMA_MEND_NEW_AT];
    }
    return number;
}

bool is_done(const struct descriptor *d)
{
    return !(d->control & SGDMA_DESC_OWNED_BY_HW);
}

uint8_t *core_byte(const struct core *core, uint32_t address)
{
    return core->memory + (address - core->base);
}
