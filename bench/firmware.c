#include "firmware.h"

#include <string.h>

uint8_t sample(enum stream_name stream, size_t number)
{
    return (uint8_t)((size_t)stream << 6 | (number & 0x3F));
}

static uint32_t address_of(size_t place)
{
    return CHAIN + SGDMA_DESCRIPTOR_SIZE * (uint32_t)place;
}

void firmware_build(struct firmware *firmware, size_t place, uint32_t landing)
{
    struct descriptor d = {0};

    d.destination = landing;
    d.next = address_of(place + 1);
    d.length = PACKET;
    d.control = SGDMA_DESC_OWNED_BY_HW;
    core_build(&firmware->core, address_of(place), &d);
}

size_t firmware_done(const struct firmware *firmware)
{
    size_t done = 0;

    for (size_t i = 0; i < DESCRIPTORS; i++) {
        struct descriptor d = core_descriptor(&firmware->core, address_of(i));

        done += is_done(&d);
    }
    return done;
}

void firmware_begin(struct firmware *firmware, uint32_t control)
{
    /* Zeros follow the chain, and so a descriptor that is not owned: its end. */
    memset(firmware->memory, 0, sizeof firmware->memory);
    core_create(&firmware->core, SGDMA_MODE_STREAM_TO_MEMORY, BASE,
                firmware->memory, sizeof firmware->memory);
    firmware->ledger.bytes = firmware->records;
    firmware->ledger.room = DESCRIPTORS;
    firmware->ledger.used = 0;
    firmware->taken = 0;
    firmware->control = control;
    firmware->in.bytes = firmware->beats;
    firmware->in.beats = SAMPLES;
    for (size_t i = 0; i < SAMPLES; i++)
        put_beat(firmware->in, i, sample(THIS_STREAM, i));
    for (uint32_t at = LANDING; at < BASE + MEMORY; at++)
        *core_byte(&firmware->core, at) = sample(OLD_STREAM, at - LANDING);
    for (size_t i = 0; i < DESCRIPTORS; i++)
        firmware_build(firmware, i, LANDING + PACKET * (uint32_t)i);
}

void firmware_start(struct firmware *firmware)
{
    core_write(&firmware->core, SGDMA_REGISTER_NEXT_DESCRIPTOR_POINTER, CHAIN);
    firmware->control |= SGDMA_CONTROL_RUN;
    core_write(&firmware->core, SGDMA_REGISTER_CONTROL, firmware->control);
}

uint32_t firmware_acknowledge(struct firmware *firmware)
{
    struct core *core = &firmware->core;
    uint32_t status = core_read(core, SGDMA_REGISTER_STATUS);

    core_write(core, SGDMA_REGISTER_STATUS, status);
    core_write(core, SGDMA_REGISTER_CONTROL,
               firmware->control | SGDMA_CONTROL_CLEAR_INTERRUPT);
    return status;
}

struct ran firmware_run(struct firmware *firmware)
{
    static const struct stream no_room = {NULL, 0};
    struct ran ran = core_run(&firmware->core, firmware->in, no_room,
                              firmware->ledger, SLICE);

    firmware->in = stream_from(firmware->in, ran.taken);
    firmware->taken += ran.taken;
    firmware->ledger.used = ran.used;
    return ran;
}

struct slice firmware_slice(struct firmware *firmware)
{
    struct slice slice;

    slice.ran = firmware_run(firmware);
    slice.line = core_line(&firmware->core);
    slice.status = slice.line ? firmware_acknowledge(firmware) : 0;
    return slice;
}

size_t firmware_lend_all(struct firmware *firmware)
{
    size_t more = DESCRIPTORS - firmware->ledger.room;

    firmware->ledger.room += more;
    return more;
}
