#include "trial.h"

#include <string.h>

void lay_one(struct trial *trial, uint32_t address, uint32_t landing, uint32_t next,
             uint32_t control)
{
    struct descriptor d = {.destination = landing, .next = next, .length = 1};

    d.control = (uint8_t)control;
    core_build(&trial->core, address, &d);
}

void start_chain(struct trial *trial)
{
    for (uint32_t i = 0; i < CHAIN; i++) {
        uint32_t address = FIRST + i * SGDMA_DESCRIPTOR_SIZE;

        lay_one(trial, address, LANDING + i, address + SGDMA_DESCRIPTOR_SIZE,
                SGDMA_DESC_OWNED_BY_HW);
    }
    core_write(&trial->core, POINTER, FIRST);
    core_write(&trial->core, CONTROL, RUN);
}

void begin_trial(struct trial *trial)
{
    memset(trial, 0, sizeof *trial);
    trial->in = (struct stream){trial->beats, BEATS};
    trial->ledger = (struct ledger){trial->records, RECORDS, 0};
    for (uint32_t i = 0; i < BEATS; i++)
        put_beat(trial->in, i, 0x11 * (i + 1));
    core_create(&trial->core, SGDMA_MODE_STREAM_TO_MEMORY, BASE, trial->memory, LENGTH);
    start_chain(trial);
}

struct ran run_trial(struct trial *trial, uint32_t budget)
{
    static const struct stream none = {NULL, 0};
    struct ran ran = core_run(&trial->core, trial->in, none, trial->ledger, budget);

    trial->in = stream_from(trial->in, ran.taken);
    trial->ledger.used = ran.used;
    return ran;
}

void set_run_number(struct trial *trial, uint32_t number)
{
    for (int i = 0; i < 4; i++)
        trial->core.image[SGDMA_IMAGE_RUN_NUMBER_AT + i] = (uint8_t)(number >> 8 * (3 - i));
}
