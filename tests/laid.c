#include "laid.h"

#include <string.h>

#include "check.h"

uint8_t window[MOST + 1];

const struct link CHAIN[] = {
    {A, B, OWNED}, {B, C, OWNED | 0x05}, {C, D, 0xFF}, {D, A, 0x7F}};

void put_link(uint32_t base, const struct link *link)
{
    uint8_t *bytes = window + (link->at - base);

    for (size_t i = 0; i < 4; i++)
        bytes[NEXT + i] = (uint8_t)(link->next >> 8 * i);
    bytes[CONTROL] = link->control;
}

void lay_chain(uint8_t other)
{
    memset(window, other, sizeof window);
    for (size_t i = 0; i < COUNT(CHAIN); i++)
        put_link(BASE, &CHAIN[i]);
}

void lay_row(uint32_t base, uint32_t owned, uint32_t next)
{
    memset(window, 0, sizeof window);
    for (uint32_t i = 0; i < owned; i++) {
        uint32_t at = base + SIZE * i;
        struct link link = {at, i + 1 < owned ? at + SIZE : next, OWNED};

        put_link(base, &link);
    }
}

void build_chain(struct core *core, const struct link links[4])
{
    enum { LANDS = 0x10C0, WHOLE = 256 };

    memset(window, 0, sizeof window);
    core_create(core, SGDMA_MODE_STREAM_TO_MEMORY, BASE, window, WHOLE);
    for (uint32_t i = 0; i < COUNT(CHAIN); i++)
        core_build(core, links[i].at, &(struct descriptor){
            .destination = LANDS + i, .next = links[i].next, .length = 1,
            .control = links[i].control});
}

struct ran run_chain(struct core *core)
{
    static const struct stream none = {NULL, 0};
    uint8_t beats[] = {0x00, 0x11, 0x00, 0x22, 0x00, 0x33, 0x00, 0x44};
    uint8_t records[COUNT(CHAIN) * SGDMA_RECORD_SIZE];
    struct stream in = {beats, COUNT(CHAIN)};
    struct ledger ledger = {records, COUNT(CHAIN), 0};

    core_write(core, SGDMA_REGISTER_NEXT_DESCRIPTOR_POINTER, A);
    core_write(core, SGDMA_REGISTER_CONTROL, SGDMA_CONTROL_RUN);
    return core_run(core, in, none, ledger, UINT32_MAX);
}
