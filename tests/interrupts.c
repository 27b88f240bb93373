/*
 * Interrupts: each event pends under its own enable and under no other, the line
 * needs IE_GLOBAL, and CLEAR_INTERRUPT takes it down.
 */
#include "check.h"
#include "rows.h"

static const uint32_t ENABLES[] = {
    SGDMA_CONTROL_IE_ERROR, SGDMA_CONTROL_IE_EOP, SGDMA_CONTROL_IE_DESCRIPTOR,
    SGDMA_CONTROL_IE_CHAIN, SGDMA_CONTROL_IE_MAX,
};

#define MAX(n) (UINT32_C(n) << SGDMA_CONTROL_MAX_DESC_PROCESSED_SHIFT)

/* What happens in a run, and under which enables that pends. */
static const struct event {
    const char *name;
    uint32_t desc_control;
    uint32_t beat;
    uint32_t max;
    uint32_t status;
    uint32_t pends;
} EVENTS[] = {
    {"a descriptor", SGDMA_DESC_OWNED_BY_HW, 0, 0,
     SGDMA_STATUS_DESCRIPTOR_COMPLETED, SGDMA_CONTROL_IE_DESCRIPTOR},
    {"a descriptor with errors", SGDMA_DESC_OWNED_BY_HW, SGDMA_INPUT_ERROR_MASK, 0,
     SGDMA_STATUS_DESCRIPTOR_COMPLETED | SGDMA_STATUS_ERROR,
     SGDMA_CONTROL_IE_DESCRIPTOR | SGDMA_CONTROL_IE_ERROR},
    {"a descriptor with EOP", SGDMA_DESC_OWNED_BY_HW, SGDMA_INPUT_EOP, 0,
     SGDMA_STATUS_DESCRIPTOR_COMPLETED | SGDMA_STATUS_EOP_ENCOUNTERED,
     SGDMA_CONTROL_IE_DESCRIPTOR | SGDMA_CONTROL_IE_EOP},
    {"the last of one to count", SGDMA_DESC_OWNED_BY_HW, 0, MAX(1),
     SGDMA_STATUS_DESCRIPTOR_COMPLETED,
     SGDMA_CONTROL_IE_DESCRIPTOR | SGDMA_CONTROL_IE_MAX},
    {"the first of two to count", SGDMA_DESC_OWNED_BY_HW, 0, MAX(2),
     SGDMA_STATUS_DESCRIPTOR_COMPLETED, SGDMA_CONTROL_IE_DESCRIPTOR},
    {"a descriptor not owned", 0, 0, 0,
     SGDMA_STATUS_CHAIN_COMPLETED, SGDMA_CONTROL_IE_CHAIN},
};

/* Makes the write, and compares the line after it. */
static void check_line_after(struct core *core, const char *what, uint32_t offset,
                             uint32_t value, bool up)
{
    core_write(core, offset, value);
    check(what, core_line(core), up);
}

static void check_enable(const struct event *event, uint32_t enable)
{
    uint32_t control = SGDMA_CONTROL_RUN | event->max | enable;
    uint32_t global = control | SGDMA_CONTROL_IE_GLOBAL;
    bool up = (event->pends & enable) != 0;
    /* Rest, Fetch, Move, WriteBack; or Ended after two. */
    struct one one = {event->desc_control, event->beat, global, 4};
    uint8_t memory[ROW_LENGTH];
    struct core core;

    run_one(&core, memory, one);
    check("status", core_read(&core, SGDMA_REGISTER_STATUS),
          event->status | SGDMA_STATUS_BUSY);
    check("line", core_line(&core), up);
    check_line_after(&core, "line after a status write",
                     SGDMA_REGISTER_STATUS, UINT32_MAX, up);
    check_line_after(&core, "line without IE_GLOBAL",
                     SGDMA_REGISTER_CONTROL, control, false);
    check_line_after(&core, "line with IE_GLOBAL again",
                     SGDMA_REGISTER_CONTROL, global, up);
    check_line_after(&core, "line after CLEAR_INTERRUPT", SGDMA_REGISTER_CONTROL,
                     global | SGDMA_CONTROL_CLEAR_INTERRUPT, false);
    check_line_after(&core, "line with IE_GLOBAL once more",
                     SGDMA_REGISTER_CONTROL, global, false);
}

void test_interrupts(void)
{
    for (size_t e = 0; e < COUNT(EVENTS); e++) {
        check_case(EVENTS[e].name);
        for (size_t i = 0; i < COUNT(ENABLES); i++)
            check_enable(&EVENTS[e], ENABLES[i]);
    }
}
