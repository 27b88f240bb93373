#include "controller.h"

void controller_make(struct controller *controller, uint32_t ports,
                     uint32_t vector_bytes, uint32_t base)
{
    must_be_done("sgdma_vic_create",
                 sgdma_vic_create(controller->bytes, sizeof controller->bytes, ports,
                                  vector_bytes, base));
}

void controller_configure(struct controller *controller, uint32_t port, uint32_t level,
                          uint32_t set, bool non_maskable)
{
    must_be_done("sgdma_vic_configure",
                 sgdma_vic_configure(controller->bytes, sizeof controller->bytes, port,
                                     level, set, non_maskable));
}

void controller_enable(struct controller *controller, uint32_t port, bool on)
{
    must_be_done("sgdma_vic_enable",
                 sgdma_vic_enable(controller->bytes, sizeof controller->bytes, port, on));
}

void controller_trigger(struct controller *controller, uint32_t port, bool on)
{
    must_be_done("sgdma_vic_trigger",
                 sgdma_vic_trigger(controller->bytes, sizeof controller->bytes, port, on));
}

void controller_line(struct controller *controller, uint32_t port, bool up)
{
    must_be_done("sgdma_vic_line",
                 sgdma_vic_line(controller->bytes, sizeof controller->bytes, port, up));
}

struct told controller_choose(const struct controller *controller)
{
    uint8_t answer[SGDMA_VIC_ANSWER_SIZE];
    struct told told;

    must_be_done("sgdma_vic_choose",
                 sgdma_vic_choose(controller->bytes, sizeof controller->bytes, answer,
                                  sizeof answer));
    told.chosen = number_at(answer + SGDMA_VIC_ANSWER_CHOSEN_AT, 2) == 1;
    told.port = number_at(answer + SGDMA_VIC_ANSWER_PORT_AT, 2);
    told.level = number_at(answer + SGDMA_VIC_ANSWER_LEVEL_AT, 1);
    told.handler = number_at(answer + SGDMA_VIC_ANSWER_ADDRESS_AT, 4);
    return told;
}
