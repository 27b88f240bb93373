/*
 * An interrupt controller as firmware holds it: its 88 bytes, and the calls on them,
 * with numbers in place of bytes. Every call made here must be done, as in core.h.
 */
#ifndef CONTROLLER_H
#define CONTROLLER_H

#include "core.h"

struct controller {
    uint8_t bytes[SGDMA_VIC_SIZE];
};

/* What the controller tells. */
struct told {
    bool chosen;
    uint32_t port;
    uint32_t level;
    uint32_t handler;
};

void controller_make(struct controller *controller, uint32_t ports,
                     uint32_t vector_bytes, uint32_t base);
void controller_configure(struct controller *controller, uint32_t port, uint32_t level,
                          uint32_t set, bool non_maskable);
void controller_enable(struct controller *controller, uint32_t port, bool on);
void controller_trigger(struct controller *controller, uint32_t port, bool on);
void controller_line(struct controller *controller, uint32_t port, bool up);
struct told controller_choose(const struct controller *controller);

#endif
