/*
 * Interrupt handlers, by the four calls that chapter 29 requires of a driver for the
 * controller. It prints their names; what they take stands in another book of the
 * vendor. `ic_id` is the controller's number in system.h and `irq` a port of it. A call
 * returns 0, or another number where there is no such controller or port.
 */
#ifndef SYS_ALT_IRQ_H
#define SYS_ALT_IRQ_H

#include "alt_types.h"

typedef void (*alt_isr_func)(void *isr_context);

/* Registers a handler and enables its port; NULL takes it away and disables it. */
int alt_ic_isr_register(alt_u32 ic_id, alt_u32 irq, alt_isr_func isr,
                        void *isr_context, void *flags);
int alt_ic_irq_enable(alt_u32 ic_id, alt_u32 irq);
int alt_ic_irq_disable(alt_u32 ic_id, alt_u32 irq);

/* 1 where the port is enabled, else 0. */
alt_u32 alt_ic_irq_enabled(alt_u32 ic_id, alt_u32 irq);

#endif
