#include "parts.h"

#include "sys/alt_irq.h"

#include <string.h>

/* Calls of handlers without an access of the interrupted firmware between them. */
enum { MOST_SERVED = 1000 };

static struct handler {
    alt_isr_func serve;
    void *context;
} handlers[SGDMA_VIC_PORTS_MAX];

/* A handler runs to its end: another one waits until it has returned. */
static bool in_handler;

void board_forget_handlers(void)
{
    memset(handlers, 0, sizeof handlers);
    in_handler = false;
}

static void bring_lines(void)
{
    const struct board *board = board_state.description;

    for (size_t i = 0; i < board->core_count; i++)
        controller_line(&board_state.controller, board->cores[i].port,
                        core_line(&board_state.cores[i].core));
    controller_line(&board_state.controller, board->timer.port,
                    timer_line(&board_state.timer));
}

static void call_handler(const struct handler *handler)
{
    if (!handler->serve)
        board_stop(BOARD_NO_HANDLER);
    in_handler = true;
    board_state.interrupts++;
    board_leave();
    handler->serve(handler->context);
    board_enter();
    in_handler = false;
}

void board_serve(void)
{
    struct told told;

    bring_lines();
    if (in_handler)
        return;
    for (uint32_t served = 0;; served++) {
        told = controller_choose(&board_state.controller);
        if (!told.chosen)
            return;
        if (served == MOST_SERVED)
            board_stop(BOARD_LINE_STAYS);
        call_handler(&handlers[told.port]); /* each of its accesses brings the lines */
    }
}

static bool has_port(uint32_t ic_id, uint32_t irq)
{
    const struct board *board = board_state.description;

    return board && ic_id == board->controller.id && irq < board->controller.ports;
}

static int enable(uint32_t ic_id, uint32_t irq, bool on)
{
    if (!has_port(ic_id, irq))
        return -1;
    board_enter();
    controller_enable(&board_state.controller, irq, on);
    board_serve();
    board_leave();
    return 0;
}

int alt_ic_isr_register(alt_u32 ic_id, alt_u32 irq, alt_isr_func isr,
                        void *isr_context, void *flags)
{
    const struct handler handler = {isr, isr_context};

    (void)flags; /* reserved */
    if (!has_port(ic_id, irq))
        return -1;
    handlers[irq] = handler;
    return enable(ic_id, irq, isr != NULL);
}

int alt_ic_irq_enable(alt_u32 ic_id, alt_u32 irq)
{
    return enable(ic_id, irq, true);
}

int alt_ic_irq_disable(alt_u32 ic_id, alt_u32 irq)
{
    return enable(ic_id, irq, false);
}

alt_u32 alt_ic_irq_enabled(alt_u32 ic_id, alt_u32 irq)
{
    return has_port(ic_id, irq) ? board_vic_enabled() >> irq & 1 : 0;
}
