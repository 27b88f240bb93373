#include "timer.h"

void timer_make(struct timer *timer, uint32_t period)
{
    must_be_done("sgdma_timer_create",
                 sgdma_timer_create(timer->bytes, sizeof timer->bytes, period));
}

uint32_t timer_read(const struct timer *timer, uint32_t offset)
{
    uint8_t value[SGDMA_VALUE_SIZE];

    return value_of("sgdma_timer_read",
                    sgdma_timer_read(timer->bytes, sizeof timer->bytes, offset,
                                     value, sizeof value), value);
}

void timer_write(struct timer *timer, uint32_t offset, uint32_t value)
{
    must_be_done("sgdma_timer_write",
                 sgdma_timer_write(timer->bytes, sizeof timer->bytes, offset,
                                   (uint16_t)value));
}

bool timer_line(const struct timer *timer)
{
    uint8_t value[SGDMA_VALUE_SIZE];

    return value_of("sgdma_timer_line",
                    sgdma_timer_line(timer->bytes, sizeof timer->bytes, value,
                                     sizeof value), value) == 1;
}

uint32_t timer_run(struct timer *timer, uint32_t ticks)
{
    uint8_t value[SGDMA_VALUE_SIZE];

    return value_of("sgdma_timer_run",
                    sgdma_timer_run(timer->bytes, sizeof timer->bytes, ticks, value,
                                    sizeof value), value);
}

uint32_t timer_snapshot(struct timer *timer)
{
    timer_write(timer, SGDMA_TIMER_REGISTER_SNAPL, 0);
    return timer_read(timer, SGDMA_TIMER_REGISTER_SNAPH) << 16 |
           timer_read(timer, SGDMA_TIMER_REGISTER_SNAPL);
}

uint32_t timer_elapsed(const struct timer *timer, uint32_t earlier, uint32_t later)
{
    uint8_t value[SGDMA_VALUE_SIZE];

    return value_of("sgdma_timer_elapsed",
                    sgdma_timer_elapsed(timer->bytes, sizeof timer->bytes, earlier,
                                        later, value, sizeof value), value);
}
