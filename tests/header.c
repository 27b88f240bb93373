/*
 * The header by itself, as C and as C++: it can be included twice, its
 * prototypes are the agreed ones, which are said again here and would not compile
 * beside others, and the names it declares are those of C, so that a C++ program
 * links.
 */
#include "sgdma.h"
#include "sgdma.h"

#ifdef __cplusplus
extern "C" {
#endif

uint32_t sgdma_create(uint8_t *, size_t, uint32_t, uint64_t, uint64_t);
uint32_t sgdma_read_register(const uint8_t *, size_t, uint32_t, uint8_t *, size_t);
uint32_t sgdma_write_register(uint8_t *, size_t, uint32_t, uint32_t);
uint32_t sgdma_line(const uint8_t *, size_t, uint8_t *, size_t);
uint32_t sgdma_run(uint8_t *, size_t, uint8_t *, size_t, const uint8_t *, size_t,
                   uint8_t *, size_t, uint8_t *, size_t, uint32_t, uint32_t,
                   uint8_t *, size_t);
uint32_t sgdma_build_descriptor(uint8_t *, size_t, uint64_t, uint32_t, uint32_t,
                                uint32_t, uint32_t, uint16_t, uint8_t);
uint32_t sgdma_read_descriptor(const uint8_t *, size_t, uint64_t, uint32_t,
                               uint8_t *, size_t);
uint32_t sgdma_find_record(const uint8_t *, size_t, uint32_t, uint32_t, uint32_t,
                           uint8_t *, size_t);
uint32_t sgdma_move_image(const uint8_t *, size_t, uint8_t *, size_t);
uint32_t sgdma_check_chain(const uint8_t *, size_t, uint64_t, uint32_t, uint8_t *,
                           size_t);
uint32_t sgdma_mend_chain(uint8_t *, size_t, uint64_t, uint32_t, uint8_t *, size_t);
uint32_t sgdma_vic_create(uint8_t *, size_t, uint32_t, uint32_t, uint32_t);
uint32_t sgdma_vic_configure(uint8_t *, size_t, uint32_t, uint32_t, uint32_t, uint32_t);
uint32_t sgdma_vic_enable(uint8_t *, size_t, uint32_t, uint32_t);
uint32_t sgdma_vic_trigger(uint8_t *, size_t, uint32_t, uint32_t);
uint32_t sgdma_vic_line(uint8_t *, size_t, uint32_t, uint32_t);
uint32_t sgdma_vic_choose(const uint8_t *, size_t, uint8_t *, size_t);
uint32_t sgdma_timer_create(uint8_t *, size_t, uint32_t);
uint32_t sgdma_timer_read(const uint8_t *, size_t, uint32_t, uint8_t *, size_t);
uint32_t sgdma_timer_write(uint8_t *, size_t, uint32_t, uint16_t);
uint32_t sgdma_timer_line(const uint8_t *, size_t, uint8_t *, size_t);
uint32_t sgdma_timer_run(uint8_t *, size_t, uint32_t, uint8_t *, size_t);
uint32_t sgdma_timer_elapsed(const uint8_t *, size_t, uint32_t, uint32_t, uint8_t *,
                             size_t);

#ifdef __cplusplus
}
#endif

/* Lent nothing, every call that looks at a size refuses. */
static int sizes_are_refused(void)
{
    const uint32_t returned[] = {
        sgdma_create(NULL, 0, 0, 0, 0),
        sgdma_read_register(NULL, 0, 0, NULL, 0),
        sgdma_write_register(NULL, 0, 0, 0),
        sgdma_line(NULL, 0, NULL, 0),
        sgdma_run(NULL, 0, NULL, 0, NULL, 0, NULL, 0, NULL, 0, 0, 0, NULL, 0),
        sgdma_read_descriptor(NULL, 0, 0, 0, NULL, 0),
        sgdma_find_record(NULL, 0, 0, 0, 0, NULL, 0),
        sgdma_move_image(NULL, 0, NULL, 0),
        sgdma_check_chain(NULL, 0, 0, 0, NULL, 0),
        sgdma_mend_chain(NULL, 0, 0, 0, NULL, 0),
        sgdma_vic_create(NULL, 0, 1, 0, 0),
        sgdma_vic_configure(NULL, 0, 0, 0, 0, 0),
        sgdma_vic_enable(NULL, 0, 0, 0),
        sgdma_vic_trigger(NULL, 0, 0, 0),
        sgdma_vic_line(NULL, 0, 0, 0),
        sgdma_vic_choose(NULL, 0, NULL, 0),
        sgdma_timer_create(NULL, 0, 0),
        sgdma_timer_read(NULL, 0, 0, NULL, 0),
        sgdma_timer_write(NULL, 0, 0, 0),
        sgdma_timer_line(NULL, 0, NULL, 0),
        sgdma_timer_run(NULL, 0, 0, NULL, 0),
        sgdma_timer_elapsed(NULL, 0, 0, 0, NULL, 0),
    };

    for (size_t i = 0; i < sizeof returned / sizeof *returned; i++)
        if (SGDMA_REFUSAL(returned[i]) != SGDMA_BAD_SIZE || SGDMA_FIELD(returned[i]) != 0)
            return 0;
    return 1;
}

int main(void)
{
    uint32_t built = sgdma_build_descriptor(NULL, 0, 0, 0, 0, 0, 0, 0, 0);

    return sizes_are_refused() && built == SGDMA_OUTSIDE ? 0 : 1;
}
