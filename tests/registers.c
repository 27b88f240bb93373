/*
 * The registers: what each bit keeps, what a write clears, and the reset.
 */
#include "check.h"
#include "rows.h"

struct bit {
    const char *name;
    uint32_t bit;
};

static const struct bit STATUS_BITS[] = {
    {"ERROR", SGDMA_STATUS_ERROR},
    {"EOP_ENCOUNTERED", SGDMA_STATUS_EOP_ENCOUNTERED},
    {"DESCRIPTOR_COMPLETED", SGDMA_STATUS_DESCRIPTOR_COMPLETED},
    {"CHAIN_COMPLETED", SGDMA_STATUS_CHAIN_COMPLETED},
};

static const struct bit CONTROL_BITS[] = {
    {"IE_ERROR", SGDMA_CONTROL_IE_ERROR},
    {"IE_EOP", SGDMA_CONTROL_IE_EOP},
    {"IE_DESCRIPTOR", SGDMA_CONTROL_IE_DESCRIPTOR},
    {"IE_CHAIN", SGDMA_CONTROL_IE_CHAIN},
    {"IE_GLOBAL", SGDMA_CONTROL_IE_GLOBAL},
    {"RUN", SGDMA_CONTROL_RUN},
    {"STOP_DMA_ER", SGDMA_CONTROL_STOP_DMA_ER},
    {"IE_MAX", SGDMA_CONTROL_IE_MAX},
    {"MAX_DESC_PROCESSED", SGDMA_CONTROL_MAX_DESC_PROCESSED_MASK},
    {"SW_RESET", SGDMA_CONTROL_SW_RESET},
    {"PARK", SGDMA_CONTROL_PARK},
};

static void create(struct core *core, uint8_t *memory)
{
    core_create(core, SGDMA_MODE_STREAM_TO_MEMORY, ROW_BASE, memory, ROW_LENGTH);
}

/* Leaves the core in Ended with every status bit set. */
static void set_all_status(struct core *core, uint8_t *memory)
{
    struct one one = {SGDMA_DESC_OWNED_BY_HW,
                      SGDMA_INPUT_ERROR_MASK | SGDMA_INPUT_EOP,
                      SGDMA_CONTROL_RUN, 100};

    run_one(core, memory, one);
}

static void check_fresh(const struct core *core)
{
    check("status", core_read(core, SGDMA_REGISTER_STATUS), 0);
    check("control", core_read(core, SGDMA_REGISTER_CONTROL), 0);
    check("pointer", core_read(core, SGDMA_REGISTER_NEXT_DESCRIPTOR_POINTER), 0);
    check("line", core_line(core), 0);
}

/* Each bit alone is cleared by writing 1 to it, and BUSY by nothing. */
static void check_status_writes(void)
{
    uint32_t all = SGDMA_STATUS_BUSY;
    uint8_t memory[ROW_LENGTH];
    struct core core;

    for (size_t i = 0; i < COUNT(STATUS_BITS); i++)
        all |= STATUS_BITS[i].bit;
    for (size_t i = 0; i < COUNT(STATUS_BITS); i++) {
        check_case(STATUS_BITS[i].name);
        set_all_status(&core, memory);
        check("all set", core_read(&core, SGDMA_REGISTER_STATUS), all);
        core_write(&core, SGDMA_REGISTER_STATUS, STATUS_BITS[i].bit);
        check("cleared alone", core_read(&core, SGDMA_REGISTER_STATUS),
              all & ~STATUS_BITS[i].bit);
    }
    check_case("BUSY");
    core_write(&core, SGDMA_REGISTER_STATUS, UINT32_MAX);
    check("stays", core_read(&core, SGDMA_REGISTER_STATUS), SGDMA_STATUS_BUSY);
    core_write(&core, SGDMA_REGISTER_CONTROL, 0);
    check("ends with RUN", core_read(&core, SGDMA_REGISTER_STATUS), 0);
}

/* Each bit alone is kept. Together they are bits 0 to 17, and no other is kept. */
static void check_control_writes(void)
{
    uint8_t memory[ROW_LENGTH];
    uint32_t all = 0;
    struct core core;

    for (size_t i = 0; i < COUNT(CONTROL_BITS); i++) {
        check_case(CONTROL_BITS[i].name);
        create(&core, memory);
        core_write(&core, SGDMA_REGISTER_CONTROL, CONTROL_BITS[i].bit);
        check("kept", core_read(&core, SGDMA_REGISTER_CONTROL), CONTROL_BITS[i].bit);
        check("a bit of its own", all & CONTROL_BITS[i].bit, 0);
        all |= CONTROL_BITS[i].bit;
    }
    check_case("control");
    create(&core, memory);
    core_write(&core, SGDMA_REGISTER_CONTROL, UINT32_MAX);
    check("all that is kept", core_read(&core, SGDMA_REGISTER_CONTROL), all);
    check_case("CLEAR_INTERRUPT");
    core_write(&core, SGDMA_REGISTER_CONTROL, 0);
    core_write(&core, SGDMA_REGISTER_CONTROL, SGDMA_CONTROL_CLEAR_INTERRUPT);
    check("reads 0", core_read(&core, SGDMA_REGISTER_CONTROL), 0);
}

/* There are three registers. */
static void check_offsets(void)
{
    uint8_t memory[ROW_LENGTH], value[SGDMA_VALUE_SIZE];
    struct core core;

    check_case("register offsets");
    create(&core, memory);
    for (uint32_t offset = 0; offset < 64; offset++) {
        bool is = offset == SGDMA_REGISTER_STATUS ||
                  offset == SGDMA_REGISTER_CONTROL ||
                  offset == SGDMA_REGISTER_NEXT_DESCRIPTOR_POINTER;

        check("returned", sgdma_read_register(core.image, sizeof core.image,
                                              offset, value, sizeof value),
              is ? SGDMA_DONE : SGDMA_NO_REGISTER);
    }
}

static void check_pointer_writes(void)
{
    static const uint32_t values[] = {UINT32_MAX, 0x12345678, 3, 0};
    uint8_t memory[ROW_LENGTH];
    struct core core;

    check_case("next_descriptor_pointer");
    create(&core, memory);
    for (size_t i = 0; i < COUNT(values); i++) {
        core_write(&core, SGDMA_REGISTER_NEXT_DESCRIPTOR_POINTER, values[i]);
        check("kept", core_read(&core, SGDMA_REGISTER_NEXT_DESCRIPTOR_POINTER),
              values[i]);
        check("status", core_read(&core, SGDMA_REGISTER_STATUS), 0);
        check("control", core_read(&core, SGDMA_REGISTER_CONTROL), 0);
    }
}

/* The first write arms, a write without the bit disarms, two in a row reset. */
static void check_reset(void)
{
    uint32_t armed = SGDMA_CONTROL_SW_RESET | SGDMA_CONTROL_RUN;
    uint8_t memory[ROW_LENGTH];
    struct core core;

    check_case("SW_RESET");
    set_all_status(&core, memory);
    core_write(&core, SGDMA_REGISTER_CONTROL, armed);
    check("armed", core_read(&core, SGDMA_REGISTER_CONTROL), armed);
    core_write(&core, SGDMA_REGISTER_CONTROL, SGDMA_CONTROL_RUN);
    core_write(&core, SGDMA_REGISTER_CONTROL, armed);
    check("armed again", core_read(&core, SGDMA_REGISTER_CONTROL), armed);
    core_write(&core, SGDMA_REGISTER_CONTROL, UINT32_MAX);
    check_fresh(&core);
}

void test_registers(void)
{
    uint8_t memory[ROW_LENGTH];
    struct core core;

    check_case("a fresh core");
    create(&core, memory);
    check_fresh(&core);
    check_offsets();
    check_status_writes();
    check_control_writes();
    check_pointer_writes();
    check_reset();
}
