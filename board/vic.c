/*
 * The registers of the controller (table 29-5) over the calls of the model. What a
 * register holds is read from the 88 bytes, by the layout that the header gives for the
 * reader of a dump; every write is made by the calls.
 */
#include "parts.h"

#include "altera_vic_regs.h"

/* Where the 88 bytes have the numbers that are read here. */
enum {
    PORTS_AT = 0,
    VECTOR_BYTES_AT = 4,
    BASE_AT = 8,
    LINES_AT = 12,
    SOFTWARE_AT = 16,
    ENABLED_AT = 20,
    CONFIGS_AT = 24
};

/* The least bytes of a vector: VEC_SIZE counts doublings of it. */
enum { LEAST_VECTOR = 4 };

static uint32_t word_at(size_t at)
{
    return number_at(board_state.controller.bytes + at, 4);
}

static uint32_t ports(void)
{
    return board_state.controller.bytes[PORTS_AT];
}

/* As INT_CONFIG has it: there level, flag and register set stand as in the 16 bits. */
static uint32_t config(uint32_t port)
{
    return number_at(board_state.controller.bytes + CONFIGS_AT + 2 * port, 2);
}

static void configure(uint32_t port, uint32_t value)
{
    controller_configure(&board_state.controller, port,
                         value >> ALTERA_VIC_INT_CONFIG_RIL_OFST,
                         value >> ALTERA_VIC_INT_CONFIG_RRS_OFST,
                         value & ALTERA_VIC_INT_CONFIG_RNMI_MSK);
}

uint32_t board_vic_enabled(void)
{
    return word_at(ENABLED_AT);
}

static uint32_t vector_size(void)
{
    uint32_t size = 0;

    while (size < ALTERA_VIC_VIC_CONFIG_VEC_SIZE_MSK &&
           (uint32_t)LEAST_VECTOR << size < word_at(VECTOR_BYTES_AT))
        size++;
    return size;
}

static uint32_t status(void)
{
    struct told told = controller_choose(&board_state.controller);

    return told.chosen ? ALTERA_VIC_VIC_STATUS_IP_MSK | told.port : 0;
}

uint32_t board_vic_read(uint32_t number)
{
    if (number < SGDMA_VIC_PORTS_MAX)
        return config(number);
    switch (number) {
    case ALTERA_VIC_INT_ENABLE_REG: return board_vic_enabled();
    case ALTERA_VIC_INT_PENDING_REG:
        return (word_at(LINES_AT) | word_at(SOFTWARE_AT)) & board_vic_enabled();
    case ALTERA_VIC_INT_RAW_STATUS_REG: return word_at(LINES_AT);
    case ALTERA_VIC_SW_INTERRUPT_REG: return word_at(SOFTWARE_AT);
    case ALTERA_VIC_VIC_CONFIG_REG: return vector_size();
    case ALTERA_VIC_VIC_STATUS_REG: return status();
    case ALTERA_VIC_VEC_TBL_BASE_REG: return word_at(BASE_AT);
    case ALTERA_VIC_VEC_TBL_ADDR_REG:
        return controller_choose(&board_state.controller).handler;
    default:
        if (!board_vic_name(number))
            board_stop(BOARD_NO_VIC_REGISTER);
        return 0; /* the registers that set and clear bits */
    }
}

/* Makes the bits of all ports that there are what they are in `bits`. */
static void put_bits(void (*put)(struct controller *, uint32_t, bool), uint32_t bits)
{
    for (uint32_t port = 0; port < ports(); port++)
        put(&board_state.controller, port, bits >> port & 1);
}

/* The model is told vectors when it is made: made anew, it is given all the rest again. */
static void put_vectors(uint32_t vector_bytes, uint32_t base)
{
    uint32_t lines = word_at(LINES_AT), software = word_at(SOFTWARE_AT);
    uint32_t enabled = board_vic_enabled(), configs[SGDMA_VIC_PORTS_MAX];

    for (uint32_t port = 0; port < ports(); port++)
        configs[port] = config(port);
    controller_make(&board_state.controller, ports(), vector_bytes, base);
    for (uint32_t port = 0; port < ports(); port++)
        configure(port, configs[port]);
    put_bits(controller_line, lines);
    put_bits(controller_trigger, software);
    put_bits(controller_enable, enabled);
}

static void write_config(uint32_t port, uint32_t value)
{
    if (port < ports()) /* a port that it lacks: the write is ignored */
        configure(port, value);
}

void board_vic_write(uint32_t number, uint32_t value)
{
    uint32_t enabled = board_vic_enabled(), software = word_at(SOFTWARE_AT);

    if (number < SGDMA_VIC_PORTS_MAX) {
        write_config(number, value);
        return;
    }
    switch (number) {
    case ALTERA_VIC_INT_ENABLE_REG: put_bits(controller_enable, value); break;
    case ALTERA_VIC_INT_ENABLE_SET_REG: put_bits(controller_enable, enabled | value); break;
    case ALTERA_VIC_INT_ENABLE_CLR_REG: put_bits(controller_enable, enabled & ~value); break;
    case ALTERA_VIC_SW_INTERRUPT_REG: put_bits(controller_trigger, value); break;
    case ALTERA_VIC_SW_INTERRUPT_SET_REG: put_bits(controller_trigger, software | value); break;
    case ALTERA_VIC_SW_INTERRUPT_CLR_REG: put_bits(controller_trigger, software & ~value); break;
    case ALTERA_VIC_VIC_CONFIG_REG:
        put_vectors((uint32_t)LEAST_VECTOR << (value & ALTERA_VIC_VIC_CONFIG_VEC_SIZE_MSK),
                    word_at(BASE_AT));
        break;
    case ALTERA_VIC_VEC_TBL_BASE_REG: put_vectors(word_at(VECTOR_BYTES_AT), value); break;
    default: board_stop(board_vic_name(number) ? BOARD_READ_ONLY : BOARD_NO_VIC_REGISTER);
    }
}

const char *board_vic_name(uint32_t number)
{
    static const char *const NAMES[] = {
        [ALTERA_VIC_INT_ENABLE_REG] = "INT_ENABLE",
        [ALTERA_VIC_INT_ENABLE_SET_REG] = "INT_ENABLE_SET",
        [ALTERA_VIC_INT_ENABLE_CLR_REG] = "INT_ENABLE_CLR",
        [ALTERA_VIC_INT_PENDING_REG] = "INT_PENDING",
        [ALTERA_VIC_INT_RAW_STATUS_REG] = "INT_RAW_STATUS",
        [ALTERA_VIC_SW_INTERRUPT_REG] = "SW_INTERRUPT",
        [ALTERA_VIC_SW_INTERRUPT_SET_REG] = "SW_INTERRUPT_SET",
        [ALTERA_VIC_SW_INTERRUPT_CLR_REG] = "SW_INTERRUPT_CLR",
        [ALTERA_VIC_VIC_CONFIG_REG] = "VIC_CONFIG",
        [ALTERA_VIC_VIC_STATUS_REG] = "VIC_STATUS",
        [ALTERA_VIC_VEC_TBL_BASE_REG] = "VEC_TBL_BASE",
        [ALTERA_VIC_VEC_TBL_ADDR_REG] = "VEC_TBL_ADDR",
    };

    if (number < SGDMA_VIC_PORTS_MAX)
        return "INT_CONFIG";
    return number < sizeof NAMES / sizeof *NAMES ? NAMES[number] : NULL;
}
