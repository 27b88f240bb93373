/*
 * The interrupt controller: its bytes, its answer, the ports in order of level,
 * and its refusals, each set of errors at once.
 */
#include <string.h>

#include "check.h"
#include "core.h"

enum { PORTS = 4, VECTOR_BYTES = 16, BASE = 0x8000 };

/* Everything that a call can be given. */
struct lent {
    uint8_t vic[SGDMA_VIC_SIZE + 2];
    uint8_t answer[SGDMA_VIC_ANSWER_SIZE + 2];
    size_t vic_len, answer_len;
    uint32_t ports, port;
};

static uint32_t create(struct lent *l)
{
    return sgdma_vic_create(l->vic, l->vic_len, l->ports, VECTOR_BYTES, BASE);
}

static uint32_t configure(struct lent *l)
{
    return sgdma_vic_configure(l->vic, l->vic_len, l->port, 1, 2, 3);
}

static uint32_t enable(struct lent *l)
{
    return sgdma_vic_enable(l->vic, l->vic_len, l->port, 0);
}

static uint32_t trigger(struct lent *l)
{
    return sgdma_vic_trigger(l->vic, l->vic_len, l->port, 0);
}

static uint32_t line(struct lent *l)
{
    return sgdma_vic_line(l->vic, l->vic_len, l->port, 0);
}

static uint32_t choose(struct lent *l)
{
    return sgdma_vic_choose(l->vic, l->vic_len, l->answer, l->answer_len);
}

/* Four ports of the levels 5, 9, 9 and the largest, enabled; all are up but the last. */
static void lent_prepare(struct lent *l, size_t answer_len)
{
    static const uint32_t LEVELS[PORTS] = {5, 9, 9, SGDMA_VIC_LEVEL_MAX};

    memset(l, 0xEE, sizeof *l);
    l->vic_len = SGDMA_VIC_SIZE;
    l->answer_len = answer_len;
    l->ports = PORTS;
    check("create", create(l), SGDMA_DONE);
    for (l->port = 0; l->port < PORTS; l->port++) {
        uint32_t p = l->port;

        check("configure", sgdma_vic_configure(l->vic, l->vic_len, p, LEVELS[p], p + 1, p & 1),
              SGDMA_DONE);
        check("enable", sgdma_vic_enable(l->vic, l->vic_len, p, 1), SGDMA_DONE);
        check("line", sgdma_vic_line(l->vic, l->vic_len, p, p < 3), SGDMA_DONE);
    }
    l->port = 1;
}

/* The 88 bytes that these calls leave. */
static void check_layout(void)
{
    static const uint8_t WANTED[SGDMA_VIC_SIZE] = {
        [0] = PORTS, [7] = VECTOR_BYTES, [10] = BASE >> 8, [15] = 0x07, [23] = 0x0F,
        [24] = 0,    0x85,               1,                0x49,        1,
        0x89,        2,                  0x7F};
    struct lent l;

    check_case("bytes of a controller");
    lent_prepare(&l, SGDMA_VIC_ANSWER_SIZE);
    check_bytes("vic", l.vic, WANTED, sizeof WANTED);
}

/* What is told: the port, or -1 for none. */
static void check_told(struct lent *l, int port, uint32_t level)
{
    const uint8_t *a = l->answer;
    uint32_t told = port < 0 ? 0 : (uint32_t)port;

    memset(l->answer, 0xEE, sizeof l->answer);
    check("choose", choose(l), SGDMA_DONE);
    check("chosen", number_at(a + SGDMA_VIC_ANSWER_CHOSEN_AT, 2), port >= 0);
    check("port", number_at(a + SGDMA_VIC_ANSWER_PORT_AT, 2), told);
    check("level", number_at(a + SGDMA_VIC_ANSWER_LEVEL_AT, 1), level);
    check("set", number_at(a + SGDMA_VIC_ANSWER_SET_AT, 1), port < 0 ? 0 : told + 1);
    check("flag", number_at(a + SGDMA_VIC_ANSWER_NON_MASKABLE_AT, 2), told & 1);
    check("address", number_at(a + SGDMA_VIC_ANSWER_ADDRESS_AT, 4),
          port < 0 ? 0 : BASE + VECTOR_BYTES * told);
    check("past the answer", a[SGDMA_VIC_ANSWER_SIZE], 0xEE);
}

/* The largest level first, then the lowest index. */
static void check_order(void)
{
    struct lent l;

    check_case("ports in order of level");
    lent_prepare(&l, SGDMA_VIC_ANSWER_SIZE);
    check_told(&l, 1, 9);
    sgdma_vic_trigger(l.vic, l.vic_len, 3, 8);
    check_told(&l, 3, 63);
    sgdma_vic_trigger(l.vic, l.vic_len, 3, 0);
    sgdma_vic_line(l.vic, l.vic_len, 1, 0);
    check_told(&l, 2, 9);
    sgdma_vic_enable(l.vic, l.vic_len, 2, 0);
    check_told(&l, 0, 5);
    sgdma_vic_configure(l.vic, l.vic_len, 0, SGDMA_VIC_LEVEL_MAX + 1, 1, 0);
    check_told(&l, -1, 0);
}

/* The last port of the largest controller, and one more. */
static void check_ports(void)
{
    struct lent l;

    check_case("the largest controller");
    lent_prepare(&l, SGDMA_VIC_ANSWER_SIZE);
    l.ports = SGDMA_VIC_PORTS_MAX + 1;
    check("one more", create(&l), SGDMA_NO_PORT);
    l.ports = SGDMA_VIC_PORTS_MAX;
    check("create", create(&l), SGDMA_DONE);
    l.port = SGDMA_VIC_PORTS_MAX - 1;
    check("the last port", line(&l), SGDMA_DONE);
    l.port = SGDMA_VIC_PORTS_MAX;
    check("past it", line(&l), SGDMA_NO_PORT);
}

/* The last address of the bus is told, and the next is refused. */
static void check_addresses(void)
{
    struct lent l;

    check_case("the last address");
    lent_prepare(&l, SGDMA_VIC_ANSWER_SIZE);
    memset(l.vic + 4, 0xFF, 8); /* bytes per vector and base: only port 0 has a handler */
    check("port 1", choose(&l), SGDMA_ADDRESS_TOO_LARGE);
    sgdma_vic_enable(l.vic, l.vic_len, 1, 0);
    sgdma_vic_enable(l.vic, l.vic_len, 2, 0);
    check("port 0", choose(&l), SGDMA_DONE);
    check("address", number_at(l.answer + SGDMA_VIC_ANSWER_ADDRESS_AT, 4), UINT32_MAX);
}

/* A byte that breaks a rule, and the field that is told. */
static const struct broken {
    size_t at;
    uint8_t byte;
    uint32_t field;
} BROKEN[] = {
    {0, 0, SGDMA_VIC_FIELD_PORTS},
    {0, 33, SGDMA_VIC_FIELD_PORTS},
    {2, 1, SGDMA_VIC_FIELD_ZERO},
    {15, 0x17, SGDMA_VIC_FIELD_LINES},
    {16, 0x80, SGDMA_VIC_FIELD_SOFTWARE},
    {23, 0x1F, SGDMA_VIC_FIELD_ENABLED},
    {24, 0x20, SGDMA_VIC_FIELD_FIRST_CONFIG},
    {33, 1, SGDMA_VIC_FIELD_FIRST_CONFIG + 4},
    {87, 1, SGDMA_VIC_FIELD_FIRST_CONFIG + 31},
};

static void check_fields(void)
{
    check_case("fields of a controller");
    for (size_t i = 0; i < COUNT(BROKEN); i++) {
        struct lent l;
        uint32_t number = SGDMA_BAD_IMAGE + 256 * BROKEN[i].field;

        lent_prepare(&l, SGDMA_VIC_ANSWER_SIZE);
        l.vic[BROKEN[i].at] = BROKEN[i].byte;
        check("choose", choose(&l), number);
        check("configure", configure(&l), number);
    }
}

#include "sets.h"

/* The errors. They are made so that any of them can be made together. */
static void short_vic(struct lent *l) { l->vic_len -= 1; }
static void long_vic(struct lent *l) { l->vic_len += 2; }
static void short_answer(struct lent *l) { l->answer_len -= 1; }
static void broken(struct lent *l) { l->vic[87] = 1; }
static void no_ports(struct lent *l) { l->ports = 0; }
static void no_port(struct lent *l) { l->port = PORTS; }
static void too_large(struct lent *l) { memset(l->vic + 4, 0xFF, 8); }

#define BROKEN_LAST (SGDMA_BAD_IMAGE + 256 * (SGDMA_VIC_FIELD_FIRST_CONFIG + 31))

#define PORT_ERRORS                                                            \
    {{short_vic, SGDMA_BAD_SIZE},                                              \
     {long_vic, SGDMA_BAD_SIZE},                                               \
     {broken, BROKEN_LAST},                                                    \
     {no_port, SGDMA_NO_PORT}}

static const struct call CALLS[] = {
    {"sgdma_vic_create", create, 0,
     {{short_vic, SGDMA_BAD_SIZE}, {long_vic, SGDMA_BAD_SIZE},
      {no_ports, SGDMA_NO_PORT}}},
    {"sgdma_vic_configure", configure, 0, PORT_ERRORS},
    {"sgdma_vic_enable", enable, 0, PORT_ERRORS},
    {"sgdma_vic_trigger", trigger, 0, PORT_ERRORS},
    {"sgdma_vic_line", line, 0, PORT_ERRORS},
    {"sgdma_vic_choose", choose, SGDMA_VIC_ANSWER_SIZE,
     {{short_vic, SGDMA_BAD_SIZE}, {long_vic, SGDMA_BAD_SIZE},
      {short_answer, SGDMA_BAD_SIZE}, {broken, BROKEN_LAST},
      {too_large, SGDMA_ADDRESS_TOO_LARGE}}},
};

void test_controller(void)
{
    check_layout();
    check_order();
    check_ports();
    check_addresses();
    check_fields();
    check_sets(CALLS, COUNT(CALLS));
}
