/*
 * The interval timer: its bytes, its registers, its ticks, its line, the time
 * between two snapshots, and its refusals, each set of errors at once. What must
 * come out is worked out by hand from the request and the handbook's chapter 26.
 */
#include "timer.h"

#include <string.h>

#include "check.h"

#define TO    SGDMA_TIMER_STATUS_TO
#define RUN   SGDMA_TIMER_STATUS_RUN
#define ITO   SGDMA_TIMER_CONTROL_ITO
#define CONT  SGDMA_TIMER_CONTROL_CONT
#define START SGDMA_TIMER_CONTROL_START
#define STOP  SGDMA_TIMER_CONTROL_STOP
#define FULL  SGDMA_TIMER_FULL_PERIOD
#define MOST  UINT32_C(4294967295)

/* The flags as they stand in the last byte. */
enum { IN_CONT = 8, IN_ITO = 4, IN_RUN = 2, IN_TO = 1 };

/* A timer laid byte by byte. */
static struct timer laid(uint32_t counter, uint32_t period, uint32_t snapshot,
                         unsigned flags)
{
    uint32_t numbers[] = {counter, period, snapshot};
    struct timer timer = {{[SGDMA_TIMER_SIZE - 1] = (uint8_t)flags}};

    for (size_t i = 0; i < COUNT(numbers); i++)
        for (size_t byte = 0; byte < 4; byte++)
            timer.bytes[4 * i + byte] = (uint8_t)(numbers[i] >> (24 - 8 * byte));
    return timer;
}

static void check_timer(const char *what, const struct timer *found,
                        uint32_t counter, uint32_t period, uint32_t snapshot,
                        unsigned flags)
{
    struct timer wanted = laid(counter, period, snapshot, flags);

    check_bytes(what, found->bytes, wanted.bytes, sizeof wanted.bytes);
}

/* The 14 bytes that calls leave, over others. */
static void check_layout(void)
{
    static const uint8_t FRESH[SGDMA_TIMER_SIZE] = {0xA1, 0xB2, 0xC3, 0xD4,
                                                    0xA1, 0xB2, 0xC3, 0xD4};
    static const uint8_t LATER[SGDMA_TIMER_SIZE] = {
        0xA1, 0xB2, 0xC3, 0xCA, 0xA1, 0xB2, 0xC3, 0xD4,
        0xA1, 0xB2, 0xC3, 0xCD, 0,    IN_CONT | IN_ITO | IN_RUN};
    struct timer timer;

    check_case("bytes of a timer");
    memset(timer.bytes, 0xEE, sizeof timer.bytes);
    timer_make(&timer, 0xA1B2C3D4);
    check_bytes("fresh", timer.bytes, FRESH, sizeof FRESH);
    timer_write(&timer, SGDMA_TIMER_REGISTER_CONTROL, CONT | ITO | START);
    check("seven ticks", timer_run(&timer, 7), 0);
    check("snapshot", timer_snapshot(&timer), 0xA1B2C3CD);
    check("three more", timer_run(&timer, 3), 0);
    check_bytes("later", timer.bytes, LATER, sizeof LATER);
}

/* Each register reads its own number, with every set of flags. */
static void check_reads(void)
{
    check_case("registers of a timer");
    for (unsigned flags = 0; flags < 16; flags++) {
        struct timer timer = laid(0x01020304, 0x11223344, 0xAABBCCDD, flags);
        uint32_t status = (flags & IN_TO ? TO : 0) | (flags & IN_RUN ? RUN : 0);
        uint32_t control = (flags & IN_ITO ? ITO : 0) | (flags & IN_CONT ? CONT : 0);

        check("status", timer_read(&timer, SGDMA_TIMER_REGISTER_STATUS), status);
        check("control", timer_read(&timer, SGDMA_TIMER_REGISTER_CONTROL), control);
        check("periodl", timer_read(&timer, SGDMA_TIMER_REGISTER_PERIODL), 0x3344);
        check("periodh", timer_read(&timer, SGDMA_TIMER_REGISTER_PERIODH), 0x1122);
        check("snapl", timer_read(&timer, SGDMA_TIMER_REGISTER_SNAPL), 0xCCDD);
        check("snaph", timer_read(&timer, SGDMA_TIMER_REGISTER_SNAPH), 0xAABB);
        check("line", timer_line(&timer), flags & IN_TO && flags & IN_ITO);
        check_timer("as before", &timer, 0x01020304, 0x11223344, 0xAABBCCDD, flags);
    }
}

/* What is written to control, and whether the timer runs then: START and STOP
   together mean STOP. */
static const struct command {
    uint32_t value;
    bool ran, runs;
} COMMANDS[] = {
    {0, false, false},           {0, true, true},
    {START, false, true},        {START, true, true},
    {STOP, false, false},        {STOP, true, false},
    {START | STOP, false, false}, {START | STOP, true, false},
    {0xFFF0, false, false},      {0xFFF0 | START, false, true},
};

/* Each with every ITO and CONT, over the others. Counter, snapshot and TO stay. */
static void check_commands(void)
{
    check_case("commands of a timer");
    for (size_t i = 0; i < COUNT(COMMANDS); i++)
        for (uint32_t kept = 0; kept < 4; kept++) {
            const struct command *c = &COMMANDS[i];
            uint32_t stored = (kept & 1 ? ITO : 0) | (kept & 2 ? CONT : 0);
            unsigned flags = (kept & 1 ? IN_ITO : 0) | (kept & 2 ? IN_CONT : 0) | IN_TO;
            unsigned others = (IN_ITO | IN_CONT) ^ flags;
            struct timer timer = laid(5, 9, 7, others | (c->ran ? IN_RUN : 0));

            timer_write(&timer, SGDMA_TIMER_REGISTER_CONTROL, c->value | stored);
            check_timer("written", &timer, 5, 9, 7, flags | (c->runs ? IN_RUN : 0));
            check("read", timer_read(&timer, SGDMA_TIMER_REGISTER_CONTROL), stored);
        }
}

/* A write to another register, what it leaves, and the flag that it clears. */
static const struct write {
    const char *name;
    uint32_t offset, value;
    uint32_t counter, period, snapshot;
    unsigned clears;
} WRITES[] = {
    {"status", SGDMA_TIMER_REGISTER_STATUS, 0, 0x000400AB, 0x00050006, 8, IN_TO},
    {"status, all 1", SGDMA_TIMER_REGISTER_STATUS, 0xFFFF, 0x000400AB, 0x00050006, 8, IN_TO},
    {"periodl", SGDMA_TIMER_REGISTER_PERIODL, 0x1234, 0x00051234, 0x00051234, 8, IN_RUN},
    {"periodh", SGDMA_TIMER_REGISTER_PERIODH, 0x1234, 0x12340006, 0x12340006, 8, IN_RUN},
    {"the same", SGDMA_TIMER_REGISTER_PERIODH, 5, 0x00050006, 0x00050006, 8, IN_RUN},
    {"snapl", SGDMA_TIMER_REGISTER_SNAPL, 0x1234, 0x000400AB, 0x00050006, 0x000400AB, 0},
    {"snaph", SGDMA_TIMER_REGISTER_SNAPH, 0, 0x000400AB, 0x00050006, 0x000400AB, 0},
};

/* Each with every set of flags. */
static void check_writes(void)
{
    check_case("writes to a timer");
    for (size_t i = 0; i < COUNT(WRITES); i++)
        for (unsigned flags = 0; flags < 16; flags++) {
            const struct write *w = &WRITES[i];
            struct timer timer = laid(0x000400AB, 0x00050006, 8, flags);

            timer_write(&timer, w->offset, w->value);
            check_timer(w->name, &timer, w->counter, w->period, w->snapshot,
                        flags & ~w->clears);
        }
}

/* A timer that runs, the ticks that pass, and what must come of it. */
static const struct row {
    uint32_t period, counter, cont;
    uint32_t ticks;
    uint32_t left, runs, reached;
} ROWS[] = {
    /* 2, 1, 0, 2, 1, 0 .. */
    {2, 2, 1, 0, 2, 1, 0},
    {2, 2, 1, 1, 1, 1, 0},
    {2, 2, 1, 2, 0, 1, 1},
    {2, 2, 1, 3, 2, 1, 1},
    {2, 2, 1, 5, 0, 1, 2},
    {2, 0, 1, 1, 2, 1, 0},
    {2, 0, 1, 3, 0, 1, 1},
    /* .. and once: the tick after zero loads it and stops it. */
    {2, 2, 0, 2, 0, 1, 1},
    {2, 2, 0, 3, 2, 0, 1},
    {2, 2, 0, 4, 2, 0, 1},
    {2, 0, 0, 1, 2, 0, 0},
    {2, 1, 0, MOST, 2, 0, 1},
    /* Period 0: every tick that runs reaches zero. */
    {0, 0, 1, 4, 0, 1, 4},
    {0, 0, 1, MOST, 0, 1, MOST},
    {0, 0, 0, 1, 0, 0, 1},
    {0, 0, 0, MOST, 0, 0, 1},
    /* 10 ticks a turn: 429,496,729 turns and 5 ticks. */
    {9, 9, 1, MOST, 4, 1, 429496729},
    {9, 5, 1, MOST, 0, 1, 429496730},
    /* 2^32 ticks a turn: one short of it. */
    {MOST, MOST, 1, MOST, 0, 1, 1},
    {MOST, MOST, 0, MOST, 0, 1, 1},
    {MOST, 1, 1, MOST, 2, 1, 1},
    {MOST, 1, 0, MOST, MOST, 0, 1},
    {MOST - 1, MOST - 1, 1, MOST, MOST - 1, 1, 1},
};

/* With this ITO, and with TO set before or not: it is set where zero is reached. */
static void check_row(const struct row *row, unsigned flags)
{
    unsigned cont = row->cont ? IN_CONT : 0;
    struct timer timer = laid(row->counter, row->period, 77, flags | cont | IN_RUN);
    uint32_t reached = timer_run(&timer, row->ticks);

    check("reached", reached, row->reached);
    check_timer("left", &timer, row->left, row->period, 77,
                flags | cont | (row->runs ? IN_RUN : 0) | (row->reached ? IN_TO : 0));
    check("line", timer_line(&timer),
          flags & IN_ITO && (flags & IN_TO || row->reached != 0));
    timer = laid(row->counter, row->period, 77, flags | cont);
    check("stopped", timer_run(&timer, row->ticks), 0);
    check_timer("as before", &timer, row->counter, row->period, 77, flags | cont);
}

static void check_ticks(void)
{
    check_case("ticks of a timer");
    for (size_t i = 0; i < COUNT(ROWS); i++) {
        check_row(&ROWS[i], 0);
        check_row(&ROWS[i], IN_TO);
        check_row(&ROWS[i], IN_ITO);
        check_row(&ROWS[i], IN_ITO | IN_TO);
    }
}

/* As firmware does it: a period by its halves, the line served at each timeout. */
static void check_served(void)
{
    struct timer timer;

    check_case("a timer served");
    timer_make(&timer, 0);
    timer_write(&timer, SGDMA_TIMER_REGISTER_PERIODH, 0x0001);
    timer_write(&timer, SGDMA_TIMER_REGISTER_PERIODL, 0x869F); /* 99,999 */
    timer_write(&timer, SGDMA_TIMER_REGISTER_CONTROL, ITO | CONT | START);
    check("not yet", timer_run(&timer, 99998), 0);
    for (size_t turn = 0; turn < 3; turn++) {
        check("down", timer_line(&timer), false);
        check("status", timer_read(&timer, SGDMA_TIMER_REGISTER_STATUS), RUN);
        check("zero", timer_run(&timer, 1), 1);
        check("up", timer_line(&timer), true);
        check("status", timer_read(&timer, SGDMA_TIMER_REGISTER_STATUS), RUN | TO);
        timer_write(&timer, SGDMA_TIMER_REGISTER_STATUS, 0);
        check("99,999 ticks", timer_run(&timer, 99999), 0);
    }
    timer_write(&timer, SGDMA_TIMER_REGISTER_CONTROL, ITO | CONT | STOP);
    check("stopped", timer_run(&timer, MOST), 0);
    check("where it was", timer_snapshot(&timer), 1);
    timer_write(&timer, SGDMA_TIMER_REGISTER_CONTROL, ITO | START);
    check("goes on", timer_run(&timer, 1), 1);
    timer_write(&timer, SGDMA_TIMER_REGISTER_CONTROL, 0);
    check("without ITO", timer_line(&timer), false);
    check("loaded", timer_run(&timer, 1), 0);
    check("and stopped", timer_read(&timer, SGDMA_TIMER_REGISTER_STATUS), TO);
    check("at the period", timer_snapshot(&timer), 99999);
}

/* Snapshots, the earlier and the later, and the ticks between them. */
static const uint32_t SNAPSHOTS[][3] = {
    {1000, 400, 600}, {400, 1000, 4294966696}, {0, MOST, 1},
    {MOST, 0, MOST},  {7, 7, 0},               {3, MOST - 6, 10},
};

static void check_elapsed(void)
{
    static const uint32_t OTHERS[] = {0, 9, 65535, FULL - 65535, FULL - 1};
    struct timer timer = laid(4, MOST, 0, 0);
    uint8_t value[SGDMA_VALUE_SIZE];

    check_case("time between snapshots");
    check("the full period", FULL, MOST);
    for (size_t i = 0; i < COUNT(SNAPSHOTS); i++)
        check("ticks", timer_elapsed(&timer, SNAPSHOTS[i][0], SNAPSHOTS[i][1]),
              SNAPSHOTS[i][2]);
    for (size_t i = 0; i < COUNT(OTHERS); i++) {
        timer = laid(0, OTHERS[i], 0, IN_CONT | IN_RUN);
        check("another period", sgdma_timer_elapsed(timer.bytes, sizeof timer.bytes, 9,
                                                    5, value, sizeof value),
              SGDMA_NOT_FULL_PERIOD);
    }
}

/* A stall timed as the header says, with the counter passing zero. */
static void check_stall(void)
{
    struct timer timer;
    uint32_t earlier, later;

    check_case("a stall");
    timer_make(&timer, FULL);
    timer_write(&timer, SGDMA_TIMER_REGISTER_CONTROL, CONT | START);
    timer_run(&timer, MOST - 20);
    earlier = timer_snapshot(&timer);
    timer_run(&timer, 12345);
    later = timer_snapshot(&timer);
    check("earlier", earlier, 20);
    check("later", later, MOST - 12324);
    check("ticks", timer_elapsed(&timer, earlier, later), 12345);
}

/* Everything that a call can be given. */
struct lent {
    uint8_t timer[SGDMA_TIMER_SIZE + 2];
    uint8_t value[SGDMA_VALUE_SIZE + 2];
    size_t timer_len, value_len;
    uint32_t offset;
};

static uint32_t create(struct lent *l)
{
    return sgdma_timer_create(l->timer, l->timer_len, 5);
}

static uint32_t read_register(struct lent *l)
{
    return sgdma_timer_read(l->timer, l->timer_len, l->offset, l->value, l->value_len);
}

static uint32_t write_register(struct lent *l)
{
    return sgdma_timer_write(l->timer, l->timer_len, l->offset, 9);
}

static uint32_t line(struct lent *l)
{
    return sgdma_timer_line(l->timer, l->timer_len, l->value, l->value_len);
}

static uint32_t run(struct lent *l)
{
    return sgdma_timer_run(l->timer, l->timer_len, 3, l->value, l->value_len);
}

static uint32_t elapsed(struct lent *l)
{
    return sgdma_timer_elapsed(l->timer, l->timer_len, 9, 4, l->value, l->value_len);
}

/* A timer of the full period that runs, with all its flags set. */
static void lent_prepare(struct lent *l, size_t value_len)
{
    struct timer timer = laid(7, FULL, 3, IN_CONT | IN_ITO | IN_RUN | IN_TO);

    memset(l, 0xEE, sizeof *l);
    memcpy(l->timer, timer.bytes, sizeof timer.bytes);
    l->timer_len = SGDMA_TIMER_SIZE;
    l->value_len = value_len;
    l->offset = SGDMA_TIMER_REGISTER_SNAPH;
}

#include "sets.h"

/* The errors. They are made so that any of them can be made together. */
static void short_timer(struct lent *l) { l->timer_len -= 1; }
static void long_timer(struct lent *l) { l->timer_len += 2; }
static void short_value(struct lent *l) { l->value_len -= 1; }
static void long_value(struct lent *l) { l->value_len += 2; }
static void low_period(struct lent *l) { memset(l->timer + 4, 0, 4); }
static void zero_bit(struct lent *l) { l->timer[12] = 0x80; }
static void no_register(struct lent *l) { l->offset += 1; }
static void other_period(struct lent *l) { l->timer[4] &= 0x7F; }

#define BAD_PERIOD (SGDMA_BAD_IMAGE + 256 * SGDMA_TIMER_FIELD_PERIOD)
#define BAD_ZERO   (SGDMA_BAD_IMAGE + 256 * SGDMA_TIMER_FIELD_ZERO)

#define SIZE_OF_TIMER {short_timer, SGDMA_BAD_SIZE}, {long_timer, SGDMA_BAD_SIZE}
#define SIZE_OF_VALUE {short_value, SGDMA_BAD_SIZE}, {long_value, SGDMA_BAD_SIZE}
#define FIELDS        {low_period, BAD_PERIOD}, {zero_bit, BAD_ZERO}

static const struct call CALLS[] = {
    {"sgdma_timer_create", create, 0, {SIZE_OF_TIMER}},
    {"sgdma_timer_read", read_register, SGDMA_VALUE_SIZE,
     {SIZE_OF_TIMER, SIZE_OF_VALUE, FIELDS, {no_register, SGDMA_NO_TIMER_REGISTER}}},
    {"sgdma_timer_write", write_register, 0,
     {SIZE_OF_TIMER, FIELDS, {no_register, SGDMA_NO_TIMER_REGISTER}}},
    {"sgdma_timer_line", line, SGDMA_VALUE_SIZE, {SIZE_OF_TIMER, SIZE_OF_VALUE, FIELDS}},
    {"sgdma_timer_run", run, SGDMA_VALUE_SIZE, {SIZE_OF_TIMER, SIZE_OF_VALUE, FIELDS}},
    {"sgdma_timer_elapsed", elapsed, SGDMA_VALUE_SIZE,
     {SIZE_OF_TIMER, SIZE_OF_VALUE, FIELDS, {other_period, SGDMA_NOT_FULL_PERIOD}}},
};

/* Bytes of a timer, and what a call that reads them returns. */
static void check_fields(void)
{
    static const struct {
        size_t at;
        uint8_t byte;
        uint32_t number;
    } BYTES[] = {
        {0, 1, BAD_PERIOD},          {3, 6, SGDMA_DONE},    {3, 7, BAD_PERIOD},
        {7, 4, BAD_PERIOD},          {7, 5, SGDMA_DONE},    {12, 0x01, BAD_ZERO},
        {13, IN_RUN | 16, BAD_ZERO}, {13, 128, BAD_ZERO},   {13, 15, SGDMA_DONE},
        {8, 0xFF, SGDMA_DONE},
    };

    check_case("fields of a timer");
    for (size_t i = 0; i < COUNT(BYTES); i++) {
        struct lent l;
        struct timer timer = laid(5, 6, 3, IN_RUN);

        lent_prepare(&l, SGDMA_VALUE_SIZE);
        memcpy(l.timer, timer.bytes, sizeof timer.bytes);
        l.timer[BYTES[i].at] = BYTES[i].byte;
        check("line", line(&l), BYTES[i].number);
        check("run", run(&l), BYTES[i].number);
    }
}

/* There are six registers. */
static void check_offsets(void)
{
    static const uint32_t NONE[] = {6, 7, 8, 255, 256, 65536, MOST};
    struct lent l;

    check_case("offsets of a timer");
    lent_prepare(&l, SGDMA_VALUE_SIZE);
    for (l.offset = 0; l.offset < 6; l.offset++) {
        check("read", read_register(&l), SGDMA_DONE);
        check("write", write_register(&l), SGDMA_DONE);
    }
    for (size_t i = 0; i < COUNT(NONE); i++) {
        l.offset = NONE[i];
        check("read", read_register(&l), SGDMA_NO_TIMER_REGISTER);
        check("write", write_register(&l), SGDMA_NO_TIMER_REGISTER);
    }
}

void test_timer(void)
{
    check_layout();
    check_reads();
    check_commands();
    check_writes();
    check_ticks();
    check_served();
    check_elapsed();
    check_stall();
    check_fields();
    check_offsets();
    check_sets(CALLS, COUNT(CALLS));
}
