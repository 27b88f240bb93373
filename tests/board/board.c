/*
 * The board: what firmware sees of it by the macros alone, its time, its interrupts, and
 * that its saved bytes are all there is of it.
 *
 *   board-tests                 all of it
 *   board-tests MISUSE          one of those of stops.c, which the board must stop
 *   board-tests WAVE REPORTS    moves of both cores, as a wave
 */
#include <stdlib.h>
#include <string.h>

#include "check.h"
#include "masks.h"
#include "small.h"
#include "stops.h"
#include "wave.h"

#include "priv/alt_busy_sleep.h"

static uint32_t busy(uint32_t registers)
{
    return IORD_ALTERA_AVALON_SGDMA_STATUS(registers) & SGDMA_STATUS_BUSY;
}

/* BUSY is seen when the time of the accesses says so. */
static void try_time(void)
{
    check_case("time");
    small_make(0);
    small_start(READER, SMALL->reading, 0);
    for (int i = 0; i < 3; i++)
        check("no step is granted: BUSY comes too late", busy(READER), 0);
    alt_busy_sleep(1);
    for (int i = 0; i < 30; i++)
        check("no step is granted: BUSY stays", busy(READER), SGDMA_STATUS_BUSY);
    small_make(1);
    small_start(READER, SMALL->reading, 0);
    check("a step is granted: BUSY is up", busy(READER), SGDMA_STATUS_BUSY);
    check("a tick an access", board_ticks(), 3);
    check("accesses", board_accesses(), 3);
}

static void start_both(void)
{
    small_start(SENDER, SMALL->sending, 0);
    small_start(READER, SMALL->reading, 0);
}

static int move_in_wave(const char *wave, const char *reports)
{
    small_make(1);
    wave_begin(wave, reports);
    start_both();
    alt_busy_sleep(40);
    return 0;
}

/* A pointer is the bus address, and what the cores move is found behind it. */
static void try_moves(void)
{
    static const uint8_t READ[] = {0x50, 0x51, 0x52, 0x53, 0x54, 0x55, 0x56, 0x57};
    const struct board_core_state *sender;

    check_case("moves");
    small_make(1);
    start_both();
    alt_busy_sleep(40);
    check_bytes("read", SMALL->read, READ, sizeof READ);
    check("done", SMALL->reading[1].control, 0);
    check("done, by a word of memory", IORD_32DIRECT(&SMALL->reading[1], 28), PACKET);
    sender = board_core_state(0);
    check("beats made", sender->made, BEATS);
    check("the last beat", beat_at(sender->sink, BEATS - 1), 0x67);
    check("records", sender->ledger.used, RECORDS);
    IOWR_32DIRECT(SMALL->sent, 0, 0x04030201);
    check("a word written to memory", SMALL->sent[2], 3);
}

/* Which handlers were called, in order, one digit each; and what the controller told
   within that of the core. */
static unsigned called;
static uint32_t told_status, told_address, told_lines;

static void serve_core(void *context)
{
    called = 10 * called + 1;
    told_status = IORD_ALTERA_VIC_VIC_STATUS(VIC);
    told_address = IORD_ALTERA_VIC_VEC_TBL_ADDR(VIC);
    told_lines = IORD_ALTERA_VIC_INT_RAW_STATUS(VIC);
    IOWR_ALTERA_AVALON_SGDMA_CONTROL(READER, *(uint32_t *)context |
                                                 SGDMA_CONTROL_CLEAR_INTERRUPT);
}

static void serve_timer(void *context)
{
    (void)context;
    called = 10 * called + 2;
    IOWR_ALTERA_AVALON_TIMER_STATUS(TIMER, 0);
}

static void serve_software(void *context)
{
    (void)context;
    called = 10 * called + 3;
    IOWR_ALTERA_VIC_SW_INTERRUPT_CLR(VIC, 1u << SENDER_PORT);
}

static void try_interrupts(void)
{
    uint32_t control = SGDMA_CONTROL_IE_GLOBAL | SGDMA_CONTROL_IE_CHAIN;

    check_case("interrupts");
    called = 0;
    small_make(1);
    for (uint32_t port = 0; port < PORTS; port++)
        IOWR_ALTERA_VIC_INT_CONFIG(VIC, port, port + 1);
    check("no such port", (uint32_t)alt_ic_isr_register(VIC_ID, PORTS, serve_core, NULL, NULL), UINT32_MAX);
    alt_ic_isr_register(VIC_ID, READER_PORT, serve_core, &control, NULL);
    alt_ic_isr_register(VIC_ID, TIMER_PORT, serve_timer, NULL, NULL);
    alt_ic_isr_register(VIC_ID, SENDER_PORT, serve_software, NULL, NULL);
    check("enabled", IORD_ALTERA_VIC_INT_ENABLE(VIC), 7);
    small_start(READER, SMALL->reading, control);
    IOWR_ALTERA_AVALON_TIMER_CONTROL(TIMER, SGDMA_TIMER_CONTROL_START | SGDMA_TIMER_CONTROL_ITO);
    alt_busy_sleep(30);
    check("the timer, then the core", called, 21);
    check("VIC_STATUS there", told_status, ALTERA_VIC_VIC_STATUS_IP_MSK | READER_PORT);
    check("VEC_TBL_ADDR there", told_address, 0x8000 + 16 * READER_PORT);
    check("INT_RAW_STATUS there", told_lines, 1u << READER_PORT);
    IOWR_ALTERA_VIC_SW_INTERRUPT_SET(VIC, 1u << SENDER_PORT);
    check("the software trigger", called, 213);
    check("all handlers", board_interrupts(), 3);
    check("disabled", (uint32_t)alt_ic_irq_disable(VIC_ID, SENDER_PORT), 0);
    check("is it enabled", alt_ic_irq_enabled(VIC_ID, SENDER_PORT), 0);
}

/* The registers of the controller, by table 29-5. */
static void try_controller(void)
{
    check_case("controller");
    small_make(1);
    IOWR_ALTERA_VIC_INT_CONFIG(VIC, 1, 0x1F45);
    check("INT_CONFIG", IORD_ALTERA_VIC_INT_CONFIG(VIC, 1), 0x1F45);
    IOWR_ALTERA_VIC_INT_CONFIG(VIC, PORTS, 1);
    check("a port that it lacks", IORD_ALTERA_VIC_INT_CONFIG(VIC, PORTS), 0);
    IOWR_ALTERA_VIC_SW_INTERRUPT(VIC, 0xFFFFFFFF);
    check("SW_INTERRUPT has the ports", IORD_ALTERA_VIC_SW_INTERRUPT(VIC), 7);
    IOWR_ALTERA_VIC_SW_INTERRUPT_CLR(VIC, 5);
    check("SW_INTERRUPT_CLR", IORD_ALTERA_VIC_SW_INTERRUPT(VIC), 2);
    check("nothing is enabled", IORD_ALTERA_VIC_INT_PENDING(VIC), 0);
    IOWR_ALTERA_VIC_INT_ENABLE(VIC, 5);
    IOWR_ALTERA_VIC_INT_ENABLE_CLR(VIC, 1);
    check("INT_ENABLE_CLR", IORD_ALTERA_VIC_INT_ENABLE(VIC), 4);
    check("VIC_STATUS", IORD_ALTERA_VIC_VIC_STATUS(VIC), 0);
    check("VEC_TBL_BASE", IORD_ALTERA_VIC_VEC_TBL_BASE(VIC), 0x8000);
    IOWR_ALTERA_VIC_VEC_TBL_BASE(VIC, 0x9000);
    IOWR_ALTERA_VIC_VIC_CONFIG(VIC, 7);
    check("VIC_CONFIG", IORD_ALTERA_VIC_VIC_CONFIG(VIC), 7);
    check("the rest is as it was", IORD_ALTERA_VIC_INT_CONFIG(VIC, 1), 0x1F45);
    check("INT_ENABLE too", IORD_ALTERA_VIC_INT_ENABLE(VIC), 4);
    check("SW_INTERRUPT too", IORD_ALTERA_VIC_SW_INTERRUPT(VIC), 2);
    check("VEC_TBL_BASE is written", IORD_ALTERA_VIC_VEC_TBL_BASE(VIC), 0x9000);
    check("a set register reads 0", IORD(VIC, ALTERA_VIC_INT_ENABLE_SET_REG), 0);
}

static uint32_t snapshot(void)
{
    IOWR_ALTERA_AVALON_TIMER_SNAPL(TIMER, 0);
    return IORD_ALTERA_AVALON_TIMER_SNAPL(TIMER);
}

static void start_timer(uint32_t period)
{
    IOWR_ALTERA_AVALON_TIMER_PERIODL(TIMER, period);
    IOWR_ALTERA_AVALON_TIMER_CONTROL(TIMER, SGDMA_TIMER_CONTROL_START);
}

static void try_timer(void)
{
    check_case("timer");
    small_make(1);
    start_timer(99);
    alt_busy_sleep(10);
    check("ten ticks, and that of the access", snapshot(), 99 - 11);
}

/* What is made between the middle and the end, and must come to the same end twice. */
static uint32_t go_on(uint8_t *end)
{
    alt_busy_sleep(25);
    board_save(end);
    return snapshot();
}

/* The board saved in the middle comes to the end that it comes to without a break. */
static void try_saved(void)
{
    uint8_t *middle, *end, *again;
    uint32_t counter;
    size_t size;

    check_case("saved");
    small_make(1);
    size = board_size();
    middle = malloc(size);
    end = malloc(size);
    again = malloc(size);
    IOWR_ALTERA_VIC_INT_CONFIG(VIC, READER_PORT, 5);
    start_timer(99);
    start_both();
    board_save(middle);
    counter = go_on(end);
    small_make(1); /* another board, of which nothing is left but its description */
    memset(SMALL, 0xFF, sizeof *SMALL);
    board_restore(middle, size);
    check("it is not at its end", memcmp(middle, end, size) != 0, 1);
    check("the same counter", go_on(again), counter);
    check_bytes("the same end", again, end, size);
    check("the controller as it was", IORD_ALTERA_VIC_INT_CONFIG(VIC, READER_PORT), 5);
    free(middle);
    free(end);
    free(again);
}

int main(int count, char **arguments)
{
    if (count == 2)
        return misuse(arguments[1]);
    if (count == 3)
        return move_in_wave(arguments[1], arguments[2]);
    try_time();
    try_moves();
    try_interrupts();
    try_controller();
    try_timer();
    try_saved();
    try_masks();
    board_end();
    return check_figures();
}
