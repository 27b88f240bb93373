#include "shared.h"

#include <inttypes.h>
#include <stdio.h>

#include "beats.h"
#include "controller.h"
#include "show.h"
#include "timer.h"

/* The cores are A and B, on the ports 0 and 1; the timer is on the port behind them. */
enum { CORES = 2, TIMER = CORES, PORTS, VECTOR_BYTES = 16, HANDLERS = 0x8000 };
enum { SILENT_AFTER = 40, MOST_SERVED = 16 };

static const char *const NAMES[PORTS] = {"core A", "core B", "timer"};
static const uint32_t LEVELS[PORTS] = {3, 7, 5};

/* The timer reaches zero every 30 ticks, at 29, 59 and so on; a slice has 20. */
enum { PERIOD = 29 };

/* Which are served: the cores, both in two slices, then A alone, since B has no more
   samples; and the timer in the second slice and the third. */
static const uint32_t MUST[] = {1, 0, 1, TIMER, 0, TIMER, 0, 0};

enum { MUST_COUNT = sizeof MUST / sizeof *MUST };

struct bench {
    struct controller controller;
    struct firmware cores[CORES];
    struct timer timer;
    uint32_t served[MOST_SERVED];
    size_t count;
};

static void begin(struct bench *bench, uint32_t enables)
{
    bench->count = 0;
    controller_make(&bench->controller, PORTS, VECTOR_BYTES, HANDLERS);
    for (uint32_t port = 0; port < PORTS; port++) {
        controller_configure(&bench->controller, port, LEVELS[port], port, false);
        controller_enable(&bench->controller, port, true);
    }
    for (size_t i = 0; i < CORES; i++)
        firmware_begin(&bench->cores[i], enables);
    bench->cores[1].in.beats = SILENT_AFTER;
    for (size_t i = 0; i < CORES; i++)
        firmware_start(&bench->cores[i]);
    timer_make(&bench->timer, PERIOD);
    timer_write(&bench->timer, SGDMA_TIMER_REGISTER_CONTROL,
                SGDMA_TIMER_CONTROL_ITO | SGDMA_TIMER_CONTROL_CONT |
                    SGDMA_TIMER_CONTROL_START);
}

/* Brings the line of a core or of the timer to its port. */
static bool bring_line(struct bench *bench, uint32_t port)
{
    bool up = port == TIMER ? timer_line(&bench->timer)
                            : core_line(&bench->cores[port].core);

    controller_line(&bench->controller, port, up);
    return up;
}

/* Reads the status of the timer, and clears what was read. */
static uint32_t acknowledge_timer(struct timer *timer)
{
    uint32_t status = timer_read(timer, SGDMA_TIMER_REGISTER_STATUS);

    timer_write(timer, SGDMA_TIMER_REGISTER_STATUS, 0);
    return status;
}

/* Serves what is on this port: takes its line down, and shows the status read. */
static void serve_port(struct bench *bench, uint32_t port)
{
    if (port == TIMER)
        show_timer_status(acknowledge_timer(&bench->timer));
    else
        show_status(firmware_acknowledge(&bench->cores[port]));
    bring_line(bench, port);
}

/* Serves the port that is told, and the next, until none is. */
static void serve(struct bench *bench)
{
    struct told told = controller_choose(&bench->controller);

    while (told.chosen && bench->count < MOST_SERVED) {
        printf("                              %-6s  %5" PRIu32 "  0x%04" PRIX32,
               NAMES[told.port], told.level, told.handler);
        serve_port(bench, told.port);
        printf("\n");
        bench->served[bench->count++] = told.port;
        told = controller_choose(&bench->controller);
    }
}

/* One slice of each core, and so many ticks; whether either core goes on. */
static bool slice(struct bench *bench, size_t number)
{
    bool goes_on = false;

    for (size_t i = 0; i < CORES; i++)
        goes_on |= firmware_run(&bench->cores[i]).reason == SGDMA_REASON_BUDGET;
    timer_run(&bench->timer, SLICE);
    printf("    %5zu", number);
    for (uint32_t port = 0; port < PORTS; port++)
        printf(port == TIMER ? "  %s\n" : "  %-4s",
               bring_line(bench, port) ? "up" : "down");
    serve(bench);
    return goes_on;
}

static bool served_as(const struct bench *bench)
{
    bool as = bench->count == MUST_COUNT;

    for (size_t i = 0; as && i < MUST_COUNT; i++)
        as = bench->served[i] == MUST[i];
    return as && firmware_done(&bench->cores[0]) == DESCRIPTORS &&
           firmware_done(&bench->cores[1]) == SILENT_AFTER / PACKET;
}

bool play_shared(size_t number, uint32_t enables)
{
    static struct bench bench;
    size_t slices = 0;

    show_title(number, "Two cores and the timer on one interrupt controller",
               "Of those whose lines are up the one with the largest level is told first.");
    printf("    slice  A     B     timer  served  level  handler  status read and cleared\n");
    begin(&bench, enables);
    while (slice(&bench, ++slices))
        ;
    printf("\n    done: %zu descriptors of A, %zu of B, whose stream stopped short\n",
           firmware_done(&bench.cores[0]), firmware_done(&bench.cores[1]));
    for (size_t i = 0; i < CORES; i++) {
        printf("\n    %s\n", NAMES[i]);
        show_beats(bench.cores[i].ledger, &bench.cores[i].core, bench.cores[i].taken);
    }
    return show_verdict(served_as(&bench));
}
