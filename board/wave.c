#include "wave.h"

#include <inttypes.h>
#include <stdio.h>
#include <stdlib.h>

#include "board.h"
#include "progress.h"

struct signal {
    const char *name;
    unsigned width;
};

/* Of each core, and of the firmware: in the order in which their values are put. */
static const struct signal OF_CORE[] = {
    {"phase", 3},
    {"run", 1},
    {"busy", 1},
    {"error", 1},
    {"eop_encountered", 1},
    {"descriptor_completed", 1},
    {"chain_completed", 1},
    {"line", 1},
    {"pointer", 32},
    {"moved", 16},
    {"beats_in", 32},
    {"beats_out", 32},
    {"records", 32},
};

static const struct signal OF_FIRMWARE[] = {
    {"read", 1},
    {"write", 1},
    {"address", 32},
    {"value", 32},
    {"source_line", 16},
    {"accesses", 32},
};

enum {
    CORE_SIGNALS = sizeof OF_CORE / sizeof *OF_CORE,
    FIRMWARE_SIGNALS = sizeof OF_FIRMWARE / sizeof *OF_FIRMWARE,
    SIGNALS = BOARD_CORES_MAX * CORE_SIGNALS + FIRMWARE_SIGNALS
};

/* The image has its phase in two bits of the first byte and one of the second. */
#define PHASE_OF(image) (((image)[0] & 3u) << 1 | (image)[1] >> 7)

static struct {
    FILE *wave, *reports;
    uint32_t tick;
    bool shown; /* something was, so that only changes are */
    uint32_t now[SIGNALS], before[SIGNALS];
} waves;

static size_t core_count(void)
{
    return board_description()->core_count;
}

static const struct signal *signal_at(size_t place)
{
    size_t of_cores = core_count() * CORE_SIGNALS;

    return place < of_cores ? &OF_CORE[place % CORE_SIGNALS] : &OF_FIRMWARE[place - of_cores];
}

static size_t signal_count(void)
{
    return core_count() * CORE_SIGNALS + FIRMWARE_SIGNALS;
}

/* Each signal is named in the file by two printed characters. */
static void put_id(size_t place)
{
    fprintf(waves.wave, "%c%c", (int)('A' + place / 26), (int)('a' + place % 26));
}

static void put_signal(size_t place)
{
    const struct signal *signal = signal_at(place);

    if (signal->width == 1) {
        fprintf(waves.wave, "%" PRIu32, waves.now[place]);
    } else {
        fprintf(waves.wave, "b");
        for (unsigned bit = signal->width; bit-- > 0;)
            fprintf(waves.wave, "%" PRIu32, waves.now[place] >> bit & 1);
        fprintf(waves.wave, " ");
    }
    put_id(place);
    fprintf(waves.wave, "\n");
}

/* Writes the tick that is over: what has changed in it. */
static void put_tick(void)
{
    fprintf(waves.wave, "#%" PRIu32 "\n", waves.tick);
    for (size_t i = 0; i < signal_count(); i++)
        if (!waves.shown || waves.now[i] != waves.before[i]) {
            put_signal(i);
            waves.before[i] = waves.now[i];
        }
    waves.shown = true;
}

static void put_scope(const char *name, const struct signal *signals, size_t count,
                      size_t first)
{
    fprintf(waves.wave, "$scope module %s $end\n", name);
    for (size_t i = 0; i < count; i++) {
        fprintf(waves.wave, "$var wire %u ", signals[i].width);
        put_id(first + i);
        fprintf(waves.wave, " %s", signals[i].name);
        if (signals[i].width > 1)
            fprintf(waves.wave, " [%u:0]", signals[i].width - 1);
        fprintf(waves.wave, " $end\n");
    }
    fprintf(waves.wave, "$upscope $end\n");
}

static void put_head(void)
{
    fprintf(waves.wave, "$comment one time unit is one tick of the board $end\n"
                        "$timescale 1 ns $end\n$scope module board $end\n");
    for (size_t i = 0; i < core_count(); i++)
        put_scope(board_description()->cores[i].name, OF_CORE, CORE_SIGNALS,
                  i * CORE_SIGNALS);
    put_scope("firmware", OF_FIRMWARE, FIRMWARE_SIGNALS, core_count() * CORE_SIGNALS);
    fprintf(waves.wave, "$upscope $end\n$enddefinitions $end\n");
}

/* The values of a core, in the order of OF_CORE. */
static void see_core(size_t place)
{
    const struct board_core_state *state = board_core_state(place);
    uint32_t status = core_read(&state->core, SGDMA_REGISTER_STATUS);
    const uint32_t values[CORE_SIGNALS] = {
        PHASE_OF(state->core.image),
        (core_read(&state->core, SGDMA_REGISTER_CONTROL) & SGDMA_CONTROL_RUN) != 0,
        (status & SGDMA_STATUS_BUSY) != 0,
        (status & SGDMA_STATUS_ERROR) != 0,
        (status & SGDMA_STATUS_EOP_ENCOUNTERED) != 0,
        (status & SGDMA_STATUS_DESCRIPTOR_COMPLETED) != 0,
        (status & SGDMA_STATUS_CHAIN_COMPLETED) != 0,
        core_line(&state->core),
        core_read(&state->core, SGDMA_REGISTER_NEXT_DESCRIPTOR_POINTER),
        core_in_hand(&state->core),
        state->taken,
        state->made,
        state->ledger.used,
    };

    for (size_t i = 0; i < CORE_SIGNALS; i++)
        waves.now[place * CORE_SIGNALS + i] = values[i];
}

/* The values of the firmware, in the order of OF_FIRMWARE; NULL: it makes no access. */
static void see_firmware(const struct board_access *access)
{
    uint32_t *now = waves.now + core_count() * CORE_SIGNALS;

    now[0] = access && access->does == BOARD_READ;
    now[1] = access && access->does == BOARD_WRITE;
    if (access) {
        now[2] = access->address;
        now[3] = access->value;
        now[4] = (uint32_t)access->line;
    }
    now[5] = board_accesses();
}

static void at_step(size_t core, const struct ran *ran)
{
    if (board_ticks() != waves.tick) {
        put_tick();
        waves.tick = board_ticks();
        show_progress(waves.tick, "ticks");
        see_firmware(NULL);
    }
    see_core(core);
    fprintf(waves.reports,
            "step %" PRIu32 " %zu %" PRIu32 " %" PRIu32 " %" PRIu32 " %" PRIu32 " %" PRIu32 "\n",
            waves.tick, core, ran->reason, ran->steps, ran->taken, ran->made, ran->used);
}

static void at_access(const struct board_access *access)
{
    for (size_t i = 0; i < core_count(); i++)
        see_core(i);
    see_firmware(access);
    fprintf(waves.reports, "%s %" PRIu32 " 0x%08" PRIX32 " 0x%08" PRIX32 " %d %s %s\n",
            access->does == BOARD_READ ? "read" : "write", waves.tick, access->address,
            access->value, access->line, access->device, access->reg);
}

static FILE *opened(const char *path)
{
    FILE *file = fopen(path, "w");

    if (!file) {
        perror(path);
        exit(2);
    }
    return file;
}

void wave_begin(const char *wave, const char *reports)
{
    static const struct board_watch WATCH = {at_step, at_access};

    waves.wave = opened(wave);
    waves.reports = opened(reports);
    waves.tick = board_ticks();
    waves.shown = false;
    put_head();
    for (size_t i = 0; i < core_count(); i++)
        see_core(i);
    see_firmware(NULL);
    board_watch(&WATCH);
    atexit(wave_end); /* a board that is stopped is shown up to there */
}

void wave_end(void)
{
    if (!waves.wave)
        return;
    put_tick();
    waves.tick++; /* the last one has its width by what comes behind it */
    see_firmware(NULL);
    put_tick();
    board_watch(NULL);
    fclose(waves.wave);
    fclose(waves.reports);
    waves.wave = waves.reports = NULL;
}
