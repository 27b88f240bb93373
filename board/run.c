/*
 * Runs a firmware on the workshop's board, and shows what came of it. The firmware's
 * file is compiled as it is; its main is called firmware_main here. FIRMWARE_NAME is the
 * name of its file, without the ending.
 *
 *   board-NAME [STEM]    with the two files of wave.h, STEM.vcd and STEM.reports; at the
 *                        end STEM.memory, and for each core STEM.CORE.ledger
 */
#include <inttypes.h>
#include <stdio.h>
#include <stdlib.h>

#include "beats.h"
#include "progress.h"
#include "tell.h"
#include "wave.h"
#include "workshop.h"

int firmware_main(void);

/* The core, and what it has done; the sum of the ledger where it takes a stream. */
static void show_core(size_t place)
{
    const struct board_core *core = &board_description()->cores[place];
    const struct board_core_state *state = board_core_state(place);

    printf("\n    %s  mode %" PRIu32 "  %s  status", core->name, core->mode,
           reason_name(state->reason));
    show_status(core_read(&state->core, SGDMA_REGISTER_STATUS));
    printf("\n");
    show_fault(core_fault(&state->core));
    if (state->ledger.used == 0 && state->taken == 0)
        return;
    if (core->mode == SGDMA_MODE_STREAM_TO_MEMORY)
        show_beats(state->ledger, &state->core, state->taken);
    else
        show_records(state->ledger);
}

enum { LONGEST_PATH = 4096, SHORT_WORDS = 40, CANNOT_WRITE = 2 };

/* The path of a file of the stem, or of one of a core's. */
static void put_path(char *path, const char *stem, const char *core, const char *ending)
{
    snprintf(path, LONGEST_PATH, "%s%s%s%s", stem, *core ? "." : "", core, ending);
}

static bool write_file(const char *path, const uint8_t *bytes, size_t length)
{
    FILE *file = fopen(path, "wb");

    if (file && fwrite(bytes, 1, length, file) == length && !fclose(file))
        return true;
    perror(path);
    return false;
}

static const char *stem; /* NULL: no files */

/* The memory, and the records used of each ledger, as files; false where one cannot be
   written. */
static bool write_dumps(void)
{
    char path[LONGEST_PATH];
    bool written;

    put_path(path, stem, "", ".memory");
    written = write_file(path, board_core_state(0)->core.memory,
                         board_description()->memory_length);
    for (size_t i = 0; i < board_description()->core_count; i++) {
        struct ledger ledger = board_core_state(i)->ledger;

        put_path(path, stem, board_description()->cores[i].name, ".ledger");
        written &= write_file(path, ledger.bytes, SGDMA_RECORD_SIZE * (size_t)ledger.used);
    }
    return written;
}

/* "1 tick", "2 ticks". */
static const char *counted(char *words, uint32_t count, const char *what, const char *ending)
{
    snprintf(words, SHORT_WORDS, "%" PRIu32 " %s%s", count, what, count == 1 ? "" : ending);
    return words;
}

static void show_board(void)
{
    char accesses[SHORT_WORDS], handlers[SHORT_WORDS], ticks[SHORT_WORDS];

    printf("\nThe board says: %s, %s called, %s\n",
           counted(accesses, board_accesses(), "access", "es"),
           counted(handlers, board_interrupts(), "handler", "s"),
           counted(ticks, board_ticks(), "tick", "s"));
    for (size_t i = 0; i < board_description()->core_count; i++)
        show_core(i);
}

/* A board that was stopped leaves its files too, and shows its cores: firmware that
   never ends is stopped. The files come first, since to show a core can be refused. */
static void at_end(void)
{
    board_unguard();
    if (!board_description())
        return;
    if (stem)
        write_dumps();
    show_board();
}

static void begin_files(void)
{
    char wave[LONGEST_PATH], reports[LONGEST_PATH];

    put_path(wave, stem, "", ".vcd");
    put_path(reports, stem, "", ".reports");
    wave_begin(wave, reports);
}

static bool end_files(void)
{
    wave_end();
    return write_dumps();
}

static void at_step(size_t core, const struct ran *ran)
{
    (void)core;
    (void)ran;
    show_progress(board_ticks(), "ticks");
}

/* Calls the firmware, and tells its number where it is one of an error. */
static int run_firmware(void)
{
    int returned;

    printf("The firmware %s says:\n\n", FIRMWARE_NAME);
    board_guard();
    returned = firmware_main();
    board_unguard();
    end_progress();
    if (returned)
        printf("\nThe firmware ended with %d\n", returned);
    return returned;
}

int main(int count, char **arguments)
{
    static const struct board_watch WATCH = {at_step, NULL};
    int returned;

    board_make(workshop_board());
    board_watch(&WATCH);
    stem = count == 2 ? arguments[1] : NULL;
    if (stem)
        begin_files();
    atexit(at_end); /* and so before the wave is ended, where the board stops */
    returned = run_firmware();
    if (stem && !end_files())
        returned = CANNOT_WRITE;
    show_board();
    board_end();
    return returned;
}
