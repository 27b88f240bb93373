/*
 * What the files of the board share, and nobody else uses: its state, and how the bus,
 * the interrupts and the end of the program reach it.
 */
#ifndef PARTS_H
#define PARTS_H

#include "board.h"

struct board_state {
    const struct board *description; /* NULL: there is no board */
    uint8_t *memory;
    struct board_core_state cores[BOARD_CORES_MAX];
    struct timer timer;
    struct controller controller;
    uint32_t ticks;
    uint32_t accesses;
    uint32_t interrupts;
    struct board_access access; /* the one that is being answered, or was last */
    const struct board_watch *watch;
};

extern struct board_state board_state;

/* The bytes of the bus that a device takes: as many registers as its numbers can name. */
enum {
    BOARD_WORD = 4,
    BOARD_CORE_SPAN = 16 * BOARD_WORD,
    BOARD_TIMER_SPAN = 8 * BOARD_WORD,
    BOARD_VIC_SPAN = 64 * BOARD_WORD
};

/* Refusals of the board itself. */
#define BOARD_NO_DEVICE    "BOARD_NO_DEVICE: nothing is at this address of the bus"
#define BOARD_MISALIGNED   "BOARD_MISALIGNED: the address is not a multiple of 4"
#define BOARD_NO_VIC_REGISTER "BOARD_NO_VIC_REGISTER: the controller has no such register"
#define BOARD_READ_ONLY    "BOARD_READ_ONLY: the register cannot be written"
#define BOARD_NO_HANDLER   "BOARD_NO_HANDLER: the chosen port has no handler"
#define BOARD_LINE_STAYS   "BOARD_LINE_STAYS: the handler does not take the line down"
#define BOARD_LEDGER_FULL  "BOARD_LEDGER_FULL: a core waits for room in its ledger"
#define BOARD_TIME_UP      "BOARD_TIME_UP: most_ticks of the description (board/workshop.c) have passed"
#define BOARD_SILENT       "BOARD_SILENT: no tick within %lu s of processor time: a loop over " \
                           "memory alone is granted none; wait by alt_busy_sleep"
#define BOARD_INTERRUPTED  "BOARD_INTERRUPTED: the program was told to end, by %s"
#define BOARD_NO_MEMORY    "BOARD_NO_MEMORY: the memory cannot be mapped at its bus address"
#define BOARD_BAD_CORES    "BOARD_BAD_CORES: there are no cores, or more than BOARD_CORES_MAX"
#define BOARD_BAD_PLACE    "BOARD_BAD_PLACE: registers not at a multiple of 4, or in another's place"
#define BOARD_BAD_PORT     "BOARD_BAD_PORT: two lines at one port, or at one that is not there"
#define BOARD_NOT_MADE     "BOARD_NOT_MADE: there is no board"
#define BOARD_NOT_SAVED    "BOARD_NOT_SAVED: the bytes are not the state of such a board"
#define BOARD_NOT_MAPPED   "BOARD_NOT_MAPPED: a load or store, without the macros, where no memory is"

/* Tells the refusal and where the firmware is, and ends the program. The second is for
   firmware that is not in an access: it has gone on behind its last. */
void board_stop(const char *refusal);
void board_stop_behind(const char *refusal);

/* The same of a call of the model. */
void board_stop_call(const char *call, uint32_t number);

/* Stops the program at a load or store where nothing is mapped; or no longer does. */
void board_catch_faults(void);
void board_let_faults(void);

/* What the firmware calls of the board stands between these two, in which nobody else
   stops the board; a handler of the firmware, which is called there, is outside. */
void board_enter(void);
void board_leave(void);

/* Stops the board where a signal has asked for it. */
void board_heed(void);

/* Looks at a description, and stops where no board can be made of it. */
void board_look_at(const struct board *board);

/* Lets ticks pass, for all cores and the timer. */
void board_pass(uint32_t ticks);

/* Brings the lines to the controller, and calls handlers until it chooses no port. */
void board_serve(void);

/* Takes away the handlers that the firmware has registered. */
void board_forget_handlers(void);

/* The registers of the controller, by their numbers. */
uint32_t board_vic_read(uint32_t number);
void board_vic_write(uint32_t number, uint32_t value);
const char *board_vic_name(uint32_t number); /* NULL where there is none */

/* The bits of INT_ENABLE. */
uint32_t board_vic_enabled(void);

#endif
