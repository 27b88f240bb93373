/*
 * A board in user space, on which firmware runs as it is: memory at its own bus
 * addresses, cores, a timer and an interrupt controller, each of which is the model.
 *
 * A program has one board, as it has one bus: the firmware's access macros name an
 * address and no board. The memory is mapped in the process at the address that it has
 * on the bus, below 4 GiB, so that a pointer of the firmware cast to 32 bits is the bus
 * address; the registers are mapped nowhere, and are reached by the macros alone.
 *
 * What is refused, by the model or by the board itself, is an error of the firmware or
 * of the description. It is told on standard error, with the refusal's name, the
 * register and the firmware's file and line, and the program ends with BOARD_STOPPED.
 * So does a plain load or store where nothing is mapped; there the line is that of the
 * last access before it, and it is told that the firmware is behind it.
 */
#ifndef BOARD_H
#define BOARD_H

#include "controller.h"
#include "core.h"
#include "timer.h"

enum { BOARD_CORES_MAX = 8, BOARD_STOPPED = 3 };

/* The beats that a core is given: all at once, or one every so many ticks. */
struct board_source {
    const uint8_t *beats;
    size_t count;
    uint32_t ticks_a_beat; /* 0: all at once */
};

struct board_core {
    const char *name;
    uint32_t registers; /* the bus address of the first */
    uint32_t mode;
    uint32_t port;      /* of the controller, to which its line goes */
    size_t records;     /* the room of its ledger */
    size_t sink;        /* the beats that there is room for where it makes some */
    struct board_source source;
};

struct board_timer {
    const char *name;
    uint32_t registers;
    uint32_t port;
    uint32_t period;
};

struct board_controller {
    const char *name;
    uint32_t registers;
    uint32_t id; /* by which firmware names it when it registers a handler */
    uint32_t ports;
    uint32_t vector_bytes;
    uint32_t vector_base;
};

/*
 * How much time passes. Every step of the cores is a tick of the timer, and a core
 * that takes no step lets the tick pass.
 *
 * `ticks_an_access` pass before each access of the firmware is answered: they stand for
 * the time from one access to the next, which no model knows. A host that grants no
 * step sees BUSY too late or too early. With 0 here, status that is read behind the
 * write of RUN still has BUSY 0, and firmware that waits for BUSY to fall believes a
 * chain done that has not begun; and a BUSY that is up never falls, however often it is
 * read. 1 is the least with which BUSY is up "on the next clock cycle", as the handbook
 * has it. With a large number a chain is done between two accesses, and firmware is not
 * tried on what it meets half done.
 *
 * `ticks_a_microsecond` pass for each microsecond that the firmware waits. At
 * `most_ticks` the board stops, so that firmware that waits in vain comes to an end.
 */
struct board_time {
    uint32_t ticks_an_access;
    uint32_t ticks_a_microsecond;
    uint32_t most_ticks;
};

/*
 * The description. It is kept by its maker as long as the board is used. No two devices
 * take the same address of the bus, nor two lines the same port; registers begin at a
 * multiple of 4.
 */
struct board {
    uint32_t memory; /* its bus address, a multiple of the page size */
    size_t memory_length;
    const struct board_core *cores;
    size_t core_count;
    struct board_timer timer;
    struct board_controller controller;
    struct board_time time;
};

/* Makes the board, with zeros in its memory, in place of one that was made before. */
void board_make(const struct board *board);

/* Takes the board and its memory away. */
void board_end(void);

/*
 * Looks after the firmware that is called between these two. Firmware that loops over
 * memory alone lets no tick pass, so that nothing it waits for comes: when it has used
 * ten seconds of the processor without a tick, the board stops. It also stops at SIGINT
 * and SIGTERM, where the program was not started to ignore them; once it stops, or nobody
 * is looked after any longer, they do nothing. These seconds decide no tick: a run that
 * comes to its end is the same each time.
 *
 * A program that a debugger holds uses no time of the processor. Firmware that computes
 * for longer between two accesses is run with another number in the environment, as
 * BOARD_SECONDS=60; with BOARD_SECONDS=0 it is given all the time that it takes.
 */
void board_guard(void);
void board_unguard(void);

/*
 * All state of the board, as bytes: the images, the timer, the controller, the memory,
 * the ledgers, the beats made and how far each source is. Numbers have the most
 * significant byte first. The firmware's variables are no part of it, nor are the
 * handlers that it has registered. A board of the same description takes the bytes
 * back, board_size() of them, and goes on from there.
 */
size_t board_size(void);
void board_save(uint8_t *bytes);
void board_restore(const uint8_t *bytes, size_t length);

/* A core as it stands. */
struct board_core_state {
    struct core core;
    struct ledger ledger;
    struct stream sink;
    uint32_t taken;  /* beats of the source */
    uint32_t made;   /* beats in the sink */
    uint32_t reason; /* why its last step was the last, or was not taken */
};

const struct board *board_description(void);
const struct board_core_state *board_core_state(size_t place);
uint32_t board_ticks(void);
uint32_t board_accesses(void);
uint32_t board_interrupts(void); /* the calls of a handler */

/* An access of the firmware, as it was answered, or a wait. */
struct board_access {
    enum { BOARD_READ, BOARD_WRITE, BOARD_WAIT } does;
    uint32_t address;
    uint32_t value;
    const char *file;
    int line;
    const char *device; /* at that address, and its register there; NULL for a wait */
    const char *reg;
};

/*
 * Who looks on. `step` is called behind each tick, once for each core, with what the
 * model reported of it; `access` behind each read and write, where it is not NULL.
 */
struct board_watch {
    void (*step)(size_t core, const struct ran *ran);
    void (*access)(const struct board_access *access);
};

/* NULL: nobody looks on, as at first. */
void board_watch(const struct board_watch *watch);

#endif
