#define _DEFAULT_SOURCE /* for MAP_ANONYMOUS, setenv and kill */

#include "stops.h"

#include <signal.h>
#include <stdio.h>
#include <stdlib.h>
#include <string.h>
#include <sys/mman.h>
#include <unistd.h>

#include "check.h"
#include "small.h"

#include "priv/alt_busy_sleep.h"

static void no_device(void) { IORD(READER + 0x80000, 0); }
static void misaligned(void) { IORD_32DIRECT(READER, 2); }
static void no_register(void) { IOWR(READER, 1, 0); }
static void no_timer_register(void) { IORD(TIMER, 7); }
static void no_vic_register(void) { IORD(VIC, 44); }
static void read_only(void) { IOWR(VIC, ALTERA_VIC_INT_PENDING_REG, 1); }

static void no_board(void)
{
    board_end();
    IORD(READER, 0);
}

static void spoiled(void)
{
    uint8_t saved[2 * LENGTH];

    board_save(saved);
    memset(saved + LENGTH, 0xFF, SGDMA_IMAGE_SIZE); /* behind the memory: the sender's */
    board_restore(saved, board_size());
    IORD_ALTERA_AVALON_SGDMA_STATUS(SENDER);
}

/* Where a saved board has its first number: how much of the sender's ledger is used. */
enum { USED_AT = LENGTH + SGDMA_IMAGE_SIZE + RECORDS * SGDMA_RECORD_SIZE + BEATS * SGDMA_BEAT_SIZE };

static void too_far(void)
{
    uint8_t saved[2 * LENGTH];

    IORD_ALTERA_AVALON_SGDMA_STATUS(SENDER);
    board_save(saved);
    saved[USED_AT + 3] = RECORDS + 1;
    board_restore(saved, board_size());
}

static void other_length(void)
{
    uint8_t saved[2 * LENGTH];

    IORD_ALTERA_AVALON_SGDMA_STATUS(SENDER);
    board_save(saved);
    board_restore(saved, board_size() + 1);
}

/* A register is reached by the macros alone. */
static void not_mapped(void)
{
    IORD_ALTERA_AVALON_SGDMA_STATUS(READER);
    *(volatile uint32_t *)(uintptr_t)READER = 0;
}

static void full_ledger(void)
{
    alt_sgdma_descriptor *d = SMALL->sending;

    d->bytes_to_transfer = 1;
    d->next = (uint32_t)(uintptr_t)d; /* again and again, under PARK */
    small_start(SENDER, d, SGDMA_CONTROL_PARK);
    alt_busy_sleep(100);
}

static void time_up(void)
{
    while (!IORD_ALTERA_AVALON_SGDMA_STATUS(READER))
        ;
}

static void raise_port(uint32_t port)
{
    IOWR_ALTERA_VIC_INT_CONFIG(VIC, port, 1);
    IOWR_ALTERA_VIC_INT_ENABLE(VIC, 1u << port);
    IOWR_ALTERA_VIC_SW_INTERRUPT(VIC, 1u << port);
}

static void no_handler(void) { raise_port(READER_PORT); }

static void do_nothing(void *context) { (void)context; }

static void vector_too_far(void)
{
    IOWR_ALTERA_VIC_VEC_TBL_BASE(VIC, 0xFFFFFFFC);
    raise_port(READER_PORT);
}

static void line_stays(void)
{
    alt_ic_isr_register(VIC_ID, READER_PORT, do_nothing, NULL, NULL);
    raise_port(READER_PORT);
}

/* Firmware that waits where no tick passes, in each way. It is given a second. */
static void guard_shortly(void)
{
    setenv("BOARD_SECONDS", "1", 1);
    IORD_ALTERA_AVALON_SGDMA_STATUS(READER);
    board_guard();
}

static bool is_owned(void)
{
    return *(volatile alt_u8 *)&SMALL->reading->control & SGDMA_DESC_OWNED_BY_HW;
}

static void silent(void)
{
    guard_shortly();
    while (is_owned())
        ;
}

static void silent_printing(void)
{
    guard_shortly();
    while (is_owned())
        printf("waiting\n");
}

static void silent_waiting(void)
{
    guard_shortly();
    while (is_owned())
        alt_busy_sleep(0);
}

static void wait_in_handler(void *context)
{
    (void)context;
    while (is_owned())
        ;
}

static void silent_handler(void)
{
    guard_shortly();
    alt_ic_isr_register(VIC_ID, READER_PORT, wait_in_handler, NULL, NULL);
    raise_port(READER_PORT);
}

/* The program is told to end; and not by what it was told to ignore. */
static void interrupted(void)
{
    signal(SIGINT, SIG_DFL);
    IORD_ALTERA_AVALON_SGDMA_STATUS(READER);
    board_guard();
    kill(getpid(), SIGINT);
    wait_in_handler(NULL);
}

static void ignoring(void)
{
    signal(SIGINT, SIG_IGN);
    guard_shortly();
    kill(getpid(), SIGINT);
    wait_in_handler(NULL);
}

/* The board made anew, with one change of its description. */
#define MAKE_WITH(change)            \
    do {                             \
        static struct board other;   \
                                     \
        other = small_description(); \
        other.change;                \
        board_make(&other);          \
    } while (0)

static void no_cores(void) { MAKE_WITH(core_count = 0); }
static void many_cores(void) { MAKE_WITH(core_count = BOARD_CORES_MAX + 1); }
static void same_place(void) { MAKE_WITH(timer.registers = READER + 4); }
static void odd_place(void) { MAKE_WITH(timer.registers = TIMER + 2); }
static void same_port(void) { MAKE_WITH(timer.port = SENDER_PORT); }
static void no_port(void) { MAKE_WITH(timer.port = PORTS); }
static void odd_memory(void) { MAKE_WITH(memory = MEMORY + 4); }
static void long_memory(void) { MAKE_WITH(memory_length = 2 * SGDMA_WINDOW_LENGTH_MAX); }

/* Something else of the process is where the memory is to be. */
static void place_taken(void)
{
    board_end();
    mmap((void *)(uintptr_t)MEMORY, LENGTH, PROT_READ, MAP_PRIVATE | MAP_ANONYMOUS | MAP_FIXED,
         -1, 0);
    small_make(1);
}

static void tell_to_end(size_t core, const struct ran *ran)
{
    (void)ran;
    if (core == 0 && board_ticks() == 10)
        kill(getpid(), SIGTERM);
}

/* In the midst of a wait, which is so long that the board's own end would come much later. */
static void terminated(void)
{
    static const struct board_watch WATCH = {tell_to_end, NULL};

    signal(SIGTERM, SIG_DFL);
    MAKE_WITH(time.most_ticks = 50000000);
    board_watch(&WATCH);
    board_guard();
    alt_busy_sleep(UINT32_MAX);
}

#define BEFORE "before the first access of the firmware"

static const struct {
    const char *name;
    void (*make)(void);
    const char *told;  /* the refusal */
    const char *place; /* and the place */
} MISUSES[] = {
    {"no-device", no_device, "BOARD_NO_DEVICE", "read at 0x34080100: no device"},
    {"misaligned", misaligned, "BOARD_MISALIGNED", "read at 0x34000102: reader status"},
    {"no-register", no_register, "SGDMA_NO_REGISTER", "write at 0x34000104: reader (no register of it)"},
    {"no-timer-register", no_timer_register, "SGDMA_NO_TIMER_REGISTER", "read at 0x3400021C: timer (no register of it)"},
    {"no-vic-register", no_vic_register, "BOARD_NO_VIC_REGISTER", "read at 0x340010B0: vic (no register of it)"},
    {"read-only", read_only, "BOARD_READ_ONLY", "write at 0x3400108C: vic INT_PENDING"},
    {"no-board", no_board, "BOARD_NOT_MADE", "read at 0x34000100: no device"},
    {"spoiled", spoiled, "SGDMA_BAD_IMAGE: sgdma_run refused it with 8, field 1", "sender status"},
    {"too-far", too_far, "BOARD_NOT_SAVED", "sender status"},
    {"other-length", other_length, "BOARD_NOT_SAVED", "sender status"},
    {"not-mapped", not_mapped, "where no memory is, at 0x34000100", "reader status"},
    {"full-ledger", full_ledger, "BOARD_LEDGER_FULL", ": wait"},
    {"time-up", time_up, "BOARD_TIME_UP", "reader status"},
    {"silent", silent, "BOARD_SILENT: no tick within 1 s", "reader status"},
    {"silent-printing", silent_printing, "BOARD_SILENT", "reader status"},
    {"silent-waiting", silent_waiting, "BOARD_SILENT", ": wait"},
    {"silent-handler", silent_handler, "BOARD_SILENT", "vic SW_INTERRUPT"},
    {"interrupted", interrupted, "BOARD_INTERRUPTED: the program was told to end, by SIGINT", "reader status"},
    {"ignoring", ignoring, "BOARD_SILENT", "reader status"},
    {"terminated", terminated, "told to end, by SIGTERM", ": wait"},
    {"no-handler", no_handler, "BOARD_NO_HANDLER", "vic SW_INTERRUPT"},
    {"line-stays", line_stays, "BOARD_LINE_STAYS", "vic SW_INTERRUPT"},
    {"vector-too-far", vector_too_far, "SGDMA_ADDRESS_TOO_LARGE: sgdma_vic_choose", "vic SW_INTERRUPT"},
    {"place-taken", place_taken, "BOARD_NO_MEMORY", BEFORE},
    {"odd-memory", odd_memory, "BOARD_NO_MEMORY", BEFORE},
    {"long-memory", long_memory, "SGDMA_BAD_WINDOW: sgdma_create refused it with 3", BEFORE},
    {"no-cores", no_cores, "BOARD_BAD_CORES", BEFORE},
    {"many-cores", many_cores, "BOARD_BAD_CORES", BEFORE},
    {"same-place", same_place, "BOARD_BAD_PLACE", BEFORE},
    {"odd-place", odd_place, "BOARD_BAD_PLACE", BEFORE},
    {"same-port", same_port, "BOARD_BAD_PORT", BEFORE},
    {"no-port", no_port, "BOARD_BAD_PORT", BEFORE},
};

int misuse(const char *name)
{
    for (size_t i = 0; i < COUNT(MISUSES); i++)
        if (!strcmp(name, "list")) {
            printf("%s|%s|%s\n", MISUSES[i].name, MISUSES[i].told, MISUSES[i].place);
        } else if (!strcmp(name, MISUSES[i].name)) {
            small_make(1);
            MISUSES[i].make();
        }
    return strcmp(name, "list") != 0;
}
