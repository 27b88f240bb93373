#include "rows.h"

#include <string.h>

#include "check.h"

static bool in_window(uint32_t address)
{
    return address >= ROW_BASE && address < ROW_BASE + ROW_LENGTH;
}

static void put_bytes(uint8_t *memory, uint32_t address, const uint8_t *bytes,
                      size_t count)
{
    for (size_t i = 0; i < count; i++, address++)
        if (in_window(address))
            memory[address - ROW_BASE] = bytes[i];
}

static void prepare(struct core *core, uint8_t *memory, const struct given *given)
{
    memset(memory, 0, ROW_LENGTH);
    core_create(core, given->mode, ROW_BASE, memory, ROW_LENGTH);
    core_build(core, ROW_D, &given->d);
    if (given->mode != SGDMA_MODE_STREAM_TO_MEMORY)
        put_bytes(memory, given->d.source, given->data, sizeof given->data);
    core_write(core, SGDMA_REGISTER_NEXT_DESCRIPTOR_POINTER, given->pointer);
    core_write(core, SGDMA_REGISTER_CONTROL, given->control);
}

static void check_registers(const struct core *core, const struct row *row)
{
    struct fault fault = core_fault(core);

    check("status", core_read(core, SGDMA_REGISTER_STATUS), row->must.status);
    check("control", core_read(core, SGDMA_REGISTER_CONTROL), row->given.control);
    check("pointer", core_read(core, SGDMA_REGISTER_NEXT_DESCRIPTOR_POINTER),
          row->must.pointer);
    check("line", core_line(core), row->must.line);
    check("fault", fault.code, row->must.fault.code);
    check("fault address", fault.address, row->must.fault.address);
}

/* Memory as it was, but for D's last four bytes and what has landed. */
static void check_memory(const struct core *core, const uint8_t *before,
                         const struct row *row)
{
    uint8_t wanted[ROW_LENGTH];

    memcpy(wanted, before, sizeof wanted);
    put_bytes(wanted, ROW_D + SGDMA_DESCRIPTOR_ACTUAL_BYTES_TRANSFERRED_AT,
              row->must.last_four, sizeof row->must.last_four);
    put_bytes(wanted, row->given.d.destination, row->must.landed,
              sizeof row->must.landed);
    check_bytes("memory", core->memory, wanted, sizeof wanted);
}

static void check_report(struct ran ran, struct ran wanted)
{
    check("reason", ran.reason, wanted.reason);
    check("steps", ran.steps, wanted.steps);
    check("beats taken", ran.taken, wanted.taken);
    check("beats made", ran.made, wanted.made);
    check("records used", ran.used, wanted.used);
}

static void check_made(struct stream out, const struct must *must)
{
    for (size_t i = 0; i < out.beats; i++)
        check("output beat", beat_at(out, i),
              i < must->ran.made ? must->made[i] : UNMADE << 8 | UNMADE);
}

/* The records used, and past them the bytes as they were. */
static void check_ledger(const uint8_t *records, const struct must *must)
{
    uint8_t wanted[sizeof must->records];

    memset(wanted, UNMADE, sizeof wanted);
    memcpy(wanted, must->records, SGDMA_RECORD_SIZE * must->ran.used);
    check_bytes("ledger", records, wanted, sizeof wanted);
}

void set_up(struct setup *setup, const struct given *given)
{
    prepare(&setup->core, setup->memory, given);
    setup->in = (struct stream){setup->beats, given->beat_count};
    for (size_t i = 0; i < given->beat_count; i++)
        put_beat(setup->in, i, given->beats[i]);
    memset(setup->made, UNMADE, sizeof setup->made);
    setup->out = (struct stream){setup->made, given->room};
    memset(setup->records, UNMADE, sizeof setup->records);
    setup->ledger = (struct ledger){setup->records, ROW_RECORDS, 0};
}

struct ran run_on(struct setup *setup, uint32_t budget)
{
    struct ran ran = core_run(&setup->core, setup->in, setup->out, setup->ledger,
                              budget);

    setup->in = stream_from(setup->in, ran.taken);
    setup->out = stream_from(setup->out, ran.made);
    setup->ledger.used = ran.used;
    return ran;
}

/* Lends a record where the run stops for one, and so once for each that it uses. */
static struct ran run_record_by_record(struct setup *setup, uint32_t budget)
{
    struct ran ran, all = {0};

    setup->ledger.room = 0;
    for (;;) {
        ran = run_on(setup, budget - all.steps);
        all.steps += ran.steps;
        all.taken += ran.taken;
        all.made += ran.made;
        if (ran.reason != SGDMA_REASON_LEDGER_FULL || setup->ledger.room == ROW_RECORDS)
            break;
        setup->ledger.room++;
    }
    check("stops for want of room", setup->ledger.room, ran.used);
    all.reason = ran.reason;
    all.used = ran.used;
    return all;
}

static void check_run(const struct row *row,
                      struct ran (*run)(struct setup *, uint32_t budget))
{
    uint8_t before[ROW_LENGTH];
    struct setup setup;

    set_up(&setup, &row->given);
    memcpy(before, setup.memory, sizeof before);
    check_report(run(&setup, row->given.budget), row->must.ran);
    check_registers(&setup.core, row);
    check_memory(&setup.core, before, row);
    check_made((struct stream){setup.made, row->given.room}, &row->must);
    check_ledger(setup.records, &row->must);
}

void check_row(const struct row *row)
{
    check_case(row->name);
    check_run(row, run_on);
    check_run(row, run_record_by_record);
}

void run_one(struct core *core, uint8_t memory[ROW_LENGTH], struct one one)
{
    static const struct stream none = {NULL, 0};
    struct given given = {
        .mode = SGDMA_MODE_STREAM_TO_MEMORY,
        .d = {0, ROW_D + 64, ROW_D + 32, 1, 0, 0, (uint8_t)one.desc_control},
        .pointer = ROW_D,
        .control = one.control,
    };
    uint8_t beat[SGDMA_BEAT_SIZE], record[SGDMA_RECORD_SIZE];
    struct stream in = {beat, 1};
    struct ledger ledger = {record, 1, 0};

    prepare(core, memory, &given);
    put_beat(in, 0, one.beat);
    core_run(core, in, none, ledger, one.budget);
}
