/*
 * A proved software model of the Altera SG-DMA controller core: the C calls.
 *
 * The core is that of Altera's Embedded Peripherals handbook, chapter 23,
 * Scatter-Gather DMA Controller Core, with a data width of 8 bits and a sink
 * error width of 7, without bursts, FIFOs and bus timing. Link libsgdma.a, or as
 * pkg-config tells.
 *
 *   sgdma_create              a fresh core, for one mode and one window of memory
 *   sgdma_build_descriptor    a chain of descriptors in that memory
 *   sgdma_check_chain         whether the chain has an end, or where it is wrong
 *   sgdma_write_register      the pointer to the chain, then control with RUN
 *   sgdma_run                 so many steps over memory, streams and ledger
 *   sgdma_line                whether the interrupt line is up
 *   sgdma_read_register       what has happened
 *   sgdma_read_descriptor     what was done with each descriptor
 *   sgdma_find_record         what the ledger tells of a descriptor in one run
 *   sgdma_mend_chain          the good front part of a chain, in a dump of the memory
 *   sgdma_move_image          a core kept in an image of another edition
 *
 * Several cores can share an interrupt controller (chapter 29, Vectored
 * Interrupt Controller Core):
 *
 *   sgdma_vic_create          a controller with 1 to 32 ports
 *   sgdma_vic_configure       level, register set and flag of a port
 *   sgdma_vic_enable          which ports are listened to
 *   sgdma_vic_line            the line of a core, brought to its port
 *   sgdma_vic_trigger         an interrupt by software
 *   sgdma_vic_choose          which port is to be served, and by which handler
 *
 * Beside them stands an interval timer (chapter 26, Interval Timer Core, in its
 * 32-bit form), with which firmware times what the cores do:
 *
 *   sgdma_timer_create        a timer, stopped, with its period
 *   sgdma_timer_write         its registers: start and stop, period, snapshot
 *   sgdma_timer_run           so many ticks
 *   sgdma_timer_line          whether its interrupt line is up
 *   sgdma_timer_read          what its registers hold
 *   sgdma_timer_elapsed       the ticks between two snapshots
 *
 * The library keeps nothing between calls. All there is of a core is its image,
 * 85 bytes that belong to the caller. A copy of the image, with a copy of the
 * window, is the saved core; lent to the next call, it goes on from there. A
 * controller is 88 bytes in the same way, and a timer is 14.
 *
 * For every call
 *
 *   Bytes are lent for the time of the call, as a pointer and a length. Four
 *   things no call can see, and the caller answers for them:
 *     - the length is the true one: so many bytes can be read there and, where
 *       the pointer is not const, written;
 *     - NULL is lent with length 0 only;
 *     - the slices lent to one call do not overlap;
 *     - until the call returns, nobody else touches the lent bytes: no other
 *       call, no thread, no interrupt handler, no device.
 *   All else is looked at. Whatever the numbers and the lent bytes are, the
 *   call returns, and this file says what it answers.
 *
 *   Calls on different bytes may run at once, since the library keeps nothing
 *   between calls: two cores with an image, a window, streams and a ledger each
 *   may be run by two threads, or one of them by an interrupt handler.
 *
 *   A call returns SGDMA_DONE, or the number of its refusal: the first that
 *   applies in the order in which the call lists them. SGDMA_BAD_IMAGE comes
 *   with the field of the image that is wrong: see "What a call returns". A
 *   refused call has changed no lent byte.
 *
 *   Numbers in lent bytes have the most significant byte first, in the image,
 *   the report, the value, the descriptor answer, the beats, the records of the
 *   ledger and what it tells, what a check and a mend tell, the controller and its
 *   answer, and the timer.
 *   Descriptors in the window are little-endian, as the core has them.
 */
#ifndef SGDMA_H
#define SGDMA_H

#include <stddef.h>
#include <stdint.h>

#ifdef __cplusplus
extern "C" {
#endif

/*
 * Sizes of lent slices, in bytes. A slice must have exactly its size: a larger
 * one is refused too.
 */
#define SGDMA_IMAGE_SIZE              85
#define SGDMA_IMAGE_SIZE_FIRST        44 /* edition 1, of sgdma_move_image alone */
#define SGDMA_VALUE_SIZE              4
#define SGDMA_REPORT_SIZE             18
#define SGDMA_DESCRIPTOR_ANSWER_SIZE  18
#define SGDMA_FINDING_SIZE            4
#define SGDMA_CHECK_SIZE              10
#define SGDMA_MEND_SIZE               8
#define SGDMA_VIC_SIZE                88
#define SGDMA_VIC_ANSWER_SIZE         12
#define SGDMA_TIMER_SIZE              14

/*
 * The window
 *
 * The one piece of memory that a core sees: a lent slice, whose first byte
 * stands at the bus address `base`. Its length is 0 to 65,536, base is at most
 * 4,294,967,295, and base + length at most 4,294,967,296. Sums of addresses
 * are whole numbers and never wrap, so what runs past the end is outside.
 */
#define SGDMA_WINDOW_LENGTH_MAX       65536

/* Bit n of a register, of desc_control or of a beat. */
#define SGDMA_BIT(n)                  (UINT32_C(1) << (n))

/* Modes: from where to where the core moves bytes. */
#define SGDMA_MODE_MEMORY_TO_MEMORY   UINT32_C(0)
#define SGDMA_MODE_MEMORY_TO_STREAM   UINT32_C(1)
#define SGDMA_MODE_STREAM_TO_MEMORY   UINT32_C(2)

/*
 * Beats, two bytes each. Every 16-bit number is a valid input beat.
 *
 *   input beat     error, bits 15 to 9               EOP 8    data 7 to 0
 *   output beat    zero, bits 15 to 10     SOP 9     EOP 8    data 7 to 0
 */
#define SGDMA_BEAT_SIZE               2
#define SGDMA_INPUT_ERROR_SHIFT       9
#define SGDMA_INPUT_ERROR_MASK        UINT32_C(0xFE00)
#define SGDMA_INPUT_EOP               SGDMA_BIT(8)
#define SGDMA_INPUT_DATA_MASK         UINT32_C(0x00FF)
#define SGDMA_OUTPUT_SOP              SGDMA_BIT(9)
#define SGDMA_OUTPUT_EOP              SGDMA_BIT(8)
#define SGDMA_OUTPUT_DATA_MASK        UINT32_C(0x00FF)

/*
 * Registers: the offsets, which count words of 32 bits (table 23-6). On a bus that
 * counts bytes, control is 16 bytes from the core's base. All three registers are 0
 * in a fresh core.
 */
#define SGDMA_REGISTER_STATUS                   UINT32_C(0)
#define SGDMA_REGISTER_CONTROL                  UINT32_C(4)
#define SGDMA_REGISTER_NEXT_DESCRIPTOR_POINTER  UINT32_C(8)

/*
 * status (table 23-8). Reading changes nothing. Writing 1 clears bits 0 to 3;
 * no other written bit does anything. Bits 5 to 31 read 0.
 */
#define SGDMA_STATUS_ERROR                 SGDMA_BIT(0) /* a descriptor had errors */
#define SGDMA_STATUS_EOP_ENCOUNTERED       SGDMA_BIT(1) /* a descriptor ended with EOP */
#define SGDMA_STATUS_DESCRIPTOR_COMPLETED  SGDMA_BIT(2) /* a descriptor was written back */
#define SGDMA_STATUS_CHAIN_COMPLETED       SGDMA_BIT(3) /* a descriptor not owned was met */
#define SGDMA_STATUS_BUSY                  SGDMA_BIT(4) /* read only */

/*
 * control (table 23-7). A write stores bits 0 to 17 as they are given, so one
 * that changes one bit repeats the others. Bits 18 to 30 read 0.
 */
#define SGDMA_CONTROL_IE_ERROR         SGDMA_BIT(0)  /* interrupt on ERROR */
#define SGDMA_CONTROL_IE_EOP           SGDMA_BIT(1)  /* interrupt on EOP_ENCOUNTERED */
#define SGDMA_CONTROL_IE_DESCRIPTOR    SGDMA_BIT(2)  /* interrupt on DESCRIPTOR_COMPLETED */
#define SGDMA_CONTROL_IE_CHAIN         SGDMA_BIT(3)  /* interrupt on CHAIN_COMPLETED */
#define SGDMA_CONTROL_IE_GLOBAL        SGDMA_BIT(4)  /* let interrupts raise the line */
#define SGDMA_CONTROL_RUN              SGDMA_BIT(5)  /* process descriptors */
#define SGDMA_CONTROL_STOP_DMA_ER      SGDMA_BIT(6)  /* halt after a descriptor with errors */
#define SGDMA_CONTROL_IE_MAX           SGDMA_BIT(7)  /* interrupt after MAX_DESC_PROCESSED */
#define SGDMA_CONTROL_MAX_DESC_PROCESSED_SHIFT  8
#define SGDMA_CONTROL_MAX_DESC_PROCESSED_MASK   UINT32_C(0xFF00) /* 0: do not count */
#define SGDMA_CONTROL_SW_RESET         SGDMA_BIT(16) /* written as 1 while it reads 1: reset */
#define SGDMA_CONTROL_PARK             SGDMA_BIT(17) /* leave OWNED_BY_HW set */
#define SGDMA_CONTROL_CLEAR_INTERRUPT  SGDMA_BIT(31) /* clear what is pending; reads 0 */

/*
 * A descriptor: 32 bytes in the window, little-endian, at an address that is a
 * multiple of 4 (tables 23-9 and 23-10). The bytes not named are reserved.
 */
#define SGDMA_DESCRIPTOR_SIZE                         32
#define SGDMA_DESCRIPTOR_SOURCE_AT                    0  /* 32 bits */
#define SGDMA_DESCRIPTOR_DESTINATION_AT               8  /* 32 bits */
#define SGDMA_DESCRIPTOR_NEXT_DESC_PTR_AT             16 /* 32 bits */
#define SGDMA_DESCRIPTOR_BYTES_TO_TRANSFER_AT         24 /* 16 bits; mode 2: 0 means 65,535 */
#define SGDMA_DESCRIPTOR_ACTUAL_BYTES_TRANSFERRED_AT  28 /* 16 bits */
#define SGDMA_DESCRIPTOR_DESC_STATUS_AT               30 /* 8 bits: errors of its beats */
#define SGDMA_DESCRIPTOR_DESC_CONTROL_AT              31 /* 8 bits */

/*
 * desc_control (table 23-11). Bits 3 to 6 have no effect and are kept as given.
 */
#define SGDMA_DESC_GENERATE_EOP         SGDMA_BIT(0) /* mode 1: EOP on the last beat */
#define SGDMA_DESC_READ_FIXED_ADDRESS   SGDMA_BIT(1) /* every byte is read at source */
#define SGDMA_DESC_WRITE_FIXED_ADDRESS  SGDMA_BIT(2) /* every byte is written at destination */
                                                     /* mode 1: SOP on the first beat */
#define SGDMA_DESC_OWNED_BY_HW          SGDMA_BIT(7) /* the core's until it is written back */

/*
 * Steps
 *
 * A core is in one of seven phases. A step does what its phase says, asking in
 * the order given; the numbers are the faults below.
 *
 *   Rest       RUN 0: no step. RUN 1: BUSY becomes 1, go to Fetch.
 *   Fetch      RUN 0: BUSY becomes 0, go to Rest. Else the descriptor at the
 *              pointer is taken from the slot or, where that is empty, read from
 *              memory: 10, 11. Not owned: CHAIN_COMPLETED is set, go to Ended;
 *              BUSY and the pointer stay. Owned: 12; its fields are kept, the
 *              pointer becomes next_desc_ptr, the descriptor there is read ahead
 *              into the slot, go to Move.
 *   Move       One byte goes
 *                mode 0  from memory (13) to memory (14),
 *                mode 1  from memory (13) to a beat; no room, no step,
 *                mode 2  from a beat to memory (14); no beat, no step.
 *              Errors of the beats are gathered; a byte with an error is moved
 *              and counted. When bytes_to_transfer bytes are moved, or a beat
 *              taken had EOP: go to WriteBack. RUN is not looked at.
 *   WriteBack  No room in the ledger: no step, whatever RUN is. Else a record is
 *              appended to it, and the last four bytes of the descriptor are
 *              written: the number of bytes moved, the errors, and desc_control
 *              as it was read, with OWNED_BY_HW cleared unless PARK is 1.
 *              DESCRIPTOR_COMPLETED is set; EOP_ENCOUNTERED if the last beat
 *              had EOP; ERROR if there were errors. The descriptor is counted;
 *              a count that reaches MAX_DESC_PROCESSED begins again at 0, and
 *              where that is 0 it stays 0. Then RUN 0: BUSY becomes 0, go to
 *              Rest; errors under STOP_DMA_ER: BUSY becomes 0, go to Halted;
 *              else go to Fetch.
 *   Ended      No step, until control is written with RUN 0.
 *   Halted     No step, until control is written with RUN 0.
 *   Faulted    No step, until a reset.
 *
 * A fault takes the place of the step, and counts as one: BUSY becomes 0, the
 * descriptor in hand is dropped and not written back, what was read ahead is
 * dropped too, nothing is written, no beat is taken or made, and the core goes to
 * Faulted. The image tells code and address.
 */
#define SGDMA_FAULT_MISALIGNED           10 /* Fetch: the pointer is not a multiple of 4 */
#define SGDMA_FAULT_DESCRIPTOR_OUTSIDE   11 /* Fetch: its 32 bytes are not in the window */
#define SGDMA_FAULT_NO_LENGTH            12 /* Fetch, modes 0 and 1: bytes_to_transfer is 0 */
#define SGDMA_FAULT_SOURCE_OUTSIDE       13 /* Move: the byte to read is not in the window */
#define SGDMA_FAULT_DESTINATION_OUTSIDE  14 /* Move: the byte to write is not in the window */

/*
 * What is read ahead
 *
 * The core has one descriptor always read in advance. The Fetch of an owned
 * descriptor also reads the next one, all its 32 bytes as they are in memory then,
 * into a slot, and the next Fetch takes it from there and does not look at memory.
 * A next_desc_ptr that is not a multiple of 4, or not in the window, is kept in the
 * slot as well: the fault is met at its own Fetch, and not at all where the core
 * does not come to it.
 *
 * So a descriptor that is rewritten while it is in the slot runs as it was, and is
 * written back with the desc_control that it had. One that was not owned when it
 * was read ahead ends the chain, though it is owned by then. One that links to
 * itself, without PARK, runs twice before the chain ends: the second time from the
 * slot, in which it is still owned. Bytes moved over the descriptor in the slot
 * change nothing in the slot.
 *
 * The slot is emptied by a write of the pointer, in every phase and also of the
 * number that is there; by a reset; and where the core goes to Rest, Ended, Halted
 * or Faulted. Clearing RUN alone empties nothing: where RUN is set again before
 * the core has come to Rest, it goes on with what is in the slot.
 *
 * What firmware must do, then: write the chain, up to the descriptor at its end,
 * before it sets RUN. Where it changes or adds descriptors later, it lets the core
 * come to Rest or to Ended first, or it writes the pointer again, the number that
 * it reads there: the next Fetch then reads memory.
 *
 * The run number counts how often RUN has gone from 0 to 1, in every phase. It is
 * 0 in a core as it is created, stays at 4,294,967,295 once it is there, and outlives
 * a reset. No register tells it; the image does, and so does each record of the
 * ledger.
 */
#define SGDMA_SLOT_EMPTY       0
#define SGDMA_SLOT_DESCRIPTOR  1
#define SGDMA_SLOT_MISALIGNED  2 /* fault 10 is met at the next Fetch */
#define SGDMA_SLOT_OUTSIDE     3 /* fault 11 is met at the next Fetch */

/*
 * Interrupts
 *
 * An event pends where its enable bit is 1: each setting of a status bit, also
 * of one that was 1 already, and the count that reaches MAX_DESC_PROCESSED. The
 * line is up exactly while an interrupt is pending and IE_GLOBAL is 1. Clearing
 * status bits clears nothing that is pending; CLEAR_INTERRUPT and a reset do.
 * So firmware acknowledges with two writes:
 *
 *   status     the bits it has read
 *   control    the bits that shall stand, and CLEAR_INTERRUPT
 */

/*
 * The ledger
 *
 * What the core has done, in the order in which it did it: each WriteBack leaves
 * a record of 12 bytes, which tells the run, the descriptor and what was written
 * there. That is so in every mode, and under PARK: a descriptor that is written
 * back again has another record each time. The ledger is a lent slice of whole
 * records. It belongs to the caller and is no part of the core; what stands in
 * its bytes before is never looked at.
 *
 * A done mark does not tell when it was made: a descriptor that nobody has handed
 * over again still reads as done from the last time. The record does tell: its run is
 * the core's run number at that WriteBack. A run by this number goes from one setting
 * of RUN to the next, over all calls of sgdma_run between them; what was done in the
 * last is what has a record with the number that the image tells now. The WriteBack
 * counts, and not the Fetch: where RUN goes off and on while a descriptor is in hand,
 * its record is of the new run; where RUN is cleared and the core finishes the
 * descriptor, of the run that was. A reset takes nothing out of the ledger, and the
 * runs after it are counted on. The first run is 1. Records of run 0 are those of an
 * image that tells run number 0 while RUN is 1, which no core does that sgdma_create
 * has made. At 4,294,967,295 runs can no longer be told apart.
 *
 * The caller keeps the number of records used, 0 at first. Each call is told it,
 * appends its records behind those used and reports the new number, which is
 * handed on to the next call:
 *
 *   sgdma_run(.., ledger, ledger_len, used, budget, report, ..);
 *   used = the 32 bits of the report at SGDMA_REPORT_USED_AT;
 *
 * The records used before are unchanged, and so are the bytes past the last.
 *
 * No beat is lost. From a core as it is created, in mode 2, with a ledger that is
 * empty at first and each number handed on, over all register writes and runs:
 *
 *   the bytes of all records  +  those in hand  +  those abandoned
 *     =  the beats taken in all these runs
 *
 * In hand is what the core has moved of its descriptor in Move or WriteBack (the 16
 * bits of the image at SGDMA_IMAGE_MOVED_AT); abandoned is what was in hand at each
 * reset, and at each SGDMA_FAULT_DESTINATION_OUTSIDE.
 *
 * A WriteBack that finds no room is not made: the run stops before it, with
 * SGDMA_REASON_LEDGER_FULL, and the descriptor is still owned. So no done mark that
 * the core writes there stands without a dated record behind it. Nothing is lost by
 * that, and the core goes on in the next call that is lent room: a longer ledger that
 * begins with the same records, or the same one with used 0, once its records are
 * kept elsewhere. NULL with length 0 is a ledger without room; the largest number,
 * 4,294,967,295 used, has no room behind it either, however long the ledger is.
 *
 * sgdma_find_record asks it whether a descriptor was written back in a run, and
 * for the latest byte count there. A descriptor that was written back several
 * times in that run has several records, and the last of them is told.
 */
#define SGDMA_RECORD_SIZE           12
#define SGDMA_RECORD_RUN_AT         0  /* 32 bits: the run number at its WriteBack */
#define SGDMA_RECORD_DESCRIPTOR_AT  4  /* 32 bits: the bus address of the descriptor */
#define SGDMA_RECORD_ACTUAL_AT      8  /* 16 bits: as in actual_bytes_transferred */
#define SGDMA_RECORD_STATUS_AT      10 /* 8 bits: as in desc_status, errors of its beats */
#define SGDMA_RECORD_FLAGS_AT       11 /* 8 bits: EOP, and seven that are 0 */
#define SGDMA_RECORD_EOP            SGDMA_BIT(0) /* a beat with EOP ended it; modes 0 and 1: 0 */

/*
 * The answer of sgdma_find_record, 4 bytes: where each number stands.
 */
#define SGDMA_FINDING_FOUND_AT   0 /* 16 bits: 1 where there is a record, else 0 */
#define SGDMA_FINDING_ACTUAL_AT  2 /* 16 bits: that of the last one; 0 where there is none */

/*
 * What a done mark tells
 *
 * A done mark that a WriteBack has written has its dated record. But descriptors are
 * memory, and the core writes where they say: a byte that lands on the control byte
 * of another descriptor can clear its OWNED_BY_HW, and then it reads as done with no
 * sample behind it, and without a record in the ledger. The one that is in the slot
 * by then is processed all the same, and has its record when it is written back. Any
 * other one ends the chain, and never has one. Firmware that looks for the record is
 * not misled by that; firmware that trusts a done mark alone sees to it, on a fresh
 * core in mode 2 and before it sets RUN, that
 *   - the descriptors of the chain are multiples of 4, in the window, and apart
 *     from each other, the one that is not owned at the end too, which
 *     sgdma_check_chain tells;
 *   - PARK and STOP_DMA_ER are 0;
 *   - each destination and the bytes_to_transfer bytes from there on (the one
 *     byte, under WRITE_FIXED_ADDRESS) are in the window and touch none of these
 *     descriptors.
 * Then, and so it is proved, with a stream and a ledger that are long enough:
 * after every step the descriptors marked done are the first few of the chain,
 * each with the count of bytes that the stream gave it; the core ends after 2
 * steps and, for each of them, its bytes and 2 more; every landing place holds
 * the last byte sent there; nothing else in memory has changed but the last four
 * bytes of each descriptor; and the ledger has a record of each, in the order of the
 * chain and dated with run 1. A budget of 4,294,967,295 is enough for every such
 * chain.
 *
 * In modes 0 and 1 the same is proved, whatever STOP_DMA_ER is, where no
 * bytes_to_transfer is 0 and each source lies as a destination must in mode 2 (the
 * one byte, under READ_FIXED_ADDRESS); in mode 0 each destination does too, and in
 * mode 1 there is room for every beat.
 *   - In mode 0 a byte is the one that memory holds at its step, those before it
 *     being written by then; where nothing that is read is ever written to, it is
 *     what memory held before the run.
 *   - In mode 1 the beats that come out are, for each descriptor of the chain, its
 *     bytes in order, as memory held them before the run, with SOP on the first
 *     under WRITE_FIXED_ADDRESS and EOP on the last under GENERATE_EOP; and nothing
 *     in memory has changed but the last four bytes of each descriptor.
 */

/*
 * A sound chain
 *
 * A chain begins at the pointer and goes on by next_desc_ptr, from each descriptor
 * that is owned to the next. The first that is not owned is its end, and belongs to
 * it. It is sound where it has an end and each descriptor of it, the end too, is a
 * multiple of 4, in the window and apart from all the others: what is asked above of
 * the chain.
 *
 * Firmware that builds chains makes others too. Some never end, since one of their
 * descriptors leads back to an earlier one; under PARK a core would go round there
 * for ever. sgdma_check_chain walks the chain before RUN is set. It tells its end and
 * how many descriptors are owned; or the position, counted from 0, of the first
 * descriptor that is wrong, its address and why:
 *
 *   SGDMA_CHAIN_MISALIGNED  the address is not a multiple of 4
 *   SGDMA_CHAIN_OUTSIDE     its 32 bytes are not in the window
 *   SGDMA_CHAIN_OVERLAPS    it has a byte in common with an earlier descriptor of
 *                           the chain, as it has where it is that one again
 *
 * Where several of these are so, the first of them is told. An address that is told
 * with one of them is the one that was led to: by the pointer, at position 0, and
 * else by the descriptor before. Nothing else of a descriptor is looked at, neither
 * what it is to transfer nor where from and to.
 *
 * No more than 2,048 descriptors are apart in a window. So the walk ends, whatever
 * the memory holds; no more than 2,047 are owned in a sound chain, and no position
 * that is told is above 2,048.
 */
#define SGDMA_CHAIN_SOUND       0
#define SGDMA_CHAIN_MISALIGNED  1
#define SGDMA_CHAIN_OUTSIDE     2
#define SGDMA_CHAIN_OVERLAPS    3

/*
 * The answer of sgdma_check_chain, 10 bytes: where each number stands.
 */
#define SGDMA_CHECK_VERDICT_AT   0 /* 16 bits: SGDMA_CHAIN_SOUND, or what is wrong */
#define SGDMA_CHECK_POSITION_AT  2 /* 32 bits: of what is wrong; sound: how many are owned */
#define SGDMA_CHECK_ADDRESS_AT   6 /* 32 bits: of what is wrong; sound: of the end */

/*
 * A mended chain
 *
 * After a crash the front part of a chain is often good. A dump of the memory is any
 * slice with a base, and is mended as a window is. sgdma_mend_chain walks the chain
 * as the check does. Where a descriptor is wrong, OWNED_BY_HW is cleared in the one
 * just before it, which becomes the end: one bit of one byte, and nothing else in the
 * dump changes. Then the chain is sound. Its descriptors are those that stood before
 * the one that was wrong; where that was at position p, p - 1 of them are owned, and
 * the last, which was owned too, is not. A chain that is sound already is left as it
 * is, so that to mend twice is to mend once. Where the first descriptor is wrong there
 * is none before it, and the mend is refused: SGDMA_NOTHING_TO_KEEP.
 *
 * What was cut off is still in the dump, and the descriptor that was made the end
 * reads as done: its byte as it was is told, and put back it undoes the mend.
 *
 * The answer of sgdma_mend_chain, 8 bytes: where each number stands. Where the chain
 * was sound all are 0.
 */
#define SGDMA_MEND_MENDED_AT   0 /* 16 bits: 1 where a descriptor was changed */
#define SGDMA_MEND_ADDRESS_AT  2 /* 32 bits: of that descriptor */
#define SGDMA_MEND_OLD_AT      6 /* 8 bits: its desc_control before */
#define SGDMA_MEND_NEW_AT      7 /* 8 bits: its desc_control now */

/*
 * The report of a run, 18 bytes: where each number stands.
 */
#define SGDMA_REPORT_REASON_AT  0  /* 16 bits */
#define SGDMA_REPORT_STEPS_AT   2  /* 32 bits: the steps taken, at most the budget */
#define SGDMA_REPORT_TAKEN_AT   6  /* 32 bits: the input beats taken */
#define SGDMA_REPORT_MADE_AT    10 /* 32 bits: the output beats made */
#define SGDMA_REPORT_USED_AT    14 /* 32 bits: the records of the ledger used now */

/* Why a run stopped. */
#define SGDMA_REASON_REST         0 /* RUN is 0 */
#define SGDMA_REASON_ENDED        1 /* a descriptor not owned was met */
#define SGDMA_REASON_HALTED       2 /* errors under STOP_DMA_ER */
#define SGDMA_REASON_FAULTED      3
#define SGDMA_REASON_NEEDS_INPUT  4 /* mode 2, in Move: all beats lent are taken */
#define SGDMA_REASON_OUTPUT_FULL  5 /* mode 1, in Move: no room for a beat */
#define SGDMA_REASON_BUDGET       6 /* the budget is spent, and another step was possible */
#define SGDMA_REASON_LEDGER_FULL  7 /* in WriteBack: no room for a record */

/*
 * The answer of sgdma_read_descriptor, 18 bytes: where each field stands.
 */
#define SGDMA_ANSWER_SOURCE_AT                    0  /* 32 bits */
#define SGDMA_ANSWER_DESTINATION_AT               4  /* 32 bits */
#define SGDMA_ANSWER_NEXT_DESC_PTR_AT             8  /* 32 bits */
#define SGDMA_ANSWER_BYTES_TO_TRANSFER_AT         12 /* 16 bits */
#define SGDMA_ANSWER_ACTUAL_BYTES_TRANSFERRED_AT  14 /* 16 bits */
#define SGDMA_ANSWER_DESC_STATUS_AT               16 /* 8 bits */
#define SGDMA_ANSWER_DESC_CONTROL_AT              17 /* 8 bits */

/*
 * The image, 85 bytes, edition 2. Firmware keeps it, copies it and lends it; the
 * bytes moved, the fault, the slot and the run number are what it may want to read
 * there. An image of edition 1 had 44 bytes, which are fields 1 to 22 of this table,
 * with 1 in the first: there was no slot and no run number. Every call but
 * sgdma_move_image refuses it as one of another size. For the reader of a dump, the
 * 27 fields in order: the byte in which each begins, its width in bits, the most
 * significant first, and the rule by which a call knows that it is wrong. The phases
 * are numbered from Rest, 0, to Faulted, 6, in the order above, and the kinds of the
 * slot as SGDMA_SLOT_EMPTY and so on are.
 *
 *       field               byte  bits  rule
 *    1  edition                0     4  2; in the 44 bytes of edition 1, 1
 *    2  mode                   0     2  0, 1 or 2
 *    3  phase                  0     3  0 to 6; Halted, 5, in mode 2 only
 *    4  armed                  1     1  none of its own: it is SW_RESET, see 9
 *    5  interrupt pending      1     1  none
 *    6  fault code             1     5  0, but in Faulted 10 to 14: 12 and 13 not
 *                                       in mode 2, 14 not in mode 1
 *    7  status                 2     8  bits 5 to 7 are 0; BUSY is 1 in Fetch,
 *                                       Move, WriteBack and Ended, else 0; ERROR
 *                                       and EOP_ENCOUNTERED 0 in modes 0 and 1
 *    8  count of descriptors   3     8  at most 254
 *    9  control                4    32  bits 18 to 31 are 0; SW_RESET is what
 *                                       armed is; RUN is 1 in Ended and Halted
 *   10  pointer                8    32  none
 *   11  window: base          12    32  none of its own: see 12
 *   12  window: length        16    32  at most 65,536, and with base no more
 *                                       than 4,294,967,296
 *       descriptor in hand              in Move and WriteBack as it says here,
 *                                       in the other phases each of 13 to 20 is 0
 *   13    its address         20    32  a multiple of 4, its 32 bytes in the window
 *   14    source              24    32  any
 *   15    destination         28    32  any
 *   16    bytes_to_transfer   32    16  not 0 in modes 0 and 1
 *   17    desc_control        34     8  OWNED_BY_HW is 1
 *   18    errors              35     8  bit 7 is 0; all of it in modes 0 and 1
 *   19    bytes moved         36    16  Move: fewer than are to be, and where it
 *                                       is 0, errors are 0. WriteBack: at least 1
 *                                       and no more than are to be
 *   20    EOP seen            38     1  0 in Move and in modes 0 and 1. WriteBack:
 *                                       1 where not all bytes are moved
 *   21  zero                  38    15  0
 *   22  fault address         40    32  0, but in Faulted any
 *       slot                            empty, and each of 25 and 26 is 0, or held
 *   23    its kind            44     2  held in Fetch, Move and WriteBack only
 *   24  zero                  44     6  0
 *   25    its address         45    32  the pointer; and the kind is that of this
 *                                       address: 2 where it is not a multiple of 4,
 *                                       else 3 where its 32 bytes are not in the
 *                                       window, else 1
 *   26    its bytes           49   256  kind 1: any, in the order of memory. Kinds
 *                                       2 and 3: 0
 *   27  run number            81    32  none
 *
 * An image that breaks one of these rules is refused (SGDMA_BAD_IMAGE), and the
 * field is told, by its number in the table. Where several are wrong the lowest
 * is told: put right, it gives way to the next. A rule that compares fields is
 * at the last of them, so that the field to be mended may be an earlier one: BUSY
 * that does not fit the phase is told as status.
 *
 * An image that sgdma_create made keeps the rules, and so does what every call
 * leaves of one that keeps them: SGDMA_BAD_IMAGE tells that the bytes are no
 * image, or were changed by something else.
 */
#define SGDMA_EDITION                   2 /* field 1 of an image that the calls take */

#define SGDMA_FIELD_EDITION             UINT32_C(1)
#define SGDMA_FIELD_MODE                UINT32_C(2)
#define SGDMA_FIELD_PHASE               UINT32_C(3)
#define SGDMA_FIELD_ARMED               UINT32_C(4)  /* never told */
#define SGDMA_FIELD_PENDING             UINT32_C(5)  /* never told */
#define SGDMA_FIELD_FAULT               UINT32_C(6)
#define SGDMA_FIELD_STATUS              UINT32_C(7)
#define SGDMA_FIELD_COUNT               UINT32_C(8)
#define SGDMA_FIELD_CONTROL             UINT32_C(9)
#define SGDMA_FIELD_POINTER             UINT32_C(10) /* never told */
#define SGDMA_FIELD_BASE                UINT32_C(11) /* never told */
#define SGDMA_FIELD_WINDOW_LENGTH       UINT32_C(12)
#define SGDMA_FIELD_DESCRIPTOR_ADDRESS  UINT32_C(13)
#define SGDMA_FIELD_SOURCE              UINT32_C(14)
#define SGDMA_FIELD_DESTINATION         UINT32_C(15)
#define SGDMA_FIELD_LENGTH              UINT32_C(16)
#define SGDMA_FIELD_DESCRIPTOR_CONTROL  UINT32_C(17)
#define SGDMA_FIELD_ERRORS              UINT32_C(18)
#define SGDMA_FIELD_MOVED               UINT32_C(19)
#define SGDMA_FIELD_EOP_SEEN            UINT32_C(20)
#define SGDMA_FIELD_ZERO                UINT32_C(21)
#define SGDMA_FIELD_FAULT_ADDRESS       UINT32_C(22)
#define SGDMA_FIELD_SLOT_KIND           UINT32_C(23)
#define SGDMA_FIELD_SLOT_ZERO           UINT32_C(24)
#define SGDMA_FIELD_SLOT_ADDRESS        UINT32_C(25)
#define SGDMA_FIELD_SLOT_BYTES          UINT32_C(26)
#define SGDMA_FIELD_RUN_NUMBER          UINT32_C(27) /* never told */

#define SGDMA_IMAGE_FAULT_AT          1    /* 8 bits, of which the code is those of the mask */
#define SGDMA_IMAGE_FAULT_MASK        0x1F
#define SGDMA_IMAGE_MOVED_AT          36   /* 16 bits: of the descriptor in hand, else 0 */
#define SGDMA_IMAGE_FAULT_ADDRESS_AT  40   /* 32 bits: for 10, 11 and 12 the pointer; */
                                           /* for 13 and 14 the byte's, modulo 2^32 */
#define SGDMA_IMAGE_SLOT_AT           44   /* 8 bits, of which the kind is the upper two */
#define SGDMA_IMAGE_SLOT_KIND_SHIFT   6
#define SGDMA_IMAGE_SLOT_ADDRESS_AT   45   /* 32 bits */
#define SGDMA_IMAGE_SLOT_BYTES_AT     49   /* 32 bytes: the descriptor that was read ahead */
#define SGDMA_IMAGE_RUN_NUMBER_AT     81   /* 32 bits */

/*
 * The interrupt controller
 *
 * A port has a line, a software trigger, an enable, a level, a register set and
 * the non-maskable flag. It is pending while its line is up or its trigger set,
 * and it is enabled. The chosen port is that of the largest level among the
 * pending ones; of several with that level the one of the lowest index. A port
 * with level 0 is never chosen. The flag is told with the port and changes no
 * choice. Nothing here goes down by itself: firmware that has served a port
 * drives its line as the core's then is, or clears its trigger.
 *
 * The handler of a port is at port x vector_bytes + base, as a whole number. Any
 * 32-bit numbers will do for these two, as long as the handler of each port that
 * comes to be chosen is on the bus.
 */
#define SGDMA_VIC_PORTS_MAX  32
#define SGDMA_VIC_LEVEL_MAX  63 /* of level and register set; 6 bits of each are kept */

/*
 * The answer of sgdma_vic_choose, 12 bytes: where each number stands. Where no
 * port is chosen all are 0.
 */
#define SGDMA_VIC_ANSWER_CHOSEN_AT        0 /* 16 bits: 1 where a port is chosen */
#define SGDMA_VIC_ANSWER_PORT_AT          2 /* 16 bits */
#define SGDMA_VIC_ANSWER_LEVEL_AT         4 /* 8 bits */
#define SGDMA_VIC_ANSWER_SET_AT           5 /* 8 bits: the register set */
#define SGDMA_VIC_ANSWER_NON_MASKABLE_AT  6 /* 16 bits: 0 or 1 */
#define SGDMA_VIC_ANSWER_ADDRESS_AT       8 /* 32 bits: the handler's */

/*
 * A controller, 88 bytes. For the reader of a dump, by byte and bits:
 *
 *   0   count of ports 8, zero 24
 *   4   bytes per vector 32
 *   8   base 32
 *   12  lines 32, software triggers 32, enables 32: bit p for port p
 *   24  for each port, 0 to 31: zero 3, register set 6, non-maskable 1, level 6
 *
 * The count is 1 to 32, what is called zero is zero, and so are the bits and the
 * 16 bits of every port that the controller lacks. A controller that
 * sgdma_vic_create made keeps these rules, and so does what every call leaves of
 * one that keeps them. One that breaks a rule is refused with
 *
 *   SGDMA_BAD_IMAGE + 256 x field
 *
 * where field is the lowest that does, of these, counted in the order of the
 * bytes. The bytes per vector and the base, 3 and 4, break none.
 */
#define SGDMA_VIC_FIELD_PORTS         UINT32_C(1)
#define SGDMA_VIC_FIELD_ZERO          UINT32_C(2)
#define SGDMA_VIC_FIELD_LINES         UINT32_C(5)
#define SGDMA_VIC_FIELD_SOFTWARE      UINT32_C(6)
#define SGDMA_VIC_FIELD_ENABLED       UINT32_C(7)
#define SGDMA_VIC_FIELD_FIRST_CONFIG  UINT32_C(8) /* the 16 bits of port p: 8 + p, to 39 */

/*
 * The interval timer
 *
 * A counter of 32 bits that is taken down, one a tick, while the timer runs. In
 * the tick in which its new value is 0 it has reached zero, and TO is set. It
 * stands at 0 for one tick: the next one loads it with the period and, where CONT
 * is 0 then, stops the timer. So one that runs on with CONT 1 and is not written
 * to reaches zero every period + 1 ticks, and TO is set each time; with period 0
 * that is in every tick. A timer that is stopped stays as it is, however many
 * ticks pass. Its line is up exactly while TO and ITO are both 1.
 *
 * It has all its registers and both commands. The pulse, the watchdog and the
 * options that leave registers out are not modelled.
 *
 * Firmware times a stall of the stream with two snapshots. It makes the timer with
 * SGDMA_TIMER_FULL_PERIOD and starts it with START and CONT. Where the stall begins
 * and where it ends it takes a snapshot: it writes to snapl, and then reads snapl
 * and snaph. sgdma_timer_elapsed gives the ticks between the two, also where the
 * counter has passed zero since, as long as they are fewer than 2^32.
 */
#define SGDMA_TIMER_FULL_PERIOD  UINT32_C(0xFFFFFFFF)

/*
 * The timer's registers, 16 bits each: the offsets, which count registers and not
 * bytes (table 26-3).
 */
#define SGDMA_TIMER_REGISTER_STATUS   UINT32_C(0)
#define SGDMA_TIMER_REGISTER_CONTROL  UINT32_C(1)
#define SGDMA_TIMER_REGISTER_PERIODL  UINT32_C(2) /* the period, bits 0 to 15 */
#define SGDMA_TIMER_REGISTER_PERIODH  UINT32_C(3) /* .. and 16 to 31 */
#define SGDMA_TIMER_REGISTER_SNAPL    UINT32_C(4) /* the snapshot, bits 0 to 15 */
#define SGDMA_TIMER_REGISTER_SNAPH    UINT32_C(5) /* .. and 16 to 31 */

/*
 * status (table 26-5). Reading changes nothing. Every write, whatever its value,
 * clears TO and leaves RUN. Bits 2 to 15 read 0.
 */
#define SGDMA_TIMER_STATUS_TO   SGDMA_BIT(0) /* the counter has reached zero */
#define SGDMA_TIMER_STATUS_RUN  SGDMA_BIT(1) /* the counter is running; read only */

/*
 * control (table 26-6). A write stores ITO and CONT as they are given, also one
 * that starts or stops. START starts the counter from where it is, and STOP stops
 * it; both together mean STOP, and with neither it runs on or stays stopped. START
 * and STOP read 0, and so do bits 4 to 15, which are ignored.
 */
#define SGDMA_TIMER_CONTROL_ITO    SGDMA_BIT(0) /* TO raises the line */
#define SGDMA_TIMER_CONTROL_CONT   SGDMA_BIT(1) /* go on when the counter has reached zero */
#define SGDMA_TIMER_CONTROL_START  SGDMA_BIT(2)
#define SGDMA_TIMER_CONTROL_STOP   SGDMA_BIT(3)

/*
 * periodl and periodh. A write replaces its half of the period, loads the counter
 * with the whole of the new period, and stops the timer; TO stays. So a period is
 * written first, in either order, and the timer started then.
 *
 * snapl and snaph. A write to either copies the counter to the snapshot, all 32
 * bits, whether the timer runs or not; its value is ignored. Reading gives a half
 * of the snapshot, which stays until the next.
 *
 * A timer, 14 bytes. For the reader of a dump, its 8 fields in order: the byte in
 * which each begins, its width in bits, and the rule by which a call knows that it
 * is wrong.
 *
 *       field     byte  bits  rule
 *    1  counter      0    32  none of its own: see 2
 *    2  period       4    32  no less than the counter
 *    3  snapshot     8    32  none
 *    4  zero        12    12  0
 *    5  CONT        13     1  none
 *    6  ITO         13     1  none
 *    7  RUN         13     1  none
 *    8  TO          13     1  none
 *
 * A timer that sgdma_timer_create made keeps these rules, and so does what every
 * call leaves of one that keeps them. One that breaks a rule is refused with
 *
 *   SGDMA_BAD_IMAGE + 256 x field
 *
 * where field is the lowest that does.
 */
#define SGDMA_TIMER_FIELD_PERIOD  UINT32_C(2)
#define SGDMA_TIMER_FIELD_ZERO    UINT32_C(4)

/*
 * What a call returns
 *
 * SGDMA_DONE, or the number of a refusal. SGDMA_BAD_IMAGE comes back as 8 + 256 x
 * field, and every other as it stands. So a number r that is not SGDMA_DONE is
 * taken apart:
 *
 *   SGDMA_REFUSAL(r)  which refusal it is
 *   SGDMA_FIELD(r)    with SGDMA_BAD_IMAGE the field that is wrong, by the table
 *                     of the image, the controller or the timer; with every
 *                     other refusal 0
 */
#define SGDMA_REFUSAL(r)    ((r) & 255)
#define SGDMA_FIELD(r)      ((r) >> 8)
#define SGDMA_DONE          UINT32_C(0)
#define SGDMA_NO_REGISTER   UINT32_C(1)  /* offset is not 0, 4 or 8 */
#define SGDMA_BAD_MODE      UINT32_C(2)  /* mode is above 2 */
#define SGDMA_BAD_WINDOW    UINT32_C(3)  /* base or length break the limits of a window */
#define SGDMA_OTHER_WINDOW  UINT32_C(4)  /* the lent window has not the length of the core's */
#define SGDMA_MISALIGNED    UINT32_C(5)  /* the descriptor's address is not a multiple of 4 */
#define SGDMA_OUTSIDE       UINT32_C(6)  /* its 32 bytes are not in the window */
#define SGDMA_BAD_SIZE      UINT32_C(7)  /* image, vic, timer, value, report or answer of wrong size */
#define SGDMA_BAD_IMAGE     UINT32_C(8)  /* a field of what is lent is wrong: + 256 x field */
#define SGDMA_ODD_STREAM    UINT32_C(9)  /* an odd number of beat bytes, in or out */
#define SGDMA_SLOT_HELD     UINT32_C(15) /* the edition moved to has no slot, and one is held */
#define SGDMA_NO_TIMER_REGISTER  UINT32_C(16) /* offset is above 5 */
#define SGDMA_NOT_FULL_PERIOD    UINT32_C(17) /* the timer's period is not 4,294,967,295 */
#define SGDMA_RUN_UNKNOWN   UINT32_C(18) /* the run asked for is 4,294,967,295 */
#define SGDMA_BAD_LEDGER    UINT32_C(19) /* part of a record, or fewer records than are used */
#define SGDMA_NO_PORT       UINT32_C(21) /* the controller lacks the port; or a count not 1 to 32 */
#define SGDMA_ADDRESS_TOO_LARGE  UINT32_C(22) /* the chosen port's handler is past 32 bits */
#define SGDMA_NOTHING_TO_KEEP    UINT32_C(23) /* the first descriptor of the chain is wrong */

/*
 * Makes a fresh core: every register 0, nothing pending, phase Rest, the slot
 * empty, run number 0.
 *
 * Reads    nothing: what the image held before does not matter
 * Writes   image
 * Returns  SGDMA_BAD_SIZE    image_len is not 85
 *          SGDMA_BAD_MODE    mode is above 2
 *          SGDMA_BAD_WINDOW  base and length break the limits of a window
 *          SGDMA_DONE
 *
 * Base and length are 64 bits wide, so that a number too large is refused and
 * not cut.
 */
uint32_t sgdma_create(uint8_t *image, size_t image_len,
                      uint32_t mode, uint64_t base, uint64_t length);

/*
 * Reads a register.
 *
 * Reads    image
 * Writes   value: the register, 4 bytes
 * Returns  SGDMA_BAD_SIZE     image_len is not 85 or value_len not 4
 *          SGDMA_BAD_IMAGE    + 256 x field: that field of the image is wrong
 *          SGDMA_NO_REGISTER  offset is not 0, 4 or 8
 *          SGDMA_DONE
 */
uint32_t sgdma_read_register(const uint8_t *image, size_t image_len,
                             uint32_t offset,
                             uint8_t *value, size_t value_len);

/*
 * Writes a register, in any phase.
 *
 * Reads    image
 * Writes   image: the core after the write
 * Returns  SGDMA_BAD_SIZE     image_len is not 85
 *          SGDMA_BAD_IMAGE    + 256 x field: that field of the image is wrong
 *          SGDMA_NO_REGISTER  offset is not 0, 4 or 8
 *          SGDMA_DONE
 *
 * A write of control with SW_RESET 1, where SW_RESET reads 1 already, makes the
 * core fresh; mode, window and run number stay, and the rest of the value is
 * ignored. Any other stores bits 0 to 17; CLEAR_INTERRUPT clears what is pending;
 * RUN going from 0 to 1 starts the count of descriptors anew and adds 1 to the run
 * number; RUN 0 takes a core from Ended or Halted to Rest, with BUSY 0. RUN 0 in
 * Move does not cut a descriptor short: the core stops after its WriteBack. So BUSY
 * may read 1 for a while, but never for more than 65,536 steps in all, where the
 * beats, the room and the record that the descriptor in hand still needs are lent:
 * 1 step in Fetch, in Move one for each byte that is left and 1 more, 1 in WriteBack.
 * Then the core is in Rest, or a fault has stopped it, and BUSY reads 0.
 *
 * A write of the pointer, whatever the number, empties the slot: the next Fetch
 * reads memory.
 */
uint32_t sgdma_write_register(uint8_t *image, size_t image_len,
                              uint32_t offset, uint32_t value);

/*
 * Reads the interrupt line.
 *
 * Reads    image
 * Writes   value: 1 where the line is up, else 0, 4 bytes
 * Returns  SGDMA_BAD_SIZE   image_len is not 85 or value_len not 4
 *          SGDMA_BAD_IMAGE  + 256 x field: that field of the image is wrong
 *          SGDMA_DONE
 */
uint32_t sgdma_line(const uint8_t *image, size_t image_len,
                    uint8_t *value, size_t value_len);

/*
 * Takes steps until one cannot be taken or budget steps are taken.
 *
 * Reads    image; window; beats, the input stream (used in mode 2)
 * Writes   image: the core after the run
 *          window: the bytes moved, and the last four bytes of each descriptor
 *          written back
 *          out: the beats made (in mode 1); what lies past them is unchanged
 *          ledger: a record for each descriptor written back, behind the `used`
 *          first ones; what lies before and past them is unchanged
 *          report: reason, steps, beats taken, beats made, records now used
 * Returns  SGDMA_BAD_SIZE      image_len is not 85 or report_len not 18
 *          SGDMA_BAD_IMAGE     + 256 x field: that field of the image is wrong
 *          SGDMA_ODD_STREAM    beats_len or out_len is odd, in any mode
 *          SGDMA_BAD_LEDGER    ledger_len is not a multiple of 12, or is less
 *                              than 12 times used, in any mode and phase
 *          SGDMA_OTHER_WINDOW  window_len is not the length given to create
 *          SGDMA_DONE
 *
 * The next run is lent what this one left: the beats from the taken ones on,
 * the room behind those made, the ledger with the number of records now used.
 * So two runs, with budgets a and b, do what one of a + b does. With budget 0
 * no step is taken, and the reason tells how the core stands.
 */
uint32_t sgdma_run(uint8_t *image, size_t image_len,
                   uint8_t *window, size_t window_len,
                   const uint8_t *beats, size_t beats_len,
                   uint8_t *out, size_t out_len,
                   uint8_t *ledger, size_t ledger_len, uint32_t used,
                   uint32_t budget,
                   uint8_t *report, size_t report_len);

/*
 * Builds the descriptor at a bus address of the window that stands at base.
 * next, length and control are next_desc_ptr, bytes_to_transfer and
 * desc_control.
 *
 * length is 16 bits wide and control 8: C cuts a larger number before the call
 * sees it. A length of 65,536 comes as 0, which in mode 2 means 65,535. Compile
 * with -Wconversion.
 *
 * Reads    nothing
 * Writes   window: all 32 bytes of the descriptor, with the reserved ones,
 *          actual_bytes_transferred and desc_status zero
 * Returns  SGDMA_BAD_WINDOW  base and window_len break the limits of a window
 *          SGDMA_MISALIGNED  address is not a multiple of 4
 *          SGDMA_OUTSIDE     the 32 bytes are not in the window
 *          SGDMA_DONE
 */
uint32_t sgdma_build_descriptor(uint8_t *window, size_t window_len,
                                uint64_t base, uint32_t address,
                                uint32_t source, uint32_t destination,
                                uint32_t next, uint16_t length,
                                uint8_t control);

/*
 * Reads the descriptor at a bus address of the window that stands at base.
 *
 * Reads    window: the descriptor; its reserved bytes do not matter
 * Writes   answer: every named field, 18 bytes
 * Returns  SGDMA_BAD_SIZE    answer_len is not 18
 *          SGDMA_BAD_WINDOW  base and window_len break the limits of a window
 *          SGDMA_MISALIGNED  address is not a multiple of 4
 *          SGDMA_OUTSIDE     the 32 bytes are not in the window
 *          SGDMA_DONE
 */
uint32_t sgdma_read_descriptor(const uint8_t *window, size_t window_len,
                               uint64_t base, uint32_t address,
                               uint8_t *answer, size_t answer_len);

/*
 * Checks the chain that begins at a pointer, in the window that stands at base.
 *
 * Reads    window: the descriptors of the chain
 * Writes   answer: the verdict, a position and an address, 10 bytes
 * Returns  SGDMA_BAD_SIZE    answer_len is not 10
 *          SGDMA_BAD_WINDOW  base and window_len break the limits of a window
 *          SGDMA_DONE        also where the chain is not sound, which the verdict
 *                            tells, whatever the pointer is
 *
 * The window is one slice with its base: the one that the descriptors live in. No
 * core is asked and none is changed; what is told is of the memory as it is now. What
 * it costs grows with the chain, not with its square.
 */
uint32_t sgdma_check_chain(const uint8_t *window, size_t window_len,
                           uint64_t base, uint32_t pointer,
                           uint8_t *answer, size_t answer_len);

/*
 * Mends the chain that begins at a pointer, in a dump of the memory, or a window,
 * that stands at base.
 *
 * Reads    window: the descriptors of the chain
 * Writes   window: one bit, where the chain is not sound
 *          answer: what was changed, 8 bytes
 * Returns  SGDMA_BAD_SIZE         answer_len is not 8
 *          SGDMA_BAD_WINDOW       base and window_len break the limits of a window
 *          SGDMA_NOTHING_TO_KEEP  what is wrong is the first descriptor
 *          SGDMA_DONE             also where the chain is sound and nothing changes
 */
uint32_t sgdma_mend_chain(uint8_t *window, size_t window_len,
                          uint64_t base, uint32_t pointer,
                          uint8_t *answer, size_t answer_len);

/*
 * Tells whether the descriptor at a bus address was written back in a run, and its
 * latest byte count there.
 *
 * Reads    ledger: the `used` first records, whatever they hold; what lies past
 *          them does not matter, nor do the seven bits of a record that are 0
 * Writes   answer: found and the count, 4 bytes
 * Returns  SGDMA_BAD_SIZE     answer_len is not 4
 *          SGDMA_BAD_LEDGER   ledger_len is not a multiple of 12, or is less than
 *                             12 times used
 *          SGDMA_RUN_UNKNOWN  run is 4,294,967,295, whatever the ledger holds
 *          SGDMA_DONE
 *
 * That there is no record is an answer, and no refusal. A count of 0 with found 1
 * is one that a record tells. The run that is on now is told by the image at
 * SGDMA_IMAGE_RUN_NUMBER_AT. The run number stays at 4,294,967,295 once it is
 * there, so that records with this number may be of several runs. The records are
 * looked at from the last used one back, up to the first that is asked for.
 */
uint32_t sgdma_find_record(const uint8_t *ledger, size_t ledger_len, uint32_t used,
                           uint32_t run, uint32_t address,
                           uint8_t *answer, size_t answer_len);

/*
 * Moves an image to another edition. Each edition is told by its size: 44 bytes
 * are edition 1, 85 are edition 2. Any pair of them will do.
 *
 * Reads    from
 * Writes   to: the same core in the edition of this size, all of its bytes
 * Returns  SGDMA_BAD_SIZE   from_len or to_len is neither 44 nor 85
 *          SGDMA_BAD_IMAGE  + 256 x field: that field of from is wrong, by the
 *                           rules of its edition
 *          SGDMA_SLOT_HELD  to_len is 44, and the slot of from is not empty
 *          SGDMA_DONE
 *
 * Forward, from 44 to 85, the slot is empty and the run number 0: the next Fetch
 * reads memory, and what is written back is dated run 0 until RUN rises. Back,
 * from 85 to 44, the run number is dropped, and the slot must be empty, as it is
 * in Rest, Ended, Halted and Faulted; a write of the pointer, with the number that
 * it reads, empties it in every phase. So forward and then back gives the old 44
 * bytes, and back and then forward the same core in its run 0. To its own edition
 * an image is moved as it is, once its rules are looked at.
 */
uint32_t sgdma_move_image(const uint8_t *from, size_t from_len,
                          uint8_t *to, size_t to_len);

/*
 * Makes a controller of so many ports: no line up, nothing triggered, enabled or
 * configured.
 *
 * Reads    nothing: what the 88 bytes held before does not matter
 * Writes   vic
 * Returns  SGDMA_BAD_SIZE  vic_len is not 88
 *          SGDMA_NO_PORT   ports is not 1 to 32
 *          SGDMA_DONE
 */
uint32_t sgdma_vic_create(uint8_t *vic, size_t vic_len,
                          uint32_t ports, uint32_t vector_bytes, uint32_t base);

/*
 * Configures a port: its level and its register set, of which the lowest 6 bits
 * are kept, and its non-maskable flag.
 *
 * This call and the next three are alike. Each reads the controller, writes what it says
 * of its one port and leaves every other port, and the rest of this one, as it
 * was. A flag is given as a number: 0 is 0, and any other number is 1.
 *
 * Reads    vic
 * Writes   vic
 * Returns  SGDMA_BAD_SIZE   vic_len is not 88
 *          SGDMA_BAD_IMAGE  + 256 x field: the 88 bytes break a rule
 *          SGDMA_NO_PORT    the controller has no such port
 *          SGDMA_DONE
 */
uint32_t sgdma_vic_configure(uint8_t *vic, size_t vic_len, uint32_t port,
                             uint32_t level, uint32_t set, uint32_t nmi);

/* Enables a port, or disables it. Refused as sgdma_vic_configure is. */
uint32_t sgdma_vic_enable(uint8_t *vic, size_t vic_len,
                          uint32_t port, uint32_t on);

/* Sets a port's software trigger, or clears it. Refused as that is. */
uint32_t sgdma_vic_trigger(uint8_t *vic, size_t vic_len,
                           uint32_t port, uint32_t on);

/* Drives a port's line up or down, as sgdma_line tells it. Refused as that is. */
uint32_t sgdma_vic_line(uint8_t *vic, size_t vic_len,
                        uint32_t port, uint32_t up);

/*
 * Tells the port to be served, or that there is none.
 *
 * Reads    vic
 * Writes   answer: the chosen port and its handler, 12 bytes
 * Returns  SGDMA_BAD_SIZE   vic_len is not 88 or answer_len not 12
 *          SGDMA_BAD_IMAGE  + 256 x field: the 88 bytes break a rule
 *          SGDMA_ADDRESS_TOO_LARGE  the chosen port's handler would be at 2^32
 *                           or above; then nothing is told
 *          SGDMA_DONE       also where no port is chosen
 */
uint32_t sgdma_vic_choose(const uint8_t *vic, size_t vic_len,
                          uint8_t *answer, size_t answer_len);

/*
 * Makes a timer with this period, the value that the period registers hold: it
 * is stopped, the counter is the period, and all else 0.
 *
 * Reads    nothing: what the 14 bytes held before does not matter
 * Writes   timer
 * Returns  SGDMA_BAD_SIZE  timer_len is not 14
 *          SGDMA_DONE
 */
uint32_t sgdma_timer_create(uint8_t *timer, size_t timer_len, uint32_t period);

/*
 * Reads a register of the timer.
 *
 * Reads    timer
 * Writes   value: the register, 4 bytes, of which the first two are 0
 * Returns  SGDMA_BAD_SIZE           timer_len is not 14 or value_len not 4
 *          SGDMA_BAD_IMAGE          + 256 x field: the 14 bytes break a rule
 *          SGDMA_NO_TIMER_REGISTER  offset is above 5
 *          SGDMA_DONE
 */
uint32_t sgdma_timer_read(const uint8_t *timer, size_t timer_len,
                          uint32_t offset,
                          uint8_t *value, size_t value_len);

/*
 * Writes a register of the timer, as is said of each register above. No tick
 * passes by it. value is 16 bits wide: C cuts a larger number before the call sees
 * it, so that a period is written in its two halves.
 *
 * Reads    timer
 * Writes   timer
 * Returns  SGDMA_BAD_SIZE           timer_len is not 14
 *          SGDMA_BAD_IMAGE          + 256 x field: the 14 bytes break a rule
 *          SGDMA_NO_TIMER_REGISTER  offset is above 5
 *          SGDMA_DONE
 */
uint32_t sgdma_timer_write(uint8_t *timer, size_t timer_len,
                           uint32_t offset, uint16_t value);

/*
 * Reads the timer's interrupt line, which sgdma_vic_line can bring to a port.
 *
 * Reads    timer
 * Writes   value: 1 where the line is up, else 0, 4 bytes
 * Returns  SGDMA_BAD_SIZE   timer_len is not 14 or value_len not 4
 *          SGDMA_BAD_IMAGE  + 256 x field: the 14 bytes break a rule
 *          SGDMA_DONE
 */
uint32_t sgdma_timer_line(const uint8_t *timer, size_t timer_len,
                          uint8_t *value, size_t value_len);

/*
 * Lets so many ticks pass. What that costs does not grow with their number.
 *
 * Reads    timer
 * Writes   timer: as it is after the last of them
 *          value: how many times the counter reached zero in them, 4 bytes
 * Returns  SGDMA_BAD_SIZE   timer_len is not 14 or value_len not 4
 *          SGDMA_BAD_IMAGE  + 256 x field: the 14 bytes break a rule
 *          SGDMA_DONE
 */
uint32_t sgdma_timer_run(uint8_t *timer, size_t timer_len, uint32_t ticks,
                         uint8_t *value, size_t value_len);

/*
 * Tells the ticks from one snapshot of this timer to a later one: the earlier
 * minus the later, since the counter counts down, modulo 2^32. Of the timer only
 * the period is looked at.
 *
 * Reads    timer
 * Writes   value: the ticks, 4 bytes
 * Returns  SGDMA_BAD_SIZE         timer_len is not 14 or value_len not 4
 *          SGDMA_BAD_IMAGE        + 256 x field: the 14 bytes break a rule
 *          SGDMA_NOT_FULL_PERIOD  the timer's period is not 4,294,967,295
 *          SGDMA_DONE
 */
uint32_t sgdma_timer_elapsed(const uint8_t *timer, size_t timer_len,
                             uint32_t earlier, uint32_t later,
                             uint8_t *value, size_t value_len);

#ifdef __cplusplus
}
#endif

#endif
