//! Single steps and register writes, each worked out by hand from one sentence of
//! the paper, or of the requests for the ledger and for reading ahead, by the model
//! and by the library.

use harness::call::{parties, Call, Lent, Party};
use harness::compare::ask;
use harness::firmware::stream;
use harness::model::{
    offset, Image, Kept, Mode, Phase, Reason, Slot, SlotKind, DESCRIPTOR_SIZE, RECORD_SIZE,
    REPORT_SIZE, VALUE_SIZE,
};
use harness::samples::{image, record, BASE, LENGTH};
use Mode::{MemoryToMemory as M0, MemoryToStream as M1, StreamToMemory as M2};
use Phase::{Ended, Faulted, Fetch, Halted, Move, Rest, WriteBack};

const RUN: u32 = 0x20;
const STOP_DMA_ER: u32 = 0x40;
const PARK: u32 = 1 << 17;
const SW_RESET: u32 = 1 << 16;
const BUSY: u8 = 0x10;

type EditImage = fn(&mut Image);
type EditMemory = fn(&mut [u8]);

/// One step and what must come of it.
struct Step {
    name: &'static str,
    mode: Mode,
    phase: Phase,
    /// What makes the sample the case at hand.
    given: EditImage,
    memory: EditMemory,
    beats: &'static [u16],
    room: usize,
    record_room: usize,
    budget: u32,
    /// What the step changes.
    image_after: EditImage,
    memory_after: EditMemory,
    /// Reason, steps, beats taken.
    told: (Reason, u32, u32),
    made: &'static [u16],
    recorded: Option<[u8; RECORD_SIZE]>,
}

/// A step that finds nothing and changes nothing.
const STEP: Step = Step {
    name: "",
    mode: M2,
    phase: Fetch,
    given: |_| (),
    memory: |_| (),
    beats: &[],
    room: 0,
    record_room: 1,
    budget: 1,
    image_after: |_| (),
    memory_after: |_| (),
    told: (Reason::Budget, 1, 0),
    made: &[],
    recorded: None,
};

/// Writes a 32-bit number into a descriptor.
fn put(memory: &mut [u8], place: usize, number: u32) {
    memory[place..place + 4].copy_from_slice(&number.to_le_bytes());
}

/// Lays an owned descriptor at 4128: from 4200 to 4224, then 4096.
fn lay(memory: &mut [u8], length: u8) {
    put(memory, 32, 4200);
    put(memory, 40, 4224);
    put(memory, 48, 4096);
    memory[56] = length;
    memory[63] = 0xA9;
}

/// The slot with what stands at an address of the window.
fn slot_at(address: u32, bytes: [u8; DESCRIPTOR_SIZE]) -> Slot {
    Slot {
        kind: SlotKind::Descriptor,
        address,
        bytes,
    }
}

/// The slot of a bad address.
fn bad_slot(kind: SlotKind, address: u32) -> Slot {
    Slot {
        kind,
        address,
        ..Slot::default()
    }
}

/// The descriptor that [`lay`] lays, as it is held before its Fetch.
fn laid(length: u8) -> Slot {
    let mut memory = [0; LENGTH];
    lay(&mut memory, length);
    slot_at(4128, *memory[32..].first_chunk().expect("32 bytes"))
}

/// The same with another control byte.
fn laid_as(length: u8, control: u8) -> Slot {
    let mut slot = laid(length);
    slot.bytes[31] = control;
    slot
}

/// The descriptor that [`lay`] lays, as it is kept; the zeros at 4096 are read
/// ahead.
fn keep(image: &mut Image, length: u16) {
    image.phase = Move as u8;
    image.pointer = 4096;
    image.slot = slot_at(4096, [0; DESCRIPTOR_SIZE]);
    image.kept = Kept {
        address: 4128,
        source: 4200,
        destination: 4224,
        length,
        control: 0xA9,
        ..Kept::default()
    };
}

fn fail(image: &mut Image, code: u8, address: u32) {
    image.phase = Faulted as u8;
    image.status &= !BUSY;
    (image.fault, image.fault_address) = (code, address);
    image.kept = Kept::default();
    image.slot = Slot::default();
}

#[rustfmt::skip]
const FIRST_STEPS: [Step; 14] = [
    Step { name: "Rest with RUN 1 becomes busy and fetches",
        phase: Rest, image_after: |i| (i.phase, i.status) = (1, BUSY), ..STEP },
    Step { name: "Rest with RUN 0 takes no step",
        phase: Rest, given: |i| i.control = 0, told: (Reason::Rest, 0, 0), ..STEP },
    Step { name: "Fetch with RUN 0 rests, and that is a step",
        given: |i| i.control = 0, memory: |m| lay(m, 4),
        image_after: |i| (i.phase, i.status) = (0, 0), told: (Reason::Rest, 1, 0), ..STEP },
    Step { name: "misaligned comes before outside",
        given: |i| i.pointer = 4090, image_after: |i| fail(i, 10, 4090),
        told: (Reason::Faulted, 1, 0), ..STEP },
    Step { name: "a pointer below the window is outside",
        given: |i| i.pointer = 4092, image_after: |i| fail(i, 11, 4092),
        told: (Reason::Faulted, 1, 0), ..STEP },
    Step { name: "a descriptor that ends beyond the window is outside",
        given: |i| i.pointer = 4324, image_after: |i| fail(i, 11, 4324),
        told: (Reason::Faulted, 1, 0), ..STEP },
    Step { name: "unowned ends the chain, BUSY and pointer stay",
        memory: |m| { lay(m, 4); m[63] = 0x7F }, image_after: |i| (i.phase, i.status) = (4, 0x18),
        told: (Reason::Ended, 1, 0), ..STEP },
    Step { name: "unowned comes before length 0",
        mode: M0, memory: |m| { lay(m, 0); m[63] = 0x7F },
        image_after: |i| (i.phase, i.status) = (4, 0x18), told: (Reason::Ended, 1, 0), ..STEP },
    Step { name: "the end of the chain pends under IE_CHAIN",
        given: |i| i.control = RUN | 8,
        image_after: |i| (i.phase, i.status, i.pending) = (4, 0x18, true),
        told: (Reason::Ended, 1, 0), ..STEP },
    Step { name: "the end of the chain pends under nothing else",
        given: |i| i.control = RUN | 0xFF97, image_after: |i| (i.phase, i.status) = (4, 0x18),
        told: (Reason::Ended, 1, 0), ..STEP },
    Step { name: "length 0 is a fault in mode 1",
        mode: M1, memory: |m| lay(m, 0), image_after: |i| fail(i, 12, 4128),
        told: (Reason::Faulted, 1, 0), ..STEP },
    Step { name: "length 0 is kept as 0 in mode 2",
        memory: |m| lay(m, 0), image_after: |i| keep(i, 0), told: (Reason::NeedsInput, 1, 0),
        ..STEP },
    Step { name: "the destination is kept in mode 1 too",
        mode: M1, memory: |m| lay(m, 9), room: 1, image_after: |i| keep(i, 9), ..STEP },
    Step { name: "Fetch keeps what it reads, and reserved bytes do nothing",
        mode: M0, memory: |m| { lay(m, 9); m[36..40].fill(0xEE); m[58..63].fill(0xEE) },
        image_after: |i| keep(i, 9), ..STEP },
];

#[rustfmt::skip]
const MOVES: [Step; 16] = [
    Step { name: "source outside comes before destination outside",
        mode: M0, phase: Move, given: |i| (i.kept.source, i.kept.destination) = (4351, 0),
        image_after: |i| fail(i, 13, 4352), told: (Reason::Faulted, 1, 0), ..STEP },
    Step { name: "destination outside",
        mode: M0, phase: Move, given: |i| i.kept.destination = 4094,
        image_after: |i| fail(i, 14, 4095), told: (Reason::Faulted, 1, 0), ..STEP },
    Step { name: "the address of a fault is taken modulo 2^32",
        mode: M0, phase: Move, given: |i| i.kept.source = u32::MAX, image_after: |i| fail(i, 13, 0),
        told: (Reason::Faulted, 1, 0), ..STEP },
    Step { name: "a fault keeps status, count, pending, control and pointer",
        mode: M2, phase: Move,
        given: |i| {
            (i.status, i.count, i.pending, i.control) = (0x1F, 9, true, 0x2_FFFF);
            i.kept.destination = 0
        },
        beats: &[0x0101], image_after: |i| fail(i, 14, 1), told: (Reason::Faulted, 1, 0), ..STEP },
    Step { name: "source outside comes before no room",
        mode: M1, phase: Move, given: |i| i.kept.source = 0, image_after: |i| fail(i, 13, 1),
        told: (Reason::Faulted, 1, 0), ..STEP },
    Step { name: "no room, no step",
        mode: M1, phase: Move, told: (Reason::OutputFull, 0, 0), ..STEP },
    Step { name: "no beat comes before destination outside",
        phase: Move, given: |i| i.kept.destination = 0, told: (Reason::NeedsInput, 0, 0), ..STEP },
    Step { name: "RUN 0 does not stop Move",
        mode: M0, phase: Move, given: |i| i.control = 0, memory: |m| m[105] = 0x5A,
        image_after: |i| i.kept.moved = 2, memory_after: |m| m[129] = 0x5A, ..STEP },
    Step { name: "READ_FIXED reads at the source",
        mode: M0, phase: Move, given: |i| i.kept.control = 0x82, memory: |m| m[104] = 0x5A,
        image_after: |i| i.kept.moved = 2, memory_after: |m| m[129] = 0x5A, ..STEP },
    Step { name: "WRITE_FIXED writes at the destination",
        mode: M0, phase: Move, given: |i| i.kept.control = 0x84, memory: |m| m[105] = 0x5A,
        image_after: |i| i.kept.moved = 2, memory_after: |m| m[128] = 0x5A, ..STEP },
    Step { name: "a later byte has no SOP, and EOP comes on the last",
        mode: M1, phase: Move, room: 1, given: |i| (i.kept.control, i.kept.length) = (0x85, 2),
        memory: |m| m[105] = 0x5A, image_after: |i| (i.phase, i.kept.moved) = (3, 2),
        made: &[0x015A], ..STEP },
    Step { name: "the first byte has SOP under WRITE_FIXED only",
        mode: M1, phase: Move, room: 1, given: |i| (i.kept.control, i.kept.moved) = (0x83, 0),
        memory: |m| m[104] = 0x5A, image_after: |i| i.kept.moved = 1, made: &[0x005A],
        told: (Reason::OutputFull, 1, 0), ..STEP },
    Step { name: "errors are gathered, and STOP_DMA_ER waits for the end",
        phase: Move, beats: &[0x845A],
        given: |i| { i.control = RUN | STOP_DMA_ER; i.kept.errors = 0x11 },
        image_after: |i| (i.kept.moved, i.kept.errors) = (2, 0x53), memory_after: |m| m[129] = 0x5A,
        told: (Reason::NeedsInput, 1, 1), ..STEP },
    Step { name: "an early EOP ends the descriptor",
        phase: Move, beats: &[0x015A, 0x0066],
        image_after: |i| (i.phase, i.kept.moved, i.kept.eop_seen) = (3, 2, true),
        memory_after: |m| m[129] = 0x5A, told: (Reason::Budget, 1, 1), ..STEP },
    Step { name: "EOP is seen on byte L too",
        phase: Move, beats: &[0x015A], given: |i| i.kept.moved = 3,
        image_after: |i| (i.phase, i.kept.moved, i.kept.eop_seen) = (3, 4, true),
        memory_after: |m| m[131] = 0x5A, told: (Reason::Budget, 1, 1), ..STEP },
    Step { name: "length 0 ends with byte 65,535",
        phase: Move, beats: &[0x005A],
        given: |i| (i.kept.length, i.kept.moved, i.kept.control) = (0, 65_534, 0x84),
        image_after: |i| (i.phase, i.kept.moved) = (3, 65_535), memory_after: |m| m[128] = 0x5A,
        told: (Reason::Budget, 1, 1), ..STEP },
];

/// The descriptor at 4096 is done: 4 bytes, these errors and this control byte.
fn done(memory: &mut [u8], errors: u8, control: u8) {
    memory[28..32].copy_from_slice(&[4, 0, errors, control]);
}

/// WriteBack drops what was kept and goes to this phase with this status. Only
/// Fetch finds the slot as it was.
fn leave(image: &mut Image, phase: Phase, status: u8) {
    image.kept = Kept::default();
    if phase != Fetch {
        image.slot = Slot::default();
    }
    image.phase = phase as u8;
    image.status = status;
}

const WRITTEN: Step = Step {
    phase: WriteBack,
    image_after: |i| leave(i, Fetch, 0x14),
    memory_after: |m| done(m, 0, 0),
    recorded: Some(record(0, 4096, [0, 4, 0, 0])),
    ..STEP
};

#[rustfmt::skip]
const WRITE_BACKS: [Step; 16] = [
    Step { name: "WriteBack fetches next",
        ..WRITTEN },
    Step { name: "only the last four bytes are written, control as fetched",
        memory: |m| m[..32].fill(0xFF), given: |i| i.kept.control = 0xBD,
        memory_after: |m| done(m, 0, 0x3D), ..WRITTEN },
    Step { name: "PARK keeps OWNED",
        given: |i| i.control |= PARK, memory_after: |m| done(m, 0, 0x80), ..WRITTEN },
    Step { name: "RUN 0 rests",
        given: |i| i.control = 0, image_after: |i| leave(i, Rest, 0x04), told: (Reason::Rest, 1, 0),
        ..WRITTEN },
    Step { name: "errors set ERROR and go on without STOP_DMA_ER",
        given: |i| i.kept.errors = 0x7F, image_after: |i| leave(i, Fetch, 0x15),
        memory_after: |m| done(m, 0x7F, 0), recorded: Some(record(0, 4096, [0, 4, 0x7F, 0])),
        ..WRITTEN },
    Step { name: "errors with STOP_DMA_ER halt",
        given: |i| { i.kept.errors = 1; i.control |= STOP_DMA_ER },
        image_after: |i| leave(i, Halted, 0x05), memory_after: |m| done(m, 1, 0),
        told: (Reason::Halted, 1, 0), recorded: Some(record(0, 4096, [0, 4, 1, 0])), ..WRITTEN },
    Step { name: "RUN 0 comes before STOP_DMA_ER",
        given: |i| { i.kept.errors = 1; i.control = STOP_DMA_ER },
        image_after: |i| leave(i, Rest, 0x05), memory_after: |m| done(m, 1, 0),
        told: (Reason::Rest, 1, 0), recorded: Some(record(0, 4096, [0, 4, 1, 0])), ..WRITTEN },
    Step { name: "EOP sets EOP_ENCOUNTERED",
        given: |i| i.kept.eop_seen = true, image_after: |i| leave(i, Fetch, 0x16),
        recorded: Some(record(0, 4096, [0, 4, 0, 1])), ..WRITTEN },
    Step { name: "no event pends under the enable of another",
        given: |i| i.control |= 0x9B, image_after: |i| leave(i, Fetch, 0x14), ..WRITTEN },
    Step { name: "an event pends again where its bit is 1, without IE_GLOBAL",
        given: |i| { i.status |= 4; i.control |= 4 },
        image_after: |i| { leave(i, Fetch, 0x14); i.pending = true }, ..WRITTEN },
    Step { name: "errors pend under IE_ERROR",
        given: |i| { i.kept.errors = 2; i.control |= 1 },
        image_after: |i| { leave(i, Fetch, 0x15); i.pending = true },
        memory_after: |m| done(m, 2, 0), recorded: Some(record(0, 4096, [0, 4, 2, 0])), ..WRITTEN },
    Step { name: "EOP pends under IE_EOP",
        given: |i| { i.kept.eop_seen = true; i.control |= 2 },
        image_after: |i| { leave(i, Fetch, 0x16); i.pending = true },
        recorded: Some(record(0, 4096, [0, 4, 0, 1])), ..WRITTEN },
    Step { name: "the count goes up below MAX",
        given: |i| { i.count = 1; i.control |= 0x0380 },
        image_after: |i| { leave(i, Fetch, 0x14); i.count = 2 }, ..WRITTEN },
    Step { name: "MAX reached pends under IE_MAX",
        given: |i| { i.count = 2; i.control |= 0x0380 },
        image_after: |i| { leave(i, Fetch, 0x14); (i.count, i.pending) = (0, true) }, ..WRITTEN },
    Step { name: "MAX passed zeroes the count without IE_MAX",
        given: |i| { i.count = 254; i.control |= 0x0300 },
        image_after: |i| { leave(i, Fetch, 0x14); i.count = 0 }, ..WRITTEN },
    Step { name: "MAX 0 zeroes the count and pends nothing",
        given: |i| { i.count = 5; i.control |= 0x80 },
        image_after: |i| { leave(i, Fetch, 0x14); i.count = 0 }, ..WRITTEN },
];

/// The machine's run number is that of the record, and the step leaves it.
#[rustfmt::skip]
const DATES: [Step; 8] = [
    Step { name: "a date has the most significant byte first",
        given: |i| i.run_number = 0x0102_0304,
        recorded: Some([1, 2, 3, 4, 0, 0, 0x10, 0, 0, 4, 0, 0]), ..WRITTEN },
    Step { name: "a machine that has counted no run dates with 0",
        given: |i| i.run_number = 0, ..WRITTEN },
    Step { name: "the first run is 1",
        given: |i| i.run_number = 1, recorded: Some(record(1, 4096, [0, 4, 0, 0])), ..WRITTEN },
    Step { name: "the largest number is a date",
        given: |i| i.run_number = u32::MAX, recorded: Some(record(u32::MAX, 4096, [0, 4, 0, 0])),
        ..WRITTEN },
    Step { name: "in mode 0, and under PARK",
        mode: M0, given: |i| { i.run_number = 7; i.control |= PARK },
        memory_after: |m| done(m, 0, 0x80), recorded: Some(record(7, 4096, [0, 4, 0, 0])),
        ..WRITTEN },
    Step { name: "in mode 1, and armed",
        mode: M1, given: |i| { i.run_number = 7; arm(i) },
        recorded: Some(record(7, 4096, [0, 4, 0, 0])), ..WRITTEN },
    Step { name: "RUN 0 at the write-back: the run that was",
        given: |i| { i.run_number = 7; i.control = 0 }, image_after: |i| leave(i, Rest, 0x04),
        told: (Reason::Rest, 1, 0), recorded: Some(record(7, 4096, [0, 4, 0, 0])), ..WRITTEN },
    Step { name: "errors and EOP stand beside the date",
        given: |i| { i.run_number = 0x0101_0000; i.kept.errors = 3; i.kept.eop_seen = true },
        image_after: |i| leave(i, Fetch, 0x17), memory_after: |m| done(m, 3, 0),
        recorded: Some(record(0x0101_0000, 4096, [0, 4, 3, 1])), ..WRITTEN },
];

#[rustfmt::skip]
const RECORDS: [Step; 6] = [
    Step { name: "a record has the most significant byte first",
        given: |i| { i.kept.length = 0x0304; i.kept.moved = 0x0102; i.kept.eop_seen = true;
                     i.kept.errors = 0x55 },
        image_after: |i| leave(i, Fetch, 0x17),
        memory_after: |m| m[28..32].copy_from_slice(&[2, 1, 0x55, 0]),
        recorded: Some(record(0, 4096, [1, 2, 0x55, 1])), ..WRITTEN },
    Step { name: "a record has the address on the bus, of the descriptor itself",
        given: |i| i.kept.address = 4128, memory_after: |m| done(&mut m[32..], 0, 0),
        recorded: Some([0, 0, 0, 0, 0, 0, 0x10, 0x20, 0, 4, 0, 0]), ..WRITTEN },
    Step { name: "length 0 is recorded as the bytes that were moved",
        given: |i| (i.kept.length, i.kept.moved) = (0, 65_535),
        memory_after: |m| m[28..32].copy_from_slice(&[0xFF, 0xFF, 0, 0]),
        recorded: Some(record(0, 4096, [0xFF, 0xFF, 0, 0])), ..WRITTEN },
    Step { name: "a record is made in mode 0",
        mode: M0, ..WRITTEN },
    Step { name: "a generated EOP is not recorded",
        mode: M1, given: |i| i.kept.control = 0x81, memory_after: |m| done(m, 0, 1), ..WRITTEN },
    Step { name: "a parked descriptor is recorded with errors and EOP",
        given: |i| { i.control |= PARK; i.kept.errors = 3; i.kept.eop_seen = true },
        image_after: |i| leave(i, Fetch, 0x17), memory_after: |m| done(m, 3, 0x80),
        recorded: Some(record(0, 4096, [0, 4, 3, 1])), ..WRITTEN },
];

/// A step that finds no room for a record.
const FULL: Step = Step {
    phase: WriteBack,
    record_room: 0,
    told: (Reason::LedgerFull, 0, 0),
    ..STEP
};

#[rustfmt::skip]
const FULL_LEDGERS: [Step; 12] = [
    Step { name: "no room for a record, no step",
        ..FULL },
    Step { name: "in mode 0 too",
        mode: M0, ..FULL },
    Step { name: "and in mode 1",
        mode: M1, ..FULL },
    Step { name: "LedgerFull comes before RUN 0",
        given: |i| i.control = 0, ..FULL },
    Step { name: "LedgerFull comes before errors and STOP_DMA_ER",
        given: |i| { i.kept.errors = 1; i.control |= STOP_DMA_ER }, ..FULL },
    Step { name: "PARK needs room too",
        given: |i| i.control |= PARK, ..FULL },
    Step { name: "LedgerFull comes before Budget, of which there is none",
        budget: 0, ..FULL },
    Step { name: "with room it is Budget",
        record_room: 1, budget: 0, told: (Reason::Budget, 0, 0), ..FULL },
    Step { name: "LedgerFull comes before Budget, which the last byte has spent",
        phase: Move, given: |i| i.kept.moved = 3, beats: &[0x005A],
        image_after: |i| (i.phase, i.kept.moved) = (3, 4), memory_after: |m| m[131] = 0x5A,
        told: (Reason::LedgerFull, 1, 1), ..FULL },
    Step { name: "a byte before the last needs no room for a record",
        mode: M0, phase: Move, image_after: |i| i.kept.moved = 2, told: (Reason::Budget, 1, 0),
        ..FULL },
    Step { name: "Fetch needs none",
        phase: Fetch, memory: |m| lay(m, 4), image_after: |i| keep(i, 4),
        told: (Reason::NeedsInput, 1, 0), ..FULL },
    Step { name: "nor does leaving Rest",
        phase: Rest, image_after: |i| (i.phase, i.status) = (1, BUSY),
        told: (Reason::Budget, 1, 0), ..FULL },
];

/// "On the step that fetches an owned descriptor, also read the next one into a
/// slot".
#[rustfmt::skip]
const READ_AHEAD: [Step; 6] = [
    Step { name: "the next descriptor is read with every byte it has",
        memory: |m| { m[..32].fill(0x5A); lay(m, 4) },
        image_after: |i| { keep(i, 4); i.slot.bytes = [0x5A; 32] },
        told: (Reason::NeedsInput, 1, 0), ..STEP },
    Step { name: "in mode 0 too",
        mode: M0, memory: |m| { m[..32].fill(0xA5); lay(m, 4) },
        image_after: |i| { keep(i, 4); i.slot.bytes = [0xA5; 32] }, ..STEP },
    Step { name: "a misaligned address is kept, and is no fault yet",
        mode: M1, room: 1, memory: |m| { lay(m, 4); put(m, 48, 4098) },
        image_after: |i| { keep(i, 4); i.pointer = 4098;
                           i.slot = bad_slot(SlotKind::Misaligned, 4098) }, ..STEP },
    Step { name: "an address outside is kept, and is no fault yet",
        mode: M0, memory: |m| { lay(m, 4); put(m, 48, 4324) },
        image_after: |i| { keep(i, 4); i.pointer = 4324;
                           i.slot = bad_slot(SlotKind::Outside, 4324) }, ..STEP },
    Step { name: "misaligned comes before outside there too",
        mode: M0, memory: |m| { lay(m, 4); put(m, 48, 3) },
        image_after: |i| { keep(i, 4); i.pointer = 3;
                           i.slot = bad_slot(SlotKind::Misaligned, 3) }, ..STEP },
    Step { name: "one that links to itself is in hand and in the slot",
        mode: M0, memory: |m| { lay(m, 4); put(m, 48, 4128) },
        image_after: |i| { keep(i, 4); i.pointer = 4128; i.slot = laid(4);
                           i.slot.bytes[16] = 0x20 }, ..STEP },
];

/// "the next Fetch uses the slot instead of memory"
#[rustfmt::skip]
const FROM_SLOT: [Step; 9] = [
    Step { name: "a descriptor that memory no longer has is kept from the slot",
        given: |i| i.slot = laid(4), image_after: |i| keep(i, 4),
        told: (Reason::NeedsInput, 1, 0), ..STEP },
    Step { name: "unowned in the slot ends the chain, though memory says owned",
        given: |i| i.slot = laid_as(4, 0x7F), memory: |m| lay(m, 4),
        image_after: |i| { (i.phase, i.status) = (4, 0x18); i.slot = Slot::default() },
        told: (Reason::Ended, 1, 0), ..STEP },
    Step { name: "what follows is read from memory as it is now",
        mode: M0, given: |i| i.slot = laid(4), memory: |m| m[..32].fill(0x11),
        image_after: |i| { keep(i, 4); i.slot.bytes = [0x11; 32] }, ..STEP },
    Step { name: "length 0 in the slot is fault 12",
        mode: M0, given: |i| i.slot = laid(0), memory: |m| lay(m, 4),
        image_after: |i| fail(i, 12, 4128), told: (Reason::Faulted, 1, 0), ..STEP },
    Step { name: "fault 10 is met at its own Fetch",
        given: |i| { i.pointer = 4130; i.slot = bad_slot(SlotKind::Misaligned, 4130) },
        image_after: |i| fail(i, 10, 4130), told: (Reason::Faulted, 1, 0), ..STEP },
    Step { name: "and fault 11",
        given: |i| { i.pointer = 4324; i.slot = bad_slot(SlotKind::Outside, 4324) },
        image_after: |i| fail(i, 11, 4324), told: (Reason::Faulted, 1, 0), ..STEP },
    Step { name: "RUN 0 comes before a fault in the slot",
        given: |i| { (i.control, i.pointer) = (0, 4324); i.slot = bad_slot(SlotKind::Outside, 4324) },
        image_after: |i| { (i.phase, i.status) = (0, 0); i.slot = Slot::default() },
        told: (Reason::Rest, 1, 0), ..STEP },
    Step { name: "RUN 0 comes before a descriptor in the slot",
        given: |i| { i.control = 0; i.slot = laid(4) },
        image_after: |i| { (i.phase, i.status) = (0, 0); i.slot = Slot::default() },
        told: (Reason::Rest, 1, 0), ..STEP },
    Step { name: "no step, and the slot stays",
        given: |i| i.slot = laid(4), budget: 0, told: (Reason::Budget, 0, 0), ..STEP },
];

/// What a slot does while another descriptor is moved and written back.
#[rustfmt::skip]
const BESIDE_SLOT: [Step; 9] = [
    Step { name: "data over the descriptor in the slot leaves the slot",
        phase: Move, given: |i| { i.kept.destination = 4127; i.slot = laid(4) }, beats: &[0x005A],
        memory: |m| lay(m, 4), image_after: |i| i.kept.moved = 2, memory_after: |m| m[32] = 0x5A,
        told: (Reason::NeedsInput, 1, 1), ..STEP },
    Step { name: "no beat, no step, and the slot stays",
        phase: Move, given: |i| i.slot = laid(4), told: (Reason::NeedsInput, 0, 0), ..STEP },
    Step { name: "a fault of a byte empties the slot",
        phase: Move, given: |i| { i.kept.destination = 0; i.slot = laid(4) }, beats: &[0],
        image_after: |i| fail(i, 14, 1), told: (Reason::Faulted, 1, 0), ..STEP },
    Step { name: "Fetch finds the slot that WriteBack had",
        given: |i| i.slot = laid(4), ..WRITTEN },
    Step { name: "a bad address too",
        given: |i| { i.pointer = 3; i.slot = bad_slot(SlotKind::Misaligned, 3) }, ..WRITTEN },
    Step { name: "the write-back of one that links to itself leaves the slot",
        given: |i| { i.kept.address = 4128; i.slot = laid(4) },
        memory: |m| lay(m, 4), memory_after: |m| done(&mut m[32..], 0, 0),
        recorded: Some(record(0, 4128, [0, 4, 0, 0])), ..WRITTEN },
    Step { name: "Rest empties the slot",
        given: |i| { i.control = 0; i.slot = laid(4) }, image_after: |i| leave(i, Rest, 0x04),
        told: (Reason::Rest, 1, 0), ..WRITTEN },
    Step { name: "Halted empties the slot",
        given: |i| { i.kept.errors = 1; i.control |= STOP_DMA_ER; i.slot = laid(4) },
        image_after: |i| leave(i, Halted, 0x05), memory_after: |m| done(m, 1, 0),
        told: (Reason::Halted, 1, 0), recorded: Some(record(0, 4096, [0, 4, 1, 0])), ..WRITTEN },
    Step { name: "no room for a record, and the slot stays",
        given: |i| { i.control = 0; i.slot = laid(4) }, ..FULL },
];

/// The ledger before and after a step. Behind one used record, of any bytes, there
/// is the room, of any bytes as well.
fn ledgers(step: &Step) -> [Vec<u8>; 2] {
    let before = vec![0x5E; RECORD_SIZE * (1 + step.record_room)];
    let mut after = before.clone();
    if let Some(record) = step.recorded {
        after[RECORD_SIZE..2 * RECORD_SIZE].copy_from_slice(&record);
    }
    [before, after]
}

/// The report of a step.
fn report(step: &Step) -> Vec<u8> {
    let (reason, steps, taken) = step.told;
    let mut report = vec![0, reason as u8];
    let used = 1 + u32::from(step.recorded.is_some());
    for number in [steps, taken, step.made.len() as u32, used] {
        report.extend(number.to_be_bytes());
    }
    report
}

/// The call of a step, and what it must have become.
fn call_and_outcome(step: &Step) -> (Call, Call) {
    let mut before = image(step.mode, step.phase);
    (step.given)(&mut before);
    let mut after = before;
    (step.image_after)(&mut after);
    let mut memory = vec![0; LENGTH];
    (step.memory)(&mut memory);
    let mut memory_after = memory.clone();
    (step.memory_after)(&mut memory_after);
    let mut out_after = vec![0; 2 * step.room];
    out_after[..2 * step.made.len()].copy_from_slice(&stream(step.made));
    let [ledger, ledger_after] = ledgers(step);
    let run = |image: Image, [memory, out, ledger, report]: [Vec<u8>; 4]| Call::Run {
        image: Lent::from(image.pack().to_vec()),
        window: Lent::from(memory),
        beats: Lent::from(stream(step.beats)),
        out: Lent::from(out),
        ledger: Lent::from(ledger),
        used: 1,
        budget: step.budget,
        report: Lent::from(report),
    };
    let (out, no_report) = (vec![0; 2 * step.room], vec![0; REPORT_SIZE]);
    (
        run(before, [memory, out, ledger, no_report]),
        run(after, [memory_after, out_after, ledger_after, report(step)]),
    )
}

fn check_steps(steps: &[Step]) {
    for party in parties() {
        for step in steps {
            let (call, outcome) = call_and_outcome(step);
            let answer = ask(party.as_ref(), &call);
            let found = (answer.returned, answer.after);
            assert_eq!(found, (0, outcome), "{}: {}", party.name(), step.name);
        }
    }
}

#[test]
fn rest_and_fetch() {
    check_steps(&FIRST_STEPS);
}

#[test]
fn moves() {
    check_steps(&MOVES);
}

#[test]
fn write_backs() {
    check_steps(&WRITE_BACKS);
}

#[test]
fn records() {
    check_steps(&RECORDS);
}

#[test]
fn dates() {
    check_steps(&DATES);
}

#[test]
fn full_ledgers() {
    check_steps(&FULL_LEDGERS);
}

#[test]
fn reading_ahead() {
    check_steps(&READ_AHEAD);
}

#[test]
fn fetches_from_the_slot() {
    check_steps(&FROM_SLOT);
}

#[test]
fn steps_beside_the_slot() {
    check_steps(&BESIDE_SLOT);
}

/// A register write on an image, and what it changes.
#[derive(Clone, Copy)]
struct Write {
    name: &'static str,
    phases: &'static [Phase],
    given: EditImage,
    offset: u32,
    value: u32,
    after: EditImage,
}

/// A write of RUN alone that changes nothing, in any phase.
const WRITE: Write = Write {
    name: "",
    phases: &ALL,
    given: |_| (),
    offset: offset::CONTROL,
    value: RUN,
    after: |_| (),
};

const MOVING: [Phase; 4] = [Rest, Fetch, Move, WriteBack];
const ALL: [Phase; 7] = Phase::ALL;

/// A machine after reset: only mode, window and run number stay.
fn fresh(image: &mut Image) {
    let before = *image;
    *image = harness::samples::image(M2, Rest);
    (image.mode, image.run_number) = (before.mode, before.run_number);
    (image.base, image.window_length) = (before.base, before.window_length);
    (image.control, image.pointer) = (0, 0);
}

/// Bit 16 is 1: an image calls it armed.
fn arm(image: &mut Image) {
    image.armed = true;
    image.control |= SW_RESET;
}

#[rustfmt::skip]
const WRITES: [Write; 17] = [
    Write { name: "writing 1 clears bits 0 to 3",
        given: |i| i.status |= 0x0F, offset: offset::STATUS, value: 0x05,
        after: |i| i.status &= !0x05, ..WRITE },
    Write { name: "other written bits do nothing",
        given: |i| { i.status |= 0x0F; i.pending = true }, offset: offset::STATUS,
        value: 0xFFFF_FFF0, ..WRITE },
    Write { name: "the pointer may be written in any phase",
        offset: offset::NEXT_DESCRIPTOR_POINTER, value: 0xFFFF_FFFF,
        after: |i| i.pointer = 0xFFFF_FFFF, ..WRITE },
    Write { name: "bits 0 to 17 are stored, bits 18 to 30 are not",
        value: 0x7FFE_FFFF, after: |i| i.control = 0x2_FFFF, ..WRITE },
    Write { name: "bit 31 clears the pending interrupt",
        given: |i| i.pending = true, value: 0x8000_0020, after: |i| i.pending = false, ..WRITE },
    Write { name: "without bit 31 it stays",
        given: |i| i.pending = true, ..WRITE },
    Write { name: "the first write of bit 16 arms and is a write like any other",
        given: |i| (i.pending, i.count) = (true, 7), value: 0x8001_0120,
        after: |i| { i.control = 0x120; i.pending = false; arm(i) }, ..WRITE },
    Write { name: "the second resets and ignores the rest",
        given: |i| { arm(i); (i.pending, i.count) = (true, 7); i.status |= 0x0F },
        value: 0x8003_FFFF, after: fresh, ..WRITE },
    Write { name: "writing bit 16 as 0 disarms",
        given: arm, after: |i| (i.control, i.armed) = (RUN, false), ..WRITE },
    Write { name: "RUN going 0 to 1 zeroes the count",
        phases: &MOVING, given: |i| (i.control, i.count) = (0, 7),
        after: |i| (i.control, i.count, i.run_number) = (RUN, 0, 1), ..WRITE },
    Write { name: "in Faulted too",
        phases: &[Faulted], given: |i| (i.control, i.count) = (0, 7),
        after: |i| (i.control, i.count, i.run_number) = (RUN, 0, 1), ..WRITE },
    Write { name: "RUN staying 1 does not",
        given: |i| i.count = 7, value: RUN | 1, after: |i| i.control = RUN | 1, ..WRITE },
    Write { name: "RUN going 1 to 0 does not",
        phases: &MOVING, given: |i| i.count = 7, value: 0, after: |i| i.control = 0, ..WRITE },
    Write { name: "RUN 0 in Ended goes to Rest with BUSY 0",
        phases: &[Ended], given: |i| (i.status, i.count) = (0x1F, 7), value: 0,
        after: |i| (i.control, i.phase, i.status) = (0, 0, 0x0F), ..WRITE },
    Write { name: "and in Halted",
        phases: &[Halted], given: |i| (i.status, i.count) = (0x0F, 7), value: 0,
        after: |i| (i.control, i.phase) = (0, 0), ..WRITE },
    Write { name: "only reset leaves Faulted",
        phases: &[Faulted], value: 0, after: |i| i.control = 0, ..WRITE },
    Write { name: "RUN 0 with bit 16 leaves Ended armed",
        phases: &[Ended, Halted], given: |i| i.count = 7, value: SW_RESET,
        after: |i| { (i.control, i.phase, i.status) = (0, 0, 0); arm(i) }, ..WRITE },
];

/// The same where a descriptor is in the slot.
const HELD: Write = Write {
    phases: &[Fetch, Move, WriteBack],
    given: |i| i.slot = laid(4),
    ..WRITE
};

/// "a host pointer write" and a reset empty the slot; nothing else that a host
/// writes does.
#[rustfmt::skip]
const SLOT_WRITES: [Write; 8] = [
    Write { name: "a pointer write empties the slot",
        offset: offset::NEXT_DESCRIPTOR_POINTER, value: 4160,
        after: |i| { i.pointer = 4160; i.slot = Slot::default() }, ..HELD },
    Write { name: "of the number that is there too",
        offset: offset::NEXT_DESCRIPTOR_POINTER, value: 4128, after: |i| i.slot = Slot::default(),
        ..HELD },
    Write { name: "a bad address goes as well",
        given: |i| { i.pointer = 4090; i.slot = bad_slot(SlotKind::Misaligned, 4090) },
        offset: offset::NEXT_DESCRIPTOR_POINTER, value: 4090, after: |i| i.slot = Slot::default(),
        ..HELD },
    Write { name: "RUN cleared leaves the slot",
        value: 0, after: |i| i.control = 0, ..HELD },
    Write { name: "RUN set again leaves the slot, and a run is counted",
        given: |i| { i.control = 0; i.slot = laid(4) },
        after: |i| (i.control, i.run_number) = (RUN, 1), ..HELD },
    Write { name: "a status write leaves the slot",
        given: |i| { i.status |= 4; i.slot = laid(4) }, offset: offset::STATUS, value: u32::MAX,
        after: |i| i.status = BUSY, ..HELD },
    Write { name: "the arming write leaves the slot",
        value: SW_RESET | RUN, after: arm, ..HELD },
    Write { name: "a reset empties the slot",
        given: |i| { arm(i); i.slot = laid(4) }, value: SW_RESET, after: fresh, ..HELD },
];

const RISING: [Phase; 5] = [Rest, Fetch, Move, WriteBack, Faulted];

/// "The run number rises by 1 whenever RUN goes 0 to 1, stays at its largest value
/// and outlives a reset."
#[rustfmt::skip]
const RUN_WRITES: [Write; 8] = [
    Write { name: "RUN going 0 to 1 counts a run",
        phases: &RISING, given: |i| (i.control, i.run_number) = (0, 0xFFFF),
        after: |i| (i.control, i.run_number) = (RUN, 0x1_0000), ..WRITE },
    Write { name: "in the write that arms too",
        phases: &RISING, given: |i| (i.control, i.run_number) = (0, 7), value: RUN | SW_RESET,
        after: |i| { (i.control, i.run_number) = (RUN, 8); arm(i) }, ..WRITE },
    Write { name: "the largest number is reached",
        phases: &RISING, given: |i| (i.control, i.run_number) = (0, u32::MAX - 1),
        after: |i| (i.control, i.run_number) = (RUN, u32::MAX), ..WRITE },
    Write { name: "and stays",
        phases: &RISING, given: |i| (i.control, i.run_number) = (0, u32::MAX),
        after: |i| i.control = RUN, ..WRITE },
    Write { name: "RUN staying 1 counts none",
        given: |i| i.run_number = 7, value: RUN | 2, after: |i| i.control = RUN | 2, ..WRITE },
    Write { name: "RUN going 1 to 0 counts none",
        phases: &RISING, given: |i| i.run_number = 7, value: 0, after: |i| i.control = 0, ..WRITE },
    Write { name: "a reset keeps the number",
        given: |i| { arm(i); i.run_number = 7 }, value: SW_RESET, after: fresh, ..WRITE },
    Write { name: "and counts none, though RUN is written over a 0",
        phases: &RISING, given: |i| { i.control = 0; arm(i); i.run_number = 7 },
        value: SW_RESET | RUN, after: fresh, ..WRITE },
];

#[test]
fn register_writes() {
    let writes = [WRITES.as_slice(), &SLOT_WRITES, &RUN_WRITES].concat();
    for party in parties() {
        for write in &writes {
            for &phase in write.phases {
                let mut before = image(M2, phase);
                (write.given)(&mut before);
                let mut after = before;
                (write.after)(&mut after);
                let call = |image: Image| Call::WriteRegister {
                    image: Lent::from(image.pack().to_vec()),
                    offset: write.offset,
                    value: write.value,
                };
                let answer = ask(party.as_ref(), &call(before));
                let found = (answer.returned, answer.after);
                let name = write.name;
                assert_eq!(
                    found,
                    (0, call(after)),
                    "{}: {name}, {phase:?}",
                    party.name()
                );
            }
        }
    }
}

/// "Reading changes nothing." Each register reads what the image holds.
#[test]
fn register_reads() {
    for party in parties() {
        let mut held = image(M2, Ended);
        (held.status, held.pointer, held.control) = (0x1B, 0x0102_0304, 0x2_5AF9);
        for (offset, value) in [
            (0, [0, 0, 0, 0x1B]),
            (4, [0, 2, 0x5A, 0xF9]),
            (8, [1, 2, 3, 4]),
        ] {
            let call = |value: [u8; VALUE_SIZE]| Call::ReadRegister {
                image: Lent::from(held.pack().to_vec()),
                offset,
                value: Lent::from(value.to_vec()),
            };
            let answer = ask(party.as_ref(), &call([0xEE; VALUE_SIZE]));
            assert_eq!((answer.returned, answer.after), (0, call(value)));
        }
    }
}

/// "The line is up exactly when an interrupt is pending and IE_GLOBAL is 1."
fn check_line(party: &dyn Party, pending: bool, control: u32, line: u8) {
    let mut held = image(M2, Ended);
    (held.pending, held.control) = (pending, control);
    let call = |value: [u8; VALUE_SIZE]| Call::Line {
        image: Lent::from(held.pack().to_vec()),
        value: Lent::from(value.to_vec()),
    };
    let answer = ask(party, &call([0xEE; VALUE_SIZE]));
    let expected = (0, call([0, 0, 0, line]));
    assert_eq!(
        (answer.returned, answer.after),
        expected,
        "{}",
        party.name()
    );
}

#[test]
fn the_line() {
    for party in parties() {
        check_line(party.as_ref(), true, RUN | 0x10, 1);
        check_line(party.as_ref(), true, RUN | 0xFFEF, 0);
        check_line(party.as_ref(), false, RUN | 0xFFFF, 0);
        check_line(party.as_ref(), false, RUN, 0);
    }
}

/// The samples stand where this file believes they do.
#[test]
fn the_samples_are_known() {
    let sample = image(M0, Move);
    assert_eq!((sample.base, sample.window_length), (BASE, LENGTH as u32));
    assert_eq!((sample.pointer, sample.status), (4128, BUSY));
    let Kept {
        source,
        destination,
        length,
        moved,
        ..
    } = sample.kept;
    assert_eq!((source, destination, length, moved), (4200, 4224, 4, 1));
}
