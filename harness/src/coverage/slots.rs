//! What is seen of the descriptor read ahead, and of the run number.

use super::observe::Step;
use super::{Point, BOTH};
use crate::model::{
    control, descriptor_control, offset, Machine, Mode, Paper, Phase, SlotKind, Slots, Steps,
    DESCRIPTOR_SIZE,
};

/// What became of a slot. Where a kind is told of a Fetch, Empty means memory.
#[derive(Clone, Copy, Debug, PartialEq, Eq, PartialOrd, Ord)]
pub enum SlotCase {
    /// A call left this slot in this phase.
    Left(Mode, Phase, SlotKind),
    /// A Fetch from the first filled the slot with the second.
    Filled(Mode, SlotKind, SlotKind),
    /// A Fetch with this slot held led to this phase.
    Used(Mode, SlotKind, Phase),
    /// A Fetch used a slot though memory had other bytes by then: OWNED in the slot
    /// and in memory.
    Stale(Mode, bool, bool),
    /// A byte was moved over the descriptor in the slot.
    MovedOver(Mode),
    /// The descriptor in the slot was written back: it links to itself. PARK or not.
    WrittenBackOver(Mode, bool),
    /// A step from Move or WriteBack emptied the slot.
    EmptiedBetween(Mode, Phase, Phase),
    /// The host wrote the pointer with this slot held, with the number it had or
    /// another.
    PointerWritten(Phase, SlotKind, bool),
    /// A reset with this slot held.
    Reset(Phase, SlotKind),
    /// RUN fell or rose, and this slot stayed.
    RunFell(Phase, SlotKind),
    RunRose(Phase, SlotKind),
}

/// What became of the run number.
#[derive(Clone, Copy, Debug, PartialEq, Eq, PartialOrd, Ord)]
pub enum RunNumberCase {
    RoseIn(Phase),
    RoseToLargest,
    StayedAtLargest,
    /// RUN rose in the write that armed the reset.
    RoseArming,
    /// A reset kept a number that was not 0.
    OutlivedReset(Phase),
    /// A reset whose value had RUN 1, of a machine whose RUN was 0.
    ResetWithRun,
}

const HOLDING: [Phase; 3] = [Phase::Fetch, Phase::Move, Phase::WriteBack];
const HELD: [SlotKind; 3] = [
    SlotKind::Descriptor,
    SlotKind::Misaligned,
    SlotKind::Outside,
];

pub(super) fn required() -> Vec<Point> {
    let mut cases = Vec::new();
    for mode in Mode::ALL {
        cases.extend(cases_of(mode));
    }
    for phase in HOLDING {
        for kind in HELD {
            cases.extend(BOTH.map(|same| SlotCase::PointerWritten(phase, kind, same)));
            cases.push(SlotCase::Reset(phase, kind));
            cases.push(SlotCase::RunFell(phase, kind));
            cases.push(SlotCase::RunRose(phase, kind));
        }
    }
    let mut points: Vec<Point> = cases.into_iter().map(Point::Slot).collect();
    points.extend(run_number_cases().into_iter().map(Point::RunNumber));
    points
}

fn cases_of(mode: Mode) -> Vec<SlotCase> {
    use Phase::*;
    let mut cases = vec![
        SlotCase::EmptiedBetween(mode, Move, Faulted),
        SlotCase::EmptiedBetween(mode, WriteBack, Rest),
    ];
    for phase in HOLDING {
        cases.extend(SlotKind::ALL.map(|kind| SlotCase::Left(mode, phase, kind)));
    }
    for kind in HELD {
        cases.push(SlotCase::Filled(mode, SlotKind::Empty, kind));
        cases.push(SlotCase::Filled(mode, SlotKind::Descriptor, kind));
        cases.push(SlotCase::Used(mode, kind, Rest));
    }
    cases.extend([Move, Ended].map(|to| SlotCase::Used(mode, SlotKind::Descriptor, to)));
    cases.push(SlotCase::Used(mode, SlotKind::Misaligned, Faulted));
    cases.push(SlotCase::Used(mode, SlotKind::Outside, Faulted));
    for owned in BOTH {
        cases.extend(BOTH.map(|in_memory| SlotCase::Stale(mode, owned, in_memory)));
        cases.push(SlotCase::WrittenBackOver(mode, owned));
    }
    if mode != Mode::StreamToMemory {
        cases.push(SlotCase::Used(mode, SlotKind::Descriptor, Faulted));
    } else {
        cases.push(SlotCase::EmptiedBetween(mode, WriteBack, Halted));
    }
    if mode != Mode::MemoryToStream {
        cases.push(SlotCase::MovedOver(mode));
    }
    cases
}

fn run_number_cases() -> Vec<RunNumberCase> {
    use RunNumberCase::*;
    let mut cases = vec![RoseToLargest, StayedAtLargest, RoseArming, ResetWithRun];
    cases.extend(Phase::ALL.map(OutlivedReset));
    // RUN is 1 in Ended and Halted, so it cannot rise there.
    let resting = [Phase::Rest, Phase::Faulted];
    cases.extend(HOLDING.into_iter().chain(resting).map(RoseIn));
    cases
}

/// The machine that a call has left.
pub(super) fn left(machine: &Machine, reach: &mut dyn FnMut(Point)) {
    let Machine { mode, phase, .. } = *machine;
    if HOLDING.contains(&phase) {
        reach(Point::Slot(SlotCase::Left(mode, phase, machine.slot.kind)));
    }
}

/// A register is written.
pub(super) fn written(machine: &Machine, at: u32, value: u32, reach: &mut dyn FnMut(Point)) {
    let mut found = |case| {
        if machine.slot.is_held() {
            reach(Point::Slot(case));
        }
    };
    let (phase, kind) = (machine.phase, machine.slot.kind);
    let change = |bit| (machine.controls(bit), value & bit != 0);
    match at {
        offset::NEXT_DESCRIPTOR_POINTER => {
            found(SlotCase::PointerWritten(
                phase,
                kind,
                value == machine.pointer,
            ));
        }
        offset::CONTROL if change(control::SW_RESET) == (true, true) => {
            found(SlotCase::Reset(phase, kind));
        }
        offset::CONTROL => match change(control::RUN) {
            (true, false) => found(SlotCase::RunFell(phase, kind)),
            (false, true) => found(SlotCase::RunRose(phase, kind)),
            _ => {}
        },
        _ => {}
    }
    if at == offset::CONTROL {
        run_number(machine, value, &mut |case| reach(Point::RunNumber(case)));
    }
}

fn run_number(machine: &Machine, value: u32, reach: &mut dyn FnMut(RunNumberCase)) {
    let change = |bit| (machine.controls(bit), value & bit != 0);
    let (reset, run) = (change(control::SW_RESET), change(control::RUN));
    let number = machine.run_number;
    let rises = run == (false, true);
    use RunNumberCase::*;
    if reset == (true, true) {
        if number != 0 {
            reach(OutlivedReset(machine.phase));
        }
        if rises {
            reach(ResetWithRun);
        }
        return;
    }
    if !rises {
        return;
    }
    reach(RoseIn(machine.phase));
    for (case, found) in [
        (RoseToLargest, number == u32::MAX - 1),
        (StayedAtLargest, number == u32::MAX),
        (RoseArming, reset == (false, true)),
    ] {
        if found {
            reach(case);
        }
    }
}

/// A step was taken.
pub(super) fn stepped(step: &Step, reach: &mut dyn FnMut(Point)) {
    let (before, after) = (step.before, step.after);
    let mode = before.mode;
    let mut reach = |case| reach(Point::Slot(case));
    if before.phase == Phase::Fetch {
        fetched(step, &mut reach);
        return;
    }
    if !before.slot.is_held() {
        return;
    }
    if !after.slot.is_held() {
        reach(SlotCase::EmptiedBetween(mode, before.phase, after.phase));
    }
    if before.phase == Phase::Move && after.phase != Phase::Faulted && moves_over_slot(before) {
        reach(SlotCase::MovedOver(mode));
    }
    let itself = before.kept.address == before.slot.address;
    if before.phase == Phase::WriteBack && itself {
        let parked = before.controls(control::PARK);
        reach(SlotCase::WrittenBackOver(mode, parked));
    }
}

fn fetched(step: &Step, reach: &mut dyn FnMut(SlotCase)) {
    let (before, after) = (step.before, step.after);
    let (mode, slot) = (before.mode, &before.slot);
    if after.phase == Phase::Move {
        reach(SlotCase::Filled(mode, slot.kind, after.slot.kind));
    }
    if !slot.is_held() {
        return;
    }
    reach(SlotCase::Used(mode, slot.kind, after.phase));
    let memory = Paper.look_at(before.window, before.pointer, step.ports.memory);
    if slot.kind == SlotKind::Descriptor && memory.bytes != slot.bytes && before.runs() {
        let owned = |bytes: [u8; DESCRIPTOR_SIZE]| bytes[31] & descriptor_control::OWNED_BY_HW != 0;
        reach(SlotCase::Stale(
            mode,
            owned(slot.bytes),
            owned(memory.bytes),
        ));
    }
}

/// Whether the next byte lands in the descriptor that is in the slot.
fn moves_over_slot(machine: &Machine) -> bool {
    let first = u64::from(machine.slot.address).checked_sub(machine.window.base);
    let landed = Paper.destination_place(machine).map(|place| place as u64);
    let (Some(first), Ok(landed)) = (first, landed) else {
        return false;
    };
    machine.slot.kind == SlotKind::Descriptor
        && machine.mode != Mode::MemoryToStream
        && (first..first + DESCRIPTOR_SIZE as u64).contains(&landed)
}
