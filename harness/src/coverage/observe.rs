//! What a call and its answer show. A run is taken again step by step with the
//! model, so that what happens inside it is seen as well.

use super::refusals::{applying, broken_fields, broken_rules};
use super::{ledgers, slots, AtMax, EdgeWindow, Event, LastByte, Point};
use crate::call::{Call, Lent, Told};
use crate::compare::Answer;
use crate::model::{
    control, descriptor_control, offset, Descriptors, Images, Kept, Ledger, Machine, Mode, Paper,
    Phase, Ports, Reason, Refusal, Slots, Steps, IMAGE_SIZE,
};

/// How much of one long run is looked at.
const STEPS_WATCHED: usize = 100;

/// Gives every point of the call to `reach`.
pub(super) fn points(call: &Call, answer: &Answer, reach: &mut dyn FnMut(Point)) {
    reach(Point::Returned(call.function(), answer.returned));
    if answer.returned != 0 {
        return refused(call, reach);
    }
    if let Some(machine) = loaded(answer.after.image()) {
        reach(Point::Left(machine.mode, machine.phase));
        slots::left(&machine, reach);
    }
    let before = loaded(call.image());
    match (call, before) {
        (Call::Run { .. }, Some(machine)) => run(call, &answer.after, machine, reach),
        (Call::WriteRegister { offset, value, .. }, Some(machine)) => {
            written(&machine, *offset, *value, reach);
        }
        (Call::ReadRegister { offset, .. }, Some(machine)) => {
            reach(Point::Read(*offset, machine.phase));
        }
        (Call::Line { .. }, Some(machine)) => {
            let global = machine.controls(control::IE_GLOBAL);
            reach(Point::Line(machine.pending, global));
        }
        _ => {}
    }
}

fn loaded(image: Option<&Lent>) -> Option<Machine> {
    let bytes: &[u8; IMAGE_SIZE] = (&**image?).try_into().ok()?;
    Paper.load(bytes).ok()
}

fn refused(call: &Call, reach: &mut dyn FnMut(Point)) {
    let applying = applying(call);
    if let Some((&first, others)) = applying.split_first() {
        for &other in others {
            reach(Point::Outranked(call.function(), first, other));
        }
    }
    match (&*applying, loaded(call.image())) {
        ([Refusal::BadLedger, ..], Some(machine)) => ledgers::refused(call, &machine, reach),
        ([Refusal::BadImage, ..], _) => spoiled(call, reach),
        _ => {}
    }
}

/// The call was refused for its image.
fn spoiled(call: &Call, reach: &mut dyn FnMut(Point)) {
    if let [rule] = *broken_rules(call) {
        reach(Point::BrokenAlone(rule));
    }
    let mut fields = broken_fields(call).into_iter();
    if let Some(lowest) = fields.next() {
        fields.for_each(|higher| reach(Point::ToldLower(lowest, higher)));
    }
}

fn written(machine: &Machine, offset: u32, value: u32, reach: &mut dyn FnMut(Point)) {
    let phase = machine.phase;
    reach(Point::Written(offset, phase));
    slots::written(machine, offset, value, reach);
    match offset {
        offset::STATUS => {
            for bit in (0..4).map(|place| 1 << place) {
                if value & u32::from(bit) != 0 && machine.status & bit != 0 {
                    reach(Point::ClearedStatus(bit));
                }
            }
        }
        offset::CONTROL => control_written(machine, value, reach),
        _ => {}
    }
}

fn control_written(machine: &Machine, value: u32, reach: &mut dyn FnMut(Point)) {
    let phase = machine.phase;
    let rises = |bit| value & bit != 0 && !machine.controls(bit);
    let falls = |bit| value & bit == 0 && machine.controls(bit);
    if value & control::SW_RESET != 0 && machine.controls(control::SW_RESET) {
        return reach(Point::Reset(machine.mode, phase));
    }
    if rises(control::SW_RESET) {
        reach(Point::Armed(phase));
    }
    if falls(control::SW_RESET) {
        reach(Point::Disarmed(phase));
    }
    if rises(control::RUN) && machine.count != 0 {
        reach(Point::RunRose(phase));
    }
    if falls(control::RUN) {
        reach(Point::RunFell(phase));
    }
    if value & control::CLEAR_INTERRUPT != 0 && machine.pending {
        reach(Point::ClearedInterrupt);
    }
}

fn run(call: &Call, after: &Call, mut machine: Machine, reach: &mut dyn FnMut(Point)) {
    let (
        Call::Run {
            window,
            beats,
            out,
            ledger,
            used,
            budget,
            ..
        },
        Call::Run { report, .. },
    ) = (call, after)
    else {
        return;
    };
    let told = Told::of(report);
    reported(machine.mode, &told, *budget, reach);
    ledgers::run(call, &machine, &told, reach);
    windows(&machine, reach);
    let (mut memory, mut out, mut ledger) = (window.to_vec(), out.to_vec(), ledger.to_vec());
    let ledger = Ledger::new(&mut ledger, *used);
    let mut ports = Ports::new(&mut memory, beats, &mut out, ledger);
    for _ in 0..STEPS_WATCHED.min(*budget as usize) {
        let before = machine;
        let control_in_memory = control_byte(&before, &ports);
        if Paper.step(&mut machine, &mut ports).is_err() {
            return;
        }
        let step = Step {
            before: &before,
            after: &machine,
            control_in_memory,
            ports: &ports,
        };
        step.points(reach);
    }
}

fn reported(mode: Mode, told: &Told, budget: u32, reach: &mut dyn FnMut(Point)) {
    let reason = Reason::ALL[usize::from(told.reason)];
    reach(Point::Stopped(mode, reason));
    if budget == 0 {
        reach(Point::BudgetZero);
    } else if told.steps == budget && reason != Reason::Budget {
        reach(Point::BudgetJustEnough);
    }
}

fn windows(machine: &Machine, reach: &mut dyn FnMut(Point)) {
    let window = machine.window;
    for (edge, found) in [
        (EdgeWindow::Empty, window.length == 0),
        (EdgeWindow::Full, window.length == 65_536),
        (EdgeWindow::ToTheTop, window.base + window.length == 1 << 32),
        (EdgeWindow::OddBase, !window.base.is_multiple_of(4)),
    ] {
        if found {
            reach(Point::RunOnWindow(edge));
        }
    }
}

/// What stands in memory as the control byte of the kept descriptor.
fn control_byte(machine: &Machine, ports: &Ports) -> Option<u8> {
    let place = u64::from(machine.kept.address).checked_sub(machine.window.base)?;
    ports.memory.get(place as usize + 31).copied()
}

/// One step that was taken.
pub(super) struct Step<'run, 'lent> {
    pub before: &'run Machine,
    pub after: &'run Machine,
    control_in_memory: Option<u8>,
    pub ports: &'run Ports<'lent>,
}

impl Step<'_, '_> {
    fn points(&self, reach: &mut dyn FnMut(Point)) {
        let (before, after) = (self.before, self.after);
        reach(Point::Step(before.mode, before.phase, after.phase));
        match (before.phase, after.phase) {
            (Phase::Fetch | Phase::Move, Phase::Faulted) => self.faulted(reach),
            (Phase::Fetch, Phase::Move) => {
                let place = u64::from(after.kept.address) - after.window.base;
                if place % 4 != 0 {
                    reach(Point::FetchedFromUnalignedPlace);
                }
            }
            (Phase::Fetch, Phase::Ended) => self.ended(reach),
            (Phase::Move, _) => self.moved(reach),
            (Phase::WriteBack, _) => self.wrote_back(reach),
            _ => {}
        }
        self.pended(reach);
        slots::stepped(self, reach);
    }

    fn faulted(&self, reach: &mut dyn FnMut(Point)) {
        let (mode, code) = (self.before.mode, self.after.fault_code);
        reach(Point::Fault(mode, code));
        let kept = &self.before.kept;
        let start = match code {
            13 => kept.source,
            14 => kept.destination,
            _ => return,
        };
        if self.after.fault_address < start {
            reach(Point::FaultAboveBus(mode, code));
        }
    }

    /// The chain ended: what stood at the pointer?
    fn ended(&self, reach: &mut dyn FnMut(Point)) {
        let found = Paper.looked_at(self.before, self.ports.memory);
        if found.bytes[24..26] == [0, 0] {
            reach(Point::UnownedWithoutLength(self.before.mode));
        }
    }

    fn moved(&self, reach: &mut dyn FnMut(Point)) {
        let Machine { mode, kept, .. } = *self.before;
        let has = |bit| kept.control & bit != 0;
        if kept.moved > 0 {
            let read_fixed = has(descriptor_control::READ_FIXED_ADDRESS);
            let write_fixed = has(descriptor_control::WRITE_FIXED_ADDRESS);
            reach(Point::Moved(mode, read_fixed, write_fixed));
        }
        if !self.before.runs() {
            reach(Point::MovedWithoutRun(mode));
        }
        match mode {
            Mode::MemoryToMemory => copied(&kept, reach),
            Mode::MemoryToStream => {
                let marks = self.ports.out[2 * self.ports.made - 2];
                reach(Point::Made(marks & 2 != 0, marks & 1 != 0));
            }
            Mode::StreamToMemory => self.taken(reach),
        }
    }

    /// A beat was taken.
    fn taken(&self, reach: &mut dyn FnMut(Point)) {
        let (before, after) = (&self.before.kept, &self.after.kept);
        if before.errors != 0 && after.errors != before.errors {
            reach(Point::GatheredErrors);
        }
        if self.after.phase == Phase::Move {
            if after.errors != 0 && self.before.controls(control::STOP_DMA_ER) {
                reach(Point::WentOnAfterError);
            }
            return;
        }
        let full = after.moved == Paper.bytes_wanted(Mode::StreamToMemory, after.length);
        reach(Point::Finished(match (full, after.eop_seen) {
            (true, true) => LastByte::OfLengthWithEop,
            (true, false) if after.length == 0 => LastByte::OfLengthZero,
            (true, false) => LastByte::OfLength,
            (false, _) => LastByte::WithEop,
        }));
    }

    fn wrote_back(&self, reach: &mut dyn FnMut(Point)) {
        let before = self.before;
        ledgers::recorded(before, &self.ports.ledger, reach);
        reach(Point::WroteBack {
            park: before.controls(control::PARK),
            run: before.runs(),
            stop: before.controls(control::STOP_DMA_ER),
            errors: before.kept.errors != 0,
        });
        if self.control_in_memory != Some(before.kept.control) {
            reach(Point::WroteBackOverData);
        }
        if let Some(at_max) = at_max(before) {
            reach(Point::Counted(at_max, before.controls(control::IE_MAX)));
        }
    }

    /// The events of the step, and what became of them.
    fn pended(&self, reach: &mut dyn FnMut(Point)) {
        let (before, after) = (self.before, self.after);
        if before.pending {
            return;
        }
        let any_event: u32 = Event::ALL.map(Event::enable).iter().sum();
        let enabled = before.control & any_event;
        for event in Event::ALL {
            if !self.has(event) {
                continue;
            }
            if !after.pending {
                reach(Point::NotEnabled(event));
            } else if enabled == event.enable() {
                reach(Point::PendedAlone(event));
                if event
                    .status_bit()
                    .is_some_and(|bit| before.status & bit != 0)
                {
                    reach(Point::PendedAgain(event));
                }
            }
        }
        if after.pending && !before.controls(control::IE_GLOBAL) {
            reach(Point::PendedWithoutGlobal);
        }
    }

    /// Whether the event happened in this step.
    fn has(&self, event: Event) -> bool {
        let before = self.before;
        let written_back = before.phase == Phase::WriteBack;
        match event {
            Event::Error => written_back && before.kept.errors != 0,
            Event::Eop => written_back && before.kept.eop_seen,
            Event::Descriptor => written_back,
            Event::Chain => self.after.phase == Phase::Ended,
            Event::Max => {
                written_back && matches!(at_max(before), Some(AtMax::Reached | AtMax::Passed))
            }
        }
    }
}

/// A copy that reads what it wrote: the destination lies a little further on.
fn copied(kept: &Kept, reach: &mut dyn FnMut(Point)) {
    let fixed = descriptor_control::READ_FIXED_ADDRESS | descriptor_control::WRITE_FIXED_ADDRESS;
    let ahead = kept.destination.wrapping_sub(kept.source);
    if kept.control & fixed == 0 && (1..=u32::from(kept.moved)).contains(&ahead) {
        reach(Point::CopiedAgain);
    }
}

fn at_max(machine: &Machine) -> Option<AtMax> {
    let next = u16::from(machine.count) + 1;
    match u16::from(machine.max_descriptors()) {
        0 => (machine.count != 0).then_some(AtMax::NoMaxButCount),
        max if next < max => Some(AtMax::Below),
        max if next == max => Some(AtMax::Reached),
        _ => Some(AtMax::Passed),
    }
}
