//! What the calls have reached, and what they must reach.
//!
//! A [`Point`] is one thing that a run of random calls on a core must have done at
//! least once. [`Coverage`] counts these, and what there is beside a core has
//! points of its own.

pub mod chains;
pub mod controllers;
mod counts;
pub mod editions;
pub mod findings;
mod ledgers;
pub mod mends;
mod observe;
mod refusals;
mod slots;
pub mod timers;

pub use counts::{compare_and_cover, Coverage, Numbered, Reachable};
pub use ledgers::{DateCase, LedgerFlaw, LedgerUse};
pub use refusals::applying;
pub use slots::{RunNumberCase, SlotCase};

use crate::call::{Call, Function};
use crate::compare::Answer;
use crate::model::{control, offset, status, ImageRule, Mode, Phase, Reason, Refusal};

/// What may pend.
#[derive(Clone, Copy, Debug, PartialEq, Eq, PartialOrd, Ord)]
pub enum Event {
    Error,
    Eop,
    Descriptor,
    Chain,
    Max,
}

impl Event {
    pub const ALL: [Event; 5] = [
        Event::Error,
        Event::Eop,
        Event::Descriptor,
        Event::Chain,
        Event::Max,
    ];

    pub fn enable(self) -> u32 {
        match self {
            Event::Error => control::IE_ERROR,
            Event::Eop => control::IE_EOP,
            Event::Descriptor => control::IE_DESCRIPTOR,
            Event::Chain => control::IE_CHAIN,
            Event::Max => control::IE_MAX,
        }
    }

    /// The status bit that the event sets; reaching MAX sets none.
    pub fn status_bit(self) -> Option<u8> {
        match self {
            Event::Error => Some(status::ERROR),
            Event::Eop => Some(status::EOP_ENCOUNTERED),
            Event::Descriptor => Some(status::DESCRIPTOR_COMPLETED),
            Event::Chain => Some(status::CHAIN_COMPLETED),
            Event::Max => None,
        }
    }
}

/// What ended a descriptor of mode 2.
#[derive(Clone, Copy, Debug, PartialEq, Eq, PartialOrd, Ord)]
pub enum LastByte {
    OfLength,
    OfLengthZero,
    WithEop,
    OfLengthWithEop,
}

/// Where the count stands to MAX_DESC_PROCESSED in a WriteBack.
#[derive(Clone, Copy, Debug, PartialEq, Eq, PartialOrd, Ord)]
pub enum AtMax {
    NoMaxButCount,
    Below,
    Reached,
    Passed,
}

/// A window at a limit of the paper.
#[derive(Clone, Copy, Debug, PartialEq, Eq, PartialOrd, Ord)]
pub enum EdgeWindow {
    Empty,
    Full,
    ToTheTop,
    OddBase,
}

/// One thing that must have been reached.
#[derive(Clone, Copy, Debug, PartialEq, Eq, PartialOrd, Ord)]
pub enum Point {
    /// A call returned this number.
    Returned(Function, u32),
    /// The first refusal was given though the second applied as well.
    Outranked(Function, Refusal, Refusal),
    /// An image that breaks this rule and no other was refused.
    BrokenAlone(ImageRule),
    /// The first field was told though a rule of the second was broken as well.
    ToldLower(u8, u8),
    /// A call left a machine of this mode in this phase.
    Left(Mode, Phase),
    /// A run of this mode stopped for this reason.
    Stopped(Mode, Reason),
    /// A run stopped for its own reason with its last step of the budget.
    BudgetJustEnough,
    BudgetZero,
    RunOnWindow(EdgeWindow),
    /// A step of this mode led from one phase to another.
    Step(Mode, Phase, Phase),
    Fault(Mode, u8),
    /// The address of a fault was above 2^32.
    FaultAboveBus(Mode, u8),
    /// An unowned descriptor of length 0 ended the chain.
    UnownedWithoutLength(Mode),
    /// A descriptor was fetched from an aligned address at an unaligned place.
    FetchedFromUnalignedPlace,
    /// A later byte was moved under these FIXED bits, read and write.
    Moved(Mode, bool, bool),
    MovedWithoutRun(Mode),
    /// A beat was made with these marks, SOP and EOP.
    Made(bool, bool),
    /// An error was added to others.
    GatheredErrors,
    /// A descriptor went on after an error under STOP_DMA_ER.
    WentOnAfterError,
    /// A byte was copied that the same descriptor had written.
    CopiedAgain,
    Finished(LastByte),
    /// A descriptor was written back with these PARK, RUN, STOP_DMA_ER, errors.
    WroteBack {
        park: bool,
        run: bool,
        stop: bool,
        errors: bool,
    },
    /// A record was made under this PARK, of a descriptor with these errors, EOP.
    Recorded {
        mode: Mode,
        park: bool,
        errors: bool,
        eop: bool,
    },
    /// A record of this mode was dated so.
    Dated(Mode, DateCase),
    /// A run of this mode used its ledger in this way.
    Ledger(Mode, LedgerUse),
    /// A run was refused for this flaw of its ledger.
    NoLedger(LedgerFlaw),
    /// .. on a machine of this mode in this phase.
    NoLedgerIn(Mode, Phase),
    /// Data had overwritten the control byte of the descriptor written back.
    WroteBackOverData,
    Counted(AtMax, bool),
    /// The event made the interrupt pend, with no other event enabled.
    PendedAlone(Event),
    /// The event came with its enable 0, and nothing pended.
    NotEnabled(Event),
    /// The event pended though its status bit was 1 already.
    PendedAgain(Event),
    PendedWithoutGlobal,
    /// The line was read with this pending and IE_GLOBAL.
    Line(bool, bool),
    Read(u32, Phase),
    Written(u32, Phase),
    ClearedStatus(u8),
    ClearedInterrupt,
    Armed(Phase),
    Disarmed(Phase),
    Reset(Mode, Phase),
    /// RUN went from 0 to 1 with a count that was not 0.
    RunRose(Phase),
    RunFell(Phase),
    Slot(SlotCase),
    RunNumber(RunNumberCase),
}

impl Reachable for Point {
    fn required() -> Vec<Point> {
        let lists = [
            refusals::required(),
            ledgers::required(),
            image_points(),
            run_points(),
            step_points(),
            move_points(),
            write_back_points(),
            interrupt_points(),
            register_points(),
            slots::required(),
        ];
        lists.concat()
    }

    fn applying(call: &Call) -> Vec<u32> {
        refusals::numbers_applying(call)
    }

    fn shown(call: &Call, answer: &Answer, reach: &mut dyn FnMut(Point)) {
        observe::points(call, answer, reach);
    }
}

const BOTH: [bool; 2] = [false, true];
const OFFSETS: [u32; 3] = [
    offset::STATUS,
    offset::CONTROL,
    offset::NEXT_DESCRIPTOR_POINTER,
];

fn image_points() -> Vec<Point> {
    let mut rules = ImageRule::ALL.to_vec();
    rules.retain(|rule| rule.can_break_alone());
    rules.into_iter().map(Point::BrokenAlone).collect()
}

/// "Halted only in mode 2"
fn phases_of(mode: Mode) -> impl Iterator<Item = Phase> {
    Phase::ALL
        .into_iter()
        .filter(move |&phase| phase != Phase::Halted || mode == Mode::StreamToMemory)
}

fn run_points() -> Vec<Point> {
    let mut points = vec![Point::BudgetJustEnough, Point::BudgetZero];
    for mode in Mode::ALL {
        points.extend(phases_of(mode).map(|phase| Point::Left(mode, phase)));
        let reasons = Reason::ALL.into_iter().filter(|reason| match reason {
            Reason::Halted | Reason::NeedsInput => mode == Mode::StreamToMemory,
            Reason::OutputFull => mode == Mode::MemoryToStream,
            _ => true,
        });
        points.extend(reasons.map(|reason| Point::Stopped(mode, reason)));
    }
    use EdgeWindow::*;
    points.extend([Empty, Full, ToTheTop, OddBase].map(Point::RunOnWindow));
    points
}

fn step_points() -> Vec<Point> {
    use Phase::*;
    let steps = [
        (Rest, Fetch),
        (Fetch, Rest),
        (Fetch, Ended),
        (Fetch, Faulted),
        (Fetch, Move),
        (Move, Move),
        (Move, Faulted),
        (Move, WriteBack),
        (WriteBack, Rest),
        (WriteBack, Fetch),
    ];
    let mut points = vec![
        Point::Step(Mode::StreamToMemory, WriteBack, Halted),
        Point::FetchedFromUnalignedPlace,
    ];
    for mode in Mode::ALL {
        points.extend(steps.map(|(from, to)| Point::Step(mode, from, to)));
        points.push(Point::UnownedWithoutLength(mode));
        let (reads, writes) = (mode != Mode::StreamToMemory, mode != Mode::MemoryToStream);
        let faults = [
            (10, true),
            (11, true),
            (12, reads),
            (13, reads),
            (14, writes),
        ];
        for (code, _) in faults.into_iter().filter(|&(_, met)| met) {
            points.push(Point::Fault(mode, code));
            if code >= 13 {
                points.push(Point::FaultAboveBus(mode, code));
            }
        }
    }
    points
}

fn move_points() -> Vec<Point> {
    let mut points = vec![
        Point::GatheredErrors,
        Point::WentOnAfterError,
        Point::CopiedAgain,
    ];
    for first in BOTH {
        for second in BOTH {
            points.push(Point::Made(first, second));
            points.extend(Mode::ALL.map(|mode| Point::Moved(mode, first, second)));
        }
    }
    points.extend(Mode::ALL.map(Point::MovedWithoutRun));
    use LastByte::*;
    points.extend([OfLength, OfLengthZero, WithEop, OfLengthWithEop].map(Point::Finished));
    points
}

fn write_back_points() -> Vec<Point> {
    let mut points = vec![Point::WroteBackOverData];
    for bits in 0..16 {
        let bit = |place: u32| bits >> place & 1 == 1;
        points.push(Point::WroteBack {
            park: bit(0),
            run: bit(1),
            stop: bit(2),
            errors: bit(3),
        });
    }
    for enabled in BOTH {
        use AtMax::*;
        let relations = [NoMaxButCount, Below, Reached, Passed];
        points.extend(relations.map(|at_max| Point::Counted(at_max, enabled)));
    }
    points
}

fn interrupt_points() -> Vec<Point> {
    let mut points = vec![Point::PendedWithoutGlobal, Point::ClearedInterrupt];
    for event in Event::ALL {
        points.push(Point::PendedAlone(event));
        points.push(Point::NotEnabled(event));
        if event.status_bit().is_some() {
            points.push(Point::PendedAgain(event));
        }
    }
    for pending in BOTH {
        points.extend(BOTH.map(|global| Point::Line(pending, global)));
    }
    points
}

fn register_points() -> Vec<Point> {
    let mut points: Vec<Point> = (0..4).map(|bit| Point::ClearedStatus(1 << bit)).collect();
    for phase in Phase::ALL {
        points.extend(OFFSETS.map(|offset| Point::Read(offset, phase)));
        points.extend(OFFSETS.map(|offset| Point::Written(offset, phase)));
        points.extend([Point::Armed(phase), Point::Disarmed(phase)]);
        points.push(Point::RunFell(phase));
        // RUN is 1 in Ended and Halted, so it cannot rise there.
        if !matches!(phase, Phase::Ended | Phase::Halted) {
            points.push(Point::RunRose(phase));
        }
    }
    for mode in Mode::ALL {
        points.extend(phases_of(mode).map(|phase| Point::Reset(mode, phase)));
    }
    points
}
