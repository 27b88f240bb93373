//! What is seen of ledgers: how runs used the ones they were lent, which records
//! they made, and why some were refused.

use super::counts::number;
use super::{phases_of, Point, BOTH};
use crate::call::{Call, Told};
use crate::model::{control, Ledger, Machine, Mode, Reason, RECORD_SIZE};

/// How a run used its ledger.
#[derive(Clone, Copy, Debug, PartialEq, Eq, PartialOrd, Ord)]
pub enum LedgerUse {
    /// A record became the first.
    First,
    /// A record was appended behind used ones.
    Behind,
    Several,
    /// The last room was taken, and the run stopped for another reason.
    JustEnough,
    /// There was no room, and the run stopped for another reason.
    NoneNeeded,
    /// LedgerFull with no step taken, though the budget allowed some.
    FullAtOnce,
    FullAfterRecords,
    /// LedgerFull and not Budget, with the last step of the budget.
    FullAfterLastStep,
    FullAtBudgetZero,
    FullWithoutRun,
    FullWithoutBytes,
}

impl LedgerUse {
    const ALL: [LedgerUse; 11] = [
        LedgerUse::First,
        LedgerUse::Behind,
        LedgerUse::Several,
        LedgerUse::JustEnough,
        LedgerUse::NoneNeeded,
        LedgerUse::FullAtOnce,
        LedgerUse::FullAfterRecords,
        LedgerUse::FullAfterLastStep,
        LedgerUse::FullAtBudgetZero,
        LedgerUse::FullWithoutRun,
        LedgerUse::FullWithoutBytes,
    ];
}

/// Which run a record was dated with.
#[derive(Clone, Copy, Debug, PartialEq, Eq, PartialOrd, Ord)]
pub enum DateCase {
    /// The machine has counted no run, as one of edition 1 that was moved forward.
    Run0,
    Run1,
    Later,
    Largest,
    /// .. and RUN was 0 at the write-back.
    WithoutRun,
    Parked,
    /// The first record of a run, behind one of the run before it.
    NextRun,
    /// A descriptor that has a record of the run before too.
    SameDescriptor,
}

impl DateCase {
    const ALL: [DateCase; 8] = [
        DateCase::Run0,
        DateCase::Run1,
        DateCase::Later,
        DateCase::Largest,
        DateCase::WithoutRun,
        DateCase::Parked,
        DateCase::NextRun,
        DateCase::SameDescriptor,
    ];
}

/// Why lent bytes, with the number of records said to be used, were no ledger.
#[derive(Clone, Copy, Debug, PartialEq, Eq, PartialOrd, Ord)]
pub enum LedgerFlaw {
    /// The length alone: there is a part of a record behind enough whole ones.
    PartOfARecord,
    /// The number alone, which is one more than there are.
    OneTooMany,
    /// The number alone, which is 4,294,967,295.
    LargestNumber,
    /// The number alone, which is another.
    TooMany,
    Both,
}

impl LedgerFlaw {
    pub(super) const ALL: [LedgerFlaw; 5] = [
        LedgerFlaw::PartOfARecord,
        LedgerFlaw::OneTooMany,
        LedgerFlaw::LargestNumber,
        LedgerFlaw::TooMany,
        LedgerFlaw::Both,
    ];

    /// "a length not a multiple of 12 or fewer records than are said to be used"
    pub(super) fn of(call: &Call) -> Option<LedgerFlaw> {
        let (Call::Run { ledger, used, .. } | Call::FindRecord { ledger, used, .. }) = call else {
            return None;
        };
        let records = (ledger.len() / RECORD_SIZE) as u32;
        let part_of_a_record = ledger.len() % RECORD_SIZE != 0;
        match (part_of_a_record, *used > records) {
            (false, false) => None,
            (true, false) => Some(LedgerFlaw::PartOfARecord),
            (true, true) => Some(LedgerFlaw::Both),
            (false, true) if *used == u32::MAX => Some(LedgerFlaw::LargestNumber),
            (false, true) if *used == records + 1 => Some(LedgerFlaw::OneTooMany),
            (false, true) => Some(LedgerFlaw::TooMany),
        }
    }
}

pub(super) fn required() -> Vec<Point> {
    let mut points = LedgerFlaw::ALL.map(Point::NoLedger).to_vec();
    for mode in Mode::ALL {
        points.extend(LedgerUse::ALL.map(|case| Point::Ledger(mode, case)));
        points.extend(phases_of(mode).map(|phase| Point::NoLedgerIn(mode, phase)));
        points.extend(DateCase::ALL.map(|case| Point::Dated(mode, case)));
        points.extend(records_of(mode));
    }
    points
}

/// Errors and EOP come in by beats.
fn records_of(mode: Mode) -> Vec<Point> {
    let brought: &[bool] = match mode {
        Mode::StreamToMemory => &BOTH,
        Mode::MemoryToMemory | Mode::MemoryToStream => &[false],
    };
    let mut points = Vec::new();
    for &errors in brought {
        for &eop in brought {
            points.extend(BOTH.map(|park| Point::Recorded {
                mode,
                park,
                errors,
                eop,
            }));
        }
    }
    points
}

/// What became of the ledger of a run on this machine.
pub(super) fn run(call: &Call, machine: &Machine, told: &Told, reach: &mut dyn FnMut(Point)) {
    let Call::Run {
        ledger,
        used,
        budget,
        ..
    } = call
    else {
        return;
    };
    let made = told.used - used;
    let room = (ledger.len() / RECORD_SIZE) as u32 - used;
    let full = told.reason == Reason::LedgerFull as u16;
    use LedgerUse::*;
    for (case, found) in [
        (First, made > 0 && *used == 0),
        (Behind, made > 0 && *used > 0),
        (Several, made > 1),
        (JustEnough, made > 0 && made == room && !full),
        (NoneNeeded, room == 0 && !full),
        (FullAtOnce, full && told.steps == 0 && *budget > 0),
        (FullAfterRecords, full && made > 0),
        (
            FullAfterLastStep,
            full && told.steps == *budget && *budget > 0,
        ),
        (FullAtBudgetZero, full && *budget == 0),
        (FullWithoutRun, full && !machine.runs()),
        (FullWithoutBytes, full && ledger.is_empty()),
    ] {
        if found {
            reach(Point::Ledger(machine.mode, case));
        }
    }
}

/// The record of the descriptor that this machine has just written back, as the
/// last one of the ledger.
pub(super) fn recorded(machine: &Machine, ledger: &Ledger, reach: &mut dyn FnMut(Point)) {
    reach(Point::Recorded {
        mode: machine.mode,
        park: machine.controls(control::PARK),
        errors: machine.kept.errors != 0,
        eop: machine.kept.eop_seen,
    });
    dated(machine, ledger, reach);
}

/// The date of that record, and what the records before it tell.
fn dated(machine: &Machine, ledger: &Ledger, reach: &mut dyn FnMut(Point)) {
    let run = machine.run_number;
    let records = ledger.bytes.as_chunks::<RECORD_SIZE>().0.iter();
    let before = records.take(ledger.used as usize - 1);
    let mut before = before.map(|record| [0, 4].map(|at| number(record, at, 4) as u32));
    let of_run_before = |[date, _]: [u32; 2]| date.checked_add(1) == Some(run);
    let parked = machine.controls(control::PARK);
    use DateCase::*;
    for (case, found) in [
        (Run0, run == 0),
        (Run1, run == 1),
        (Later, run > 1),
        (Largest, run == u32::MAX),
        (WithoutRun, run > 0 && !machine.runs()),
        (Parked, run > 0 && parked),
        (
            NextRun,
            before.clone().next_back().is_some_and(of_run_before),
        ),
        (
            SameDescriptor,
            before.any(|record| of_run_before(record) && record[1] == machine.kept.address),
        ),
    ] {
        if found {
            reach(Point::Dated(machine.mode, case));
        }
    }
}

/// A run on this machine was refused for its ledger.
pub(super) fn refused(call: &Call, machine: &Machine, reach: &mut dyn FnMut(Point)) {
    reach(Point::NoLedgerIn(machine.mode, machine.phase));
    if let Some(flaw) = LedgerFlaw::of(call) {
        reach(Point::NoLedger(flaw));
    }
}
