//! What random questions to a ledger have reached, and what they must reach. What
//! applies to a call, and what it must tell, is found here by looking at the bytes,
//! without the model.

use super::counts::number;
use super::{LedgerFlaw, Numbered, Reachable, BOTH};
use crate::call::{Call, Function};
use crate::compare::Answer;
use crate::model::{FINDING_SIZE, RECORD_SIZE};

const LAST_RUN: u64 = u32::MAX as u64;

/// How the records stood to what was asked.
#[derive(Clone, Copy, Debug, PartialEq, Eq, PartialOrd, Ord)]
pub enum Asked {
    /// The one record of it is the first used one, the last, or between.
    First,
    Last,
    Between,
    /// There were several, with different counts.
    Several,
    /// The latest has the count 0, and an earlier one has not.
    LatestZero,
    /// There is one behind it that is not used, with another count.
    MoreBehind,
    /// A record between has that run and another address, or the other way about.
    OtherBetween,
    /// It was found with these bits beside EOP set, or not.
    ZeroBits(bool),
    /// .. in run 0, and in the largest that is told.
    Run0,
    LargestRun,
    /// It was not found: no record is used,
    NoneUsed,
    /// .. it is not used yet,
    Behind,
    /// .. the run is there and the address is there, but not together,
    Apart,
    /// .. there are run and address exchanged,
    Exchanged,
    /// .. the run or the address differs in one bit,
    OneBit(bool),
    /// .. no record has its run or its address.
    Nothing,
}

/// One thing that must have been reached.
#[derive(Clone, Copy, Debug, PartialEq, Eq, PartialOrd, Ord)]
pub enum Reached {
    Numbered(Numbered),
    /// 19 was given for this flaw.
    NoLedger(LedgerFlaw),
    /// 18 was given of a ledger that has a record of that run, or not.
    LastRun(bool),
    Asked(Asked),
}

/// The question, and the records of the bytes, whether they are used or not.
struct Question {
    records: Vec<Seen>,
    used: usize,
    run: u64,
    address: u64,
}

#[derive(Clone, Copy)]
struct Seen {
    run: u64,
    address: u64,
    actual: u64,
    zero_bits: bool,
}

impl Question {
    fn of(call: &Call) -> Question {
        let Call::FindRecord {
            ledger,
            used,
            run,
            address,
            ..
        } = call
        else {
            panic!("no question to a ledger:\n{call}");
        };
        let seen = |record: &[u8]| Seen {
            run: number(record, 0, 4),
            address: number(record, 4, 4),
            actual: number(record, 8, 2),
            zero_bits: record[11] > 1,
        };
        Question {
            records: ledger.chunks_exact(RECORD_SIZE).map(seen).collect(),
            used: *used as usize,
            run: u64::from(*run),
            address: u64::from(*address),
        }
    }

    fn is_of(&self, record: &Seen) -> bool {
        (record.run, record.address) == (self.run, self.address)
    }

    /// The places of the used records that are of it.
    fn places(&self) -> Vec<usize> {
        let used = self.records[..self.used].iter().enumerate();
        used.filter(|(_, record)| self.is_of(record))
            .map(|(place, _)| place)
            .collect()
    }

    /// Whether there is one that is not used.
    fn behind(&self) -> Option<&Seen> {
        let mut unused = self.records[self.used..].iter();
        unused.find(|record| self.is_of(record))
    }
}

fn found(question: &Question, places: &[usize]) -> Vec<Asked> {
    let used = &question.records[..question.used];
    let (first, last) = (places[0], places[places.len() - 1]);
    let latest = used[last];
    let counts = |place: &usize| used[*place].actual;
    let half = |record: &Seen| (record.run == question.run) != (record.address == question.address);
    let mut shown = vec![Asked::ZeroBits(latest.zero_bits)];
    let mut note = |met: bool, case: Asked| shown.extend(met.then_some(case));
    let alone = places.len() == 1 && used.len() > 2;
    note(alone && last == 0, Asked::First);
    note(alone && last + 1 == used.len(), Asked::Last);
    note(alone && last > 0 && last + 1 < used.len(), Asked::Between);
    let others = places
        .iter()
        .map(counts)
        .any(|count| count != latest.actual);
    note(others, Asked::Several);
    note(others && latest.actual == 0, Asked::LatestZero);
    let more = question.behind();
    note(
        more.is_some_and(|record| record.actual != latest.actual),
        Asked::MoreBehind,
    );
    note(used[first..].iter().any(half), Asked::OtherBetween);
    note(question.run == 0, Asked::Run0);
    note(question.run == LAST_RUN - 1, Asked::LargestRun);
    shown
}

fn not_found(question: &Question) -> Vec<Asked> {
    let used = &question.records[..question.used];
    let (run, address) = (question.run, question.address);
    let runs = used.iter().any(|record| record.run == run);
    let addresses = used.iter().any(|record| record.address == address);
    let exchanged = |record: &Seen| (record.address, record.run) == (run, address);
    let one_bit = |a: u64, b: u64| (a ^ b).count_ones() == 1;
    let mut shown = Vec::new();
    let mut note = |met: bool, case: Asked| shown.extend(met.then_some(case));
    note(used.is_empty(), Asked::NoneUsed);
    note(question.behind().is_some(), Asked::Behind);
    note(runs && addresses, Asked::Apart);
    note(used.iter().any(exchanged), Asked::Exchanged);
    let near_run = |record: &Seen| record.address == address && one_bit(record.run, run);
    let near_address = |record: &Seen| record.run == run && one_bit(record.address, address);
    note(used.iter().any(near_run), Asked::OneBit(true));
    note(used.iter().any(near_address), Asked::OneBit(false));
    note(!used.is_empty() && !runs && !addresses, Asked::Nothing);
    shown
}

/// What a call that was done shows; its answer must be what the bytes say.
fn done(call: &Call, after: &Call) -> Vec<Reached> {
    let question = Question::of(call);
    let places = question.places();
    let latest = places.last().map(|&place| question.records[place].actual);
    let Call::FindRecord { answer, .. } = after else {
        panic!("another call came back:\n{after}");
    };
    let told = (number(answer, 0, 2), number(answer, 2, 2));
    let due = (u64::from(latest.is_some()), latest.unwrap_or(0));
    assert_eq!(told, due, "told of\n{call}");
    let shown = if places.is_empty() {
        not_found(&question)
    } else {
        found(&question, &places)
    };
    shown.into_iter().map(Reached::Asked).collect()
}

fn refused(call: &Call, returned: u32) -> Vec<Reached> {
    match returned {
        19 => LedgerFlaw::of(call)
            .map(Reached::NoLedger)
            .into_iter()
            .collect(),
        18 => {
            let question = Question::of(call);
            let has = question.records.iter().any(|record| record.run == LAST_RUN);
            vec![Reached::LastRun(has)]
        }
        _ => Vec::new(),
    }
}

impl Reachable for Reached {
    fn required() -> Vec<Reached> {
        use Asked::*;
        let pairs = [(7, 19), (7, 18), (19, 18)];
        let numbers = Numbered::of_call(Function::FindRecord, &[7, 19, 18], &pairs);
        let mut points: Vec<Reached> = numbers.into_iter().map(Reached::Numbered).collect();
        points.extend(LedgerFlaw::ALL.map(Reached::NoLedger));
        let cases = [
            First,
            Last,
            Between,
            Several,
            LatestZero,
            MoreBehind,
            OtherBetween,
            Run0,
            LargestRun,
            NoneUsed,
            Behind,
            Apart,
            Exchanged,
            Nothing,
        ];
        points.extend(cases.map(Reached::Asked));
        for flag in BOTH {
            points.push(Reached::LastRun(flag));
            points.extend([ZeroBits(flag), OneBit(flag)].map(Reached::Asked));
        }
        points
    }

    fn applying(call: &Call) -> Vec<u32> {
        let Call::FindRecord { answer, run, .. } = call else {
            return Vec::new();
        };
        let mut applying = Vec::new();
        applying.extend((answer.len() != FINDING_SIZE).then_some(7));
        applying.extend(LedgerFlaw::of(call).map(|_| 19));
        applying.extend((*run == u32::MAX).then_some(18));
        applying
    }

    fn shown(call: &Call, answer: &Answer, reach: &mut dyn FnMut(Reached)) {
        Numbered::shown(call, answer, &[], Reached::Numbered, reach);
        let shown = match answer.returned {
            0 => done(call, &answer.after),
            number => refused(call, number),
        };
        shown.into_iter().for_each(reach);
    }
}
