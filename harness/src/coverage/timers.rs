//! What random calls on a timer have reached, and what they must reach. What applies
//! to a call is found here by looking at the bytes, without the model.

use super::counts::number;
use super::{Numbered, Reachable, BOTH};
use crate::call::{Call, Function, TimerCall};
use crate::compare::Answer;
use crate::model::{TIMER_SIZE, VALUE_SIZE};

const FULL: u64 = u32::MAX as u64;

/// What so many ticks came to, on a timer that is continuous or not.
#[derive(Clone, Copy, Debug, PartialEq, Eq, PartialOrd, Ord)]
pub enum Ticks {
    None,
    /// .. on a timer that is stopped.
    Stopped,
    /// The counter stayed above 0.
    Above(bool),
    /// It reached zero in the last tick.
    ToZero(bool),
    /// It was loaded in the last tick.
    Loaded(bool),
    /// More ticks passed after that.
    Past(bool),
    /// It began at 0.
    FromZero(bool),
    /// The period was 0, and it reached zero.
    PeriodZero(bool),
    /// The period was the full one, and it passed zero.
    PeriodFull(bool),
    /// There were 4,294,967,295 of them.
    Most(bool),
    /// It reached zero more than once.
    Again,
    /// .. more than 65,535 times,
    ManyTimes,
    /// .. in each of 4,294,967,295 ticks.
    MostTimes,
    /// It reached zero with this TO before,
    TimedOut(bool),
    /// .. and did not.
    NotTimedOut(bool),
}

/// How two snapshots stood to each other.
#[derive(Clone, Copy, Debug, PartialEq, Eq, PartialOrd, Ord)]
pub enum Between {
    Same,
    Down,
    PastZero,
    /// From 4,294,967,295 to 0.
    Most,
    /// From 0 to 4,294,967,295, which is one tick.
    OneTick,
}

/// One thing that must have been reached.
#[derive(Clone, Copy, Debug, PartialEq, Eq, PartialOrd, Ord)]
pub enum Reached {
    Numbered(Numbered),
    /// status was read with this TO and RUN,
    Status(bool, bool),
    /// control with this ITO and CONT,
    Control(bool, bool),
    /// and this half of a number whose halves differ.
    Half(u32),
    /// status was written with this TO and RUN,
    StatusWritten(bool, bool),
    /// .. and with a value that is not 0.
    StatusValue,
    /// control was written with this START and STOP, of a timer with this RUN,
    Commanded(bool, bool, bool),
    /// .. with this ITO and CONT in place of others,
    Stored(bool, bool),
    /// .. and with one of bits 4 to 15.
    OtherBits,
    /// A timer was started with its counter at 0,
    StartedAtZero,
    /// .. and between 0 and its period.
    StartedBetween,
    /// This half of the period was written, of a timer with this RUN,
    Period(u32, bool),
    /// .. with this TO,
    PeriodUnder(bool),
    /// .. and so the period became 0, with this TO.
    PeriodCleared(bool),
    /// A snapshot was taken by this register, of a timer with this RUN, with another
    /// counter than the last and another value than its half.
    Snapshot(u32, bool),
    /// The line was read with this TO and ITO.
    Line(bool, bool),
    Ran(Ticks),
    Elapsed(Between),
    /// 17 was given for the largest period but one, and for 0.
    AlmostFull,
    NoPeriod,
}

/// The numbers of 14 bytes.
struct Seen {
    counter: u64,
    period: u64,
    snapshot: u64,
    zero: u64,
    cont: bool,
    ito: bool,
    run: bool,
    to: bool,
}

impl Seen {
    fn of(bytes: &[u8]) -> Seen {
        let last = number(bytes, 12, 2);
        Seen {
            counter: number(bytes, 0, 4),
            period: number(bytes, 4, 4),
            snapshot: number(bytes, 8, 4),
            zero: last / 16,
            cont: last & 8 != 0,
            ito: last & 4 != 0,
            run: last & 2 != 0,
            to: last & 1 != 0,
        }
    }
}

/// Every field that breaks its rule.
fn broken_fields(timer: &[u8]) -> Vec<usize> {
    if timer.len() != TIMER_SIZE {
        return Vec::new();
    }
    let seen = Seen::of(timer);
    let mut broken = Vec::new();
    broken.extend((seen.counter > seen.period).then_some(2));
    broken.extend((seen.zero != 0).then_some(4));
    broken
}

/// The numbers of all refusals that apply, in their order; 8 with its field.
fn numbers_applying(call: &TimerCall) -> Vec<u32> {
    let timer = call.timer();
    let other_value = call.value().is_some_and(|value| value.len() != VALUE_SIZE);
    let mut applying = Vec::new();
    if timer.len() != TIMER_SIZE || other_value {
        applying.push(7);
    }
    let is_read = !matches!(call, TimerCall::Create { .. });
    let broken = broken_fields(timer);
    let told = broken.first().filter(|_| is_read);
    applying.extend(told.map(|&field| 8 + 256 * field as u32));
    match call {
        TimerCall::Read { offset, .. } | TimerCall::Write { offset, .. } if *offset > 5 => {
            applying.push(16);
        }
        TimerCall::Elapsed { .. }
            if timer.len() == TIMER_SIZE && Seen::of(timer).period != FULL =>
        {
            applying.push(17);
        }
        _ => {}
    }
    applying
}

/// The call, where it is one on a timer.
fn on_timer(call: &Call) -> &TimerCall {
    match call {
        Call::Timer(call) => call,
        _ => panic!("no call on a timer:\n{call}"),
    }
}

impl Reachable for Reached {
    fn required() -> Vec<Reached> {
        [numbers(), registers(), ticks(), snapshots()].concat()
    }

    fn applying(call: &Call) -> Vec<u32> {
        numbers_applying(on_timer(call))
    }

    fn shown(call: &Call, answer: &Answer, reach: &mut dyn FnMut(Reached)) {
        let timer = on_timer(call);
        let broken = broken_fields(timer.timer());
        Numbered::shown(call, answer, &broken, Reached::Numbered, reach);
        let shown = match answer.returned {
            0 => done(timer, on_timer(&answer.after)),
            17 => not_full(timer),
            _ => Vec::new(),
        };
        shown.into_iter().for_each(reach);
    }
}

fn not_full(call: &TimerCall) -> Vec<Reached> {
    let period = Seen::of(call.timer()).period;
    let mut reached = Vec::new();
    reached.extend((period == FULL - 1).then_some(Reached::AlmostFull));
    reached.extend((period == 0).then_some(Reached::NoPeriod));
    reached
}

fn done(call: &TimerCall, after: &TimerCall) -> Vec<Reached> {
    let before = Seen::of(call.timer());
    match call {
        TimerCall::Create { .. } => Vec::new(),
        TimerCall::Read { offset, .. } => read(&before, *offset),
        TimerCall::Write { offset, value, .. } => match offset {
            0 => status_written(&before, *value),
            1 => control_written(&before, *value),
            2 | 3 => period_written(&before, *offset, *value),
            _ => snapshot_taken(&before, *offset, *value),
        },
        TimerCall::Line { .. } => vec![Reached::Line(before.to, before.ito)],
        TimerCall::Run { ticks, .. } => {
            let value = after.value().expect("a run writes a value");
            let shown = ran(&before, u64::from(*ticks), number(value, 0, 4));
            shown.into_iter().map(Reached::Ran).collect()
        }
        TimerCall::Elapsed { earlier, later, .. } => between(*earlier, *later),
    }
}

fn read(seen: &Seen, offset: u32) -> Vec<Reached> {
    let halves_differ = |number: u64| number >> 16 != number & 0xFFFF;
    match offset {
        0 => vec![Reached::Status(seen.to, seen.run)],
        1 => vec![Reached::Control(seen.ito, seen.cont)],
        2 | 3 if halves_differ(seen.period) => vec![Reached::Half(offset)],
        4 | 5 if halves_differ(seen.snapshot) => vec![Reached::Half(offset)],
        _ => Vec::new(),
    }
}

fn status_written(before: &Seen, value: u16) -> Vec<Reached> {
    let mut reached = vec![Reached::StatusWritten(before.to, before.run)];
    reached.extend((value != 0).then_some(Reached::StatusValue));
    reached
}

fn control_written(before: &Seen, value: u16) -> Vec<Reached> {
    let bit = |place: u32| value >> place & 1 == 1;
    let [ito, cont, start, stop] = [0, 1, 2, 3].map(bit);
    let mut reached = vec![Reached::Commanded(start, stop, before.run)];
    let mut note = |met: bool, point: Reached| reached.extend(met.then_some(point));
    let stored = (ito, cont) != (before.ito, before.cont);
    note(stored, Reached::Stored(ito, cont));
    note(value > 15, Reached::OtherBits);
    let starts = start && !stop && !before.run;
    note(starts && before.counter == 0, Reached::StartedAtZero);
    let between = before.counter > 0 && before.counter < before.period;
    note(starts && between, Reached::StartedBetween);
    reached
}

fn period_written(before: &Seen, offset: u32, value: u16) -> Vec<Reached> {
    let half = before.period >> (16 * (offset - 2)) & 0xFFFF;
    if half == u64::from(value) {
        return Vec::new();
    }
    let mut reached = vec![
        Reached::Period(offset, before.run),
        Reached::PeriodUnder(before.to),
    ];
    let other = before.period >> (16 * (3 - offset)) & 0xFFFF;
    let cleared = value == 0 && other == 0;
    reached.extend(cleared.then_some(Reached::PeriodCleared(before.to)));
    reached
}

fn snapshot_taken(before: &Seen, offset: u32, value: u16) -> Vec<Reached> {
    let half = before.counter >> (16 * (offset - 4)) & 0xFFFF;
    let shows = before.snapshot != before.counter && half != u64::from(value);
    let shown = shows.then_some(Reached::Snapshot(offset, before.run));
    shown.into_iter().collect()
}

fn ran(before: &Seen, ticks: u64, told: u64) -> Vec<Ticks> {
    if ticks == 0 {
        return vec![Ticks::None];
    }
    if !before.run {
        return vec![Ticks::Stopped];
    }
    let (counter, cont) = (before.counter, before.cont);
    let mut shown = vec![if ticks < counter {
        Ticks::Above(cont)
    } else if ticks == counter {
        Ticks::ToZero(cont)
    } else if ticks == counter + 1 {
        Ticks::Loaded(cont)
    } else {
        Ticks::Past(cont)
    }];
    let mut note = |met: bool, case: Ticks| shown.extend(met.then_some(case));
    note(counter == 0, Ticks::FromZero(cont));
    note(before.period == 0, Ticks::PeriodZero(cont));
    let passes = before.period == FULL && ticks > counter;
    note(passes, Ticks::PeriodFull(cont));
    note(ticks == FULL, Ticks::Most(cont));
    note(told > 1, Ticks::Again);
    note(told > 65_535, Ticks::ManyTimes);
    note(told == FULL, Ticks::MostTimes);
    note(told > 0, Ticks::TimedOut(before.to));
    note(told == 0, Ticks::NotTimedOut(before.to));
    shown
}

fn between(earlier: u32, later: u32) -> Vec<Reached> {
    let how = match (earlier, later) {
        (u32::MAX, 0) => Between::Most,
        (0, u32::MAX) => Between::OneTick,
        _ if earlier == later => Between::Same,
        _ if earlier > later => Between::Down,
        _ => Between::PastZero,
    };
    vec![Reached::Elapsed(how)]
}

fn numbers() -> Vec<Reached> {
    use Function::*;
    let mut numbers = vec![Numbered::FieldOfSome];
    numbers.extend([2, 4].map(Numbered::Field));
    numbers.extend(Numbered::of_call(TimerCreate, &[7], &[]));
    let pairs = [(7, 8), (7, 16), (8, 16)];
    numbers.extend(Numbered::of_call(TimerRead, &[7, 8, 16], &pairs));
    numbers.extend(Numbered::of_call(TimerWrite, &[7, 8, 16], &pairs[1..]));
    numbers.extend(Numbered::of_call(TimerLine, &[7, 8], &[(7, 8)]));
    numbers.extend(Numbered::of_call(TimerRun, &[7, 8], &[(7, 8)]));
    let pairs = [(7, 8), (7, 17), (8, 17)];
    numbers.extend(Numbered::of_call(TimerElapsed, &[7, 8, 17], &pairs));
    numbers.into_iter().map(Reached::Numbered).collect()
}

fn registers() -> Vec<Reached> {
    use Reached::*;
    let mut points = vec![StatusValue, OtherBits, StartedAtZero, StartedBetween];
    points.extend([2, 3, 4, 5].map(Half));
    for first in BOTH {
        points.extend([2, 3].map(|offset| Period(offset, first)));
        points.extend([4, 5].map(|offset| Snapshot(offset, first)));
        points.extend([PeriodUnder(first), PeriodCleared(first)]);
        for second in BOTH {
            points.extend([Status(first, second), Control(first, second)]);
            points.extend([StatusWritten(first, second), Stored(first, second)]);
            points.push(Line(first, second));
            points.extend(BOTH.map(|ran| Commanded(first, second, ran)));
        }
    }
    points
}

fn ticks() -> Vec<Reached> {
    use Ticks::*;
    let mut cases = vec![None, Stopped, Again, ManyTimes, MostTimes];
    for flag in BOTH {
        cases.extend([Above, ToZero, Loaded, Past].map(|case| case(flag)));
        cases.extend([FromZero, PeriodZero, PeriodFull, Most].map(|case| case(flag)));
        cases.extend([TimedOut, NotTimedOut].map(|case| case(flag)));
    }
    cases.into_iter().map(Reached::Ran).collect()
}

fn snapshots() -> Vec<Reached> {
    use Between::*;
    let mut points = vec![Reached::AlmostFull, Reached::NoPeriod];
    points.extend([Same, Down, PastZero, Most, OneTick].map(Reached::Elapsed));
    points
}
