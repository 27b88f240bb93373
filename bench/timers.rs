//! The calls on a timer: the library against the model, and many ticks against one.

use super::rows::heading;
use super::{agreed, least, missed, timed_party, CALLS, CALLS_AT_ONCE};
use harness::call::{Call, Lent, Party, TimerCall};
use harness::model::{timer_control, timer_offset, Paper, Timer, FULL_PERIOD, VALUE_SIZE};

/// However many ticks pass, they may cost so many times as much as one.
const AIM_OF_TICKS: f64 = 1.2;

/// A timer that runs on and on, from its period down.
fn running(period: u32) -> Lent {
    let timer = Timer {
        counter: period,
        period,
        cont: true,
        ito: true,
        run: true,
        ..Timer::default()
    };
    Lent::from(timer.pack().as_slice())
}

fn value() -> Lent {
    Lent::zeros(VALUE_SIZE)
}

fn ticks(period: u32, ticks: u32) -> Call {
    let (timer, value) = (running(period), value());
    TimerCall::Run {
        timer,
        ticks,
        value,
    }
    .into()
}

/// Runs, each with that of one tick.
fn runs() -> [(&'static str, Call, Call); 5] {
    let row = |name, period, count| (name, ticks(period, count), ticks(period, 1));
    [
        row("1 tick, period 9", 9, 1),
        row("4,294,967,295 ticks, period 9", 9, u32::MAX),
        row("4,294,967,295 ticks, period 0", 0, u32::MAX),
        row("1 tick, full period", FULL_PERIOD, 1),
        row("4,294,967,295 .., full period", FULL_PERIOD, u32::MAX),
    ]
}

fn others() -> [(&'static str, Call); 5] {
    let timer = || running(FULL_PERIOD);
    let calls = [
        TimerCall::Create {
            timer: timer(),
            period: 9,
        },
        TimerCall::Read {
            timer: timer(),
            offset: timer_offset::STATUS,
            value: value(),
        },
        TimerCall::Write {
            timer: timer(),
            offset: timer_offset::CONTROL,
            value: timer_control::CONT | timer_control::START,
        },
        TimerCall::Line {
            timer: timer(),
            value: value(),
        },
        TimerCall::Elapsed {
            timer: timer(),
            earlier: 100,
            later: 4_294_962_396,
            value: value(),
        },
    ];
    let names = [
        "create",
        "read register",
        "write register",
        "line",
        "elapsed",
    ];
    let mut calls = calls.map(Call::from).into_iter();
    names.map(|name| (name, calls.next().expect("a call for each name")))
}

/// The least times of library, model, and of the other call by the library, in
/// seconds a call.
fn least_of_three(library: &dyn Party, call: &Call, other: &Call) -> [f64; 3] {
    let times = least([
        &|| timed_party(library, call, CALLS_AT_ONCE),
        &|| timed_party(&Paper, call, CALLS_AT_ONCE),
        &|| timed_party(library, other, CALLS_AT_ONCE),
    ]);
    times.map(|seconds| seconds / f64::from(CALLS_AT_ONCE))
}

pub fn compare_timers(library: &dyn Party) {
    heading(
        "A timer, in nanoseconds, and how many times as long as the model and as one tick",
        "  x 1 tick  aim",
    );
    for (name, call, one) in runs() {
        agreed(library, name, &call);
        let [ours, models, tick] = least_of_three(library, &call, &one);
        let ratio = ours / tick;
        println!(
            "{}{ratio:>10.2}{AIM_OF_TICKS:>5.1}{}",
            CALLS.shown(name, ours, models),
            missed(&[
                CALLS.is_met(ours, models),
                ("x 1 tick", ratio <= AIM_OF_TICKS),
            ]),
        );
    }
    CALLS.compare(library, others());
}
