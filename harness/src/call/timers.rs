//! The calls on a timer as values.

use super::{Argument, Call, Function, Lent};
use crate::model::Timers;

/// One call with all its arguments, in the order of the C prototypes.
#[derive(Clone, Debug, PartialEq, Eq)]
pub enum TimerCall {
    Create {
        timer: Lent,
        period: u32,
    },
    Read {
        timer: Lent,
        offset: u32,
        value: Lent,
    },
    Write {
        timer: Lent,
        offset: u32,
        value: u16,
    },
    Line {
        timer: Lent,
        value: Lent,
    },
    Run {
        timer: Lent,
        ticks: u32,
        value: Lent,
    },
    Elapsed {
        timer: Lent,
        earlier: u32,
        later: u32,
        value: Lent,
    },
}

impl From<TimerCall> for Call {
    fn from(call: TimerCall) -> Call {
        Call::Timer(call)
    }
}

impl TimerCall {
    pub fn function(&self) -> Function {
        match self {
            TimerCall::Create { .. } => Function::TimerCreate,
            TimerCall::Read { .. } => Function::TimerRead,
            TimerCall::Write { .. } => Function::TimerWrite,
            TimerCall::Line { .. } => Function::TimerLine,
            TimerCall::Run { .. } => Function::TimerRun,
            TimerCall::Elapsed { .. } => Function::TimerElapsed,
        }
    }

    /// The 14 bytes that the call is given.
    pub fn timer(&self) -> &Lent {
        match self {
            TimerCall::Create { timer, .. }
            | TimerCall::Read { timer, .. }
            | TimerCall::Write { timer, .. }
            | TimerCall::Line { timer, .. }
            | TimerCall::Run { timer, .. }
            | TimerCall::Elapsed { timer, .. } => timer,
        }
    }

    /// The value that the call is to write, where it is to write one.
    pub fn value(&self) -> Option<&Lent> {
        match self {
            TimerCall::Create { .. } | TimerCall::Write { .. } => None,
            TimerCall::Read { value, .. }
            | TimerCall::Line { value, .. }
            | TimerCall::Run { value, .. }
            | TimerCall::Elapsed { value, .. } => Some(value),
        }
    }

    /// Every argument in the order of the prototype.
    #[rustfmt::skip]
    pub(super) fn arguments(&mut self) -> Vec<Argument<'_>> {
        use Argument::{Lent, Long, Short};
        match self {
            TimerCall::Create { timer, period } =>
                vec![Lent("timer", timer), Long(period)],
            TimerCall::Read { timer, offset, value } =>
                vec![Lent("timer", timer), Long(offset), Lent("value", value)],
            TimerCall::Write { timer, offset, value } =>
                vec![Lent("timer", timer), Long(offset), Short(value)],
            TimerCall::Line { timer, value } =>
                vec![Lent("timer", timer), Lent("value", value)],
            TimerCall::Run { timer, ticks, value } =>
                vec![Lent("timer", timer), Long(ticks), Lent("value", value)],
            TimerCall::Elapsed { timer, earlier, later, value } =>
                vec![Lent("timer", timer), Long(earlier), Long(later), Lent("value", value)],
        }
    }

    /// Makes the call by a model.
    #[rustfmt::skip]
    pub(super) fn answer(&mut self, model: impl Timers) -> u32 {
        match self {
            TimerCall::Create { timer, period } => model.sgdma_timer_create(timer, *period),
            TimerCall::Read { timer, offset, value } =>
                model.sgdma_timer_read(timer, *offset, value),
            TimerCall::Write { timer, offset, value } =>
                model.sgdma_timer_write(timer, *offset, *value),
            TimerCall::Line { timer, value } => model.sgdma_timer_line(timer, value),
            TimerCall::Run { timer, ticks, value } => model.sgdma_timer_run(timer, *ticks, value),
            TimerCall::Elapsed { timer, earlier, later, value } =>
                model.sgdma_timer_elapsed(timer, *earlier, *later, value),
        }
    }
}
