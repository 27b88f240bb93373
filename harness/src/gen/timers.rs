//! Random calls on a timer that lead to one another.
//!
//! The choices lean towards what is easily missed: the period 0, the full one and
//! tiny ones, a counter at or next to an end, ticks that stop just before, at or
//! just after zero, and the most there can be; START and STOP together; a timer
//! that breaks one rule.

use super::beside::{Beside, HostOf};
use crate::call::{Call, Lent, TimerCall};
use crate::model::{Timer, FULL_PERIOD, MOST_SINGLE_TICKS, TIMER_SIZE, VALUE_SIZE};

pub type TimerHost = HostOf<TIMER_SIZE>;

/// How often each call is made, in parts of the sum.
type Making = (u64, fn(&mut TimerHost) -> TimerCall);
const MAKINGS: [Making; 6] = [
    (40, TimerHost::run),
    (28, TimerHost::write),
    (14, TimerHost::read),
    (6, TimerHost::line),
    (8, TimerHost::elapsed),
    (4, TimerHost::create),
];

impl Beside<TIMER_SIZE> for TimerHost {
    const BROKEN_IN_100: u64 = 12;

    fn good_create(&mut self) -> Call {
        let timer = Lent::from(self.rng.bytes(TIMER_SIZE));
        self.create_in(timer).into()
    }

    fn good_bytes(&mut self) -> [u8; TIMER_SIZE] {
        self.good_timer().pack()
    }

    fn broken_bytes(&mut self) -> [u8; TIMER_SIZE] {
        self.broken_timer().pack()
    }

    fn any_call(&mut self) -> Call {
        let make = self.rng.weighted(&MAKINGS);
        make(self).into()
    }

    fn lent_to(call: &Call) -> Option<&Lent> {
        match call {
            Call::Timer(call) => Some(call.timer()),
            _ => None,
        }
    }
}

impl TimerHost {
    fn carried(&self) -> Timer {
        Timer::unpack(&self.bytes)
    }

    fn any(&mut self) -> u32 {
        self.rng.number() as u32
    }

    fn period(&mut self) -> u32 {
        let (any, tiny) = (self.any(), self.rng.below(6) as u32);
        let half = any as u16;
        self.rng.pick(&[
            0,
            tiny,
            tiny,
            9,
            u32::from(half),
            u32::from(half) << 16,
            65_536,
            any,
            FULL_PERIOD - 1,
            FULL_PERIOD,
            FULL_PERIOD,
        ])
    }

    /// A counter that is at most the period.
    fn counter(&mut self, period: u32) -> u32 {
        let any = self.rng.below(u64::from(period) + 1) as u32;
        let near = self.rng.below(4) as u32;
        self.rng.pick(&[
            0,
            1.min(period),
            near.min(period),
            any,
            period.saturating_sub(near),
            period,
        ])
    }

    /// A timer that keeps the rules; mostly it runs.
    fn good_timer(&mut self) -> Timer {
        let period = self.period();
        Timer {
            counter: self.counter(period),
            period,
            snapshot: self.any(),
            zero: 0,
            cont: self.rng.chance(50),
            ito: self.rng.chance(50),
            run: self.rng.chance(75),
            to: self.rng.chance(40),
        }
    }

    /// One that breaks a rule, or both.
    fn broken_timer(&mut self) -> Timer {
        let mut timer = self.good_timer();
        let rules = 1 + self.rng.below(3);
        if rules & 1 == 1 {
            timer.period = timer.period.min(FULL_PERIOD - 1);
            let above = 1 + self.rng.below(u64::from(FULL_PERIOD - timer.period)) as u32;
            let by = self.rng.pick(&[1, above, FULL_PERIOD - timer.period]);
            timer.counter = timer.period + by;
        }
        if rules & 2 == 2 {
            let any = 1 + self.rng.below(0xFFF) as u16;
            timer.zero = self.rng.pick(&[1, 1 << 11, any]);
        }
        timer
    }

    fn value(&mut self) -> Lent {
        Lent::from(self.rng.to_write_over(VALUE_SIZE))
    }

    /// One of the six registers, or now and then none of them.
    fn offset(&mut self) -> u32 {
        if self.rng.chance(92) {
            return self.rng.below(6) as u32;
        }
        let any = self.any() | 8;
        self.rng.pick(&[6, 7, 256, 65_536, 1 << 31, u32::MAX, any])
    }

    /// What to write: for control mostly one of its sixteen values.
    fn written(&mut self, offset: u32) -> u16 {
        let any = self.any() as u16;
        if offset == 1 && self.rng.chance(80) {
            return any & 0x0F;
        }
        self.rng.pick(&[0, 1, any, any, u16::MAX])
    }

    /// Ticks that end about where something happens, and any others.
    fn tick_count(&mut self) -> u32 {
        let (timer, any) = (self.carried(), self.any());
        let turn = timer.period.wrapping_add(1);
        let near = self.rng.below(5) as u32;
        let some = any % MOST_SINGLE_TICKS;
        self.rng.pick(&[
            0,
            1,
            near,
            timer.counter.wrapping_add(near).saturating_sub(2),
            timer.counter.wrapping_add(near).saturating_sub(2),
            turn.wrapping_mul(some).wrapping_add(timer.counter),
            turn.wrapping_add(near),
            some,
            any,
            u32::MAX - near,
            u32::MAX,
        ])
    }

    fn run(&mut self) -> TimerCall {
        TimerCall::Run {
            ticks: self.tick_count(),
            timer: self.lent(),
            value: self.value(),
        }
    }

    fn write(&mut self) -> TimerCall {
        let offset = self.offset();
        TimerCall::Write {
            timer: self.lent(),
            offset,
            value: self.written(offset),
        }
    }

    fn read(&mut self) -> TimerCall {
        TimerCall::Read {
            timer: self.lent(),
            offset: self.offset(),
            value: self.value(),
        }
    }

    fn line(&mut self) -> TimerCall {
        TimerCall::Line {
            timer: self.lent(),
            value: self.value(),
        }
    }

    /// Mostly of a timer with the full period.
    fn elapsed(&mut self) -> TimerCall {
        if self.rng.chance(60) {
            let timer = self.good_timer();
            let period = FULL_PERIOD;
            self.bytes = Timer { period, ..timer }.pack();
        }
        let [one, other] = [self.any(), self.any()];
        TimerCall::Elapsed {
            timer: self.lent(),
            earlier: self
                .rng
                .pick(&[one, other, 0, u32::MAX, self.carried().snapshot]),
            later: self.rng.pick(&[one, 0, u32::MAX, self.carried().counter]),
            value: self.value(),
        }
    }

    fn create(&mut self) -> TimerCall {
        let timer = Lent::from(self.rng.to_write_over(TIMER_SIZE));
        self.create_in(timer)
    }

    fn create_in(&mut self, timer: Lent) -> TimerCall {
        TimerCall::Create {
            timer,
            period: self.period(),
        }
    }
}

#[cfg(test)]
mod tests {
    use super::*;
    use crate::model::{Paper, Timers};

    #[test]
    fn good_timers_keep_the_rules_and_broken_ones_do_not() {
        let mut host = TimerHost::new(1);
        for _ in 0..20_000 {
            let good = host.good_timer();
            assert_eq!(Paper.broken_timer_field(&good), None, "{good:?}");
            let broken = host.broken_timer();
            assert!(Paper.broken_timer_field(&broken).is_some(), "{broken:?}");
        }
    }
}
