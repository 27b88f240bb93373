//! The interval timer, as its request and the handbook's chapter 26 describe it.
//!
//! "Model its six 16-bit registers, one-shot and continuous counting, the
//! snapshot, TO and its interrupt, one step a tick."

use super::controllers::{number, number_of_field, BAD_SIZE};
use super::VALUE_SIZE;

pub const TIMER_SIZE: usize = 14;
/// "a full-period timer (period register value 4,294,967,295)"
pub const FULL_PERIOD: u32 = 4_294_967_295;
/// The ticks that are taken one by one; more of them are leapt over.
pub const MOST_SINGLE_TICKS: u32 = 1_000;

const NO_TIMER_REGISTER: u32 = 16;
const NOT_FULL_PERIOD: u32 = 17;

/// The registers: "Table 26-3", offset and name.
pub mod timer_offset {
    pub const STATUS: u32 = 0;
    pub const CONTROL: u32 = 1;
    pub const PERIODL: u32 = 2;
    pub const PERIODH: u32 = 3;
    pub const SNAPL: u32 = 4;
    pub const SNAPH: u32 = 5;
}

/// The bits of control: "Table 26-6".
pub mod timer_control {
    pub const ITO: u16 = 1;
    pub const CONT: u16 = 1 << 1;
    pub const START: u16 = 1 << 2;
    pub const STOP: u16 = 1 << 3;
}

/// The numbers of the 14 bytes, in their order.
#[derive(Clone, Copy, Debug, Default, PartialEq, Eq)]
pub struct Timer {
    pub counter: u32,
    pub period: u32,
    pub snapshot: u32,
    /// 12 bits.
    pub zero: u16,
    pub cont: bool,
    pub ito: bool,
    pub run: bool,
    pub to: bool,
}

impl Timer {
    pub fn unpack(bytes: &[u8; TIMER_SIZE]) -> Timer {
        let (words, rest) = bytes.as_chunks();
        let word = |place: usize| u32::from_be_bytes(words[place]);
        let bit = |place: u32| rest[1] >> place & 1 == 1;
        Timer {
            counter: word(0),
            period: word(1),
            snapshot: word(2),
            zero: u16::from(rest[0]) << 4 | u16::from(rest[1] >> 4),
            cont: bit(3),
            ito: bit(2),
            run: bit(1),
            to: bit(0),
        }
    }

    /// "counter 32, period 32, snapshot 32, zero 12, CONT 1, ITO 1, RUN 1, TO 1"
    pub fn pack(&self) -> [u8; TIMER_SIZE] {
        let fields = [
            (32, self.counter),
            (32, self.period),
            (32, self.snapshot),
            (12, u32::from(self.zero)),
            (1, u32::from(self.cont)),
            (1, u32::from(self.ito)),
            (1, u32::from(self.run)),
            (1, u32::from(self.to)),
        ];
        let one_behind_another = |bits: u128, (width, field)| bits << width | u128::from(field);
        let bits = fields.into_iter().fold(0, one_behind_another);
        let [_, _, bytes @ ..] = bits.to_be_bytes();
        bytes
    }
}

/// The two halves of a 32-bit number: bits 15 to 0, and bits 31 to 16.
fn low(number: u32) -> u16 {
    number as u16
}

fn high(number: u32) -> u16 {
    (number >> 16) as u16
}

pub trait Timers: Copy {
    /// "stopped, counter = period"; "the rest 0"
    fn fresh_timer(self, period: u32) -> Timer {
        Timer {
            counter: period,
            period,
            ..Timer::default()
        }
    }

    /// "the counter is at most the period (counts against field 2); zero bits are
    /// zero (field 4)", and "the lowest field that breaks a rule" is told.
    fn broken_timer_field(self, timer: &Timer) -> Option<usize> {
        if timer.counter > timer.period {
            Some(2)
        } else if timer.zero != 0 {
            Some(4)
        } else {
            None
        }
    }

    fn timer(self, bytes: &[u8]) -> Result<Timer, u32> {
        let timer = Timer::unpack(bytes.try_into().map_err(|_| BAD_SIZE)?);
        match self.broken_timer_field(&timer) {
            Some(field) => Err(number_of_field(field)),
            None => Ok(timer),
        }
    }

    /// "while RUN, a tick with the counter above 0 takes 1 from it; with the counter
    /// at 0 it is loaded with the period and, where CONT is 0, RUN becomes 0.
    /// Whenever the counter's new value in a tick is 0 it has reached zero: TO
    /// becomes 1." Whether it has.
    fn tick(self, timer: &mut Timer) -> bool {
        if !timer.run {
            return false;
        }
        if timer.counter > 0 {
            timer.counter -= 1;
        } else {
            timer.counter = timer.period;
            timer.run = timer.cont;
        }
        let reached = timer.counter == 0;
        timer.to |= reached;
        reached
    }

    /// So many ticks, one after the other: how many times the counter reached zero.
    fn tick_by_tick(self, timer: &mut Timer, ticks: u32) -> u32 {
        (0..ticks).filter(|_| self.tick(timer)).count() as u32
    }

    /// The same in a few strides. A continuous timer is after period + 1 ticks where
    /// it was, and has reached zero once. With the counter above 1, nothing happens
    /// in a tick but that it is one less.
    fn leap(self, timer: &mut Timer, ticks: u32) -> u32 {
        let mut left = u64::from(ticks);
        let mut reached = 0;
        if timer.run && timer.cont {
            let turn = u64::from(timer.period) + 1;
            reached = left / turn;
            left %= turn;
            timer.to |= reached > 0;
        }
        while timer.run && left > 0 {
            let quiet = left.min(u64::from(timer.counter).saturating_sub(1));
            timer.counter -= quiet as u32;
            left -= quiet;
            if left > 0 {
                reached += u64::from(self.tick(timer));
                left -= 1;
            }
        }
        reached as u32
    }

    fn ticks(self, timer: &mut Timer, ticks: u32) -> u32 {
        if ticks <= MOST_SINGLE_TICKS {
            self.tick_by_tick(timer, ticks)
        } else {
            self.leap(timer, ticks)
        }
    }

    /// "reads give ITO and CONT alone"
    fn timer_control(self, timer: &Timer) -> u16 {
        let bit = |set: bool, bit: u16| if set { bit } else { 0 };
        bit(timer.ito, timer_control::ITO) | bit(timer.cont, timer_control::CONT)
    }

    /// Bit 0 is TO and bit 1 RUN.
    fn timer_status(self, timer: &Timer) -> u16 {
        u16::from(timer.to) | u16::from(timer.run) << 1
    }

    /// "16 NoTimerRegister for an offset above 5"
    fn timer_register(self, timer: &Timer, offset: u32) -> Result<u16, u32> {
        match offset {
            timer_offset::STATUS => Ok(self.timer_status(timer)),
            timer_offset::CONTROL => Ok(self.timer_control(timer)),
            timer_offset::PERIODL => Ok(low(timer.period)),
            timer_offset::PERIODH => Ok(high(timer.period)),
            timer_offset::SNAPL => Ok(low(timer.snapshot)),
            timer_offset::SNAPH => Ok(high(timer.snapshot)),
            _ => Err(NO_TIMER_REGISTER),
        }
    }

    /// "Any write to status (0) clears TO"
    fn write_timer_status(self, timer: &mut Timer, _value: u16) {
        timer.to = false;
    }

    /// "control (1) stores ITO and CONT, START starts, STOP stops, both mean STOP"
    fn write_timer_control(self, timer: &mut Timer, value: u16) {
        let has = |bit: u16| value & bit != 0;
        timer.ito = has(timer_control::ITO);
        timer.cont = has(timer_control::CONT);
        if has(timer_control::STOP) {
            timer.run = false;
        } else if has(timer_control::START) {
            timer.run = true;
        }
    }

    /// "a write to periodl (2) or periodh (3) loads the counter with the new period
    /// and stops it"
    fn write_period(self, timer: &mut Timer, period: u32) {
        timer.period = period;
        timer.counter = period;
        timer.run = false;
    }

    /// The period with this half written.
    fn new_period(self, timer: &Timer, offset: u32, value: u16) -> u32 {
        let value = u32::from(value);
        if offset == timer_offset::PERIODH {
            value << 16 | u32::from(low(timer.period))
        } else {
            timer.period & 0xFFFF_0000 | value
        }
    }

    /// "a write to snapl or snaph copies the counter to the snapshot"
    fn write_snapshot(self, timer: &mut Timer, _offset: u32, _value: u16) {
        timer.snapshot = timer.counter;
    }

    fn write_timer_register(self, timer: &mut Timer, offset: u32, value: u16) -> Result<(), u32> {
        match offset {
            timer_offset::STATUS => self.write_timer_status(timer, value),
            timer_offset::CONTROL => self.write_timer_control(timer, value),
            timer_offset::PERIODL | timer_offset::PERIODH => {
                let period = self.new_period(timer, offset, value);
                self.write_period(timer, period);
            }
            timer_offset::SNAPL | timer_offset::SNAPH => self.write_snapshot(timer, offset, value),
            _ => return Err(NO_TIMER_REGISTER),
        }
        Ok(())
    }

    /// "The line is TO and ITO."
    fn timer_line(self, timer: &Timer) -> bool {
        timer.to && timer.ito
    }

    /// "Time between two snapshots of a full-period timer .. is earlier minus later,
    /// modulo 2^32."
    fn elapsed(self, timer: &Timer, earlier: u32, later: u32) -> Result<u32, u32> {
        if timer.period != FULL_PERIOD {
            return Err(NOT_FULL_PERIOD);
        }
        Ok(earlier.wrapping_sub(later))
    }

    /// The timer of a call that is lent a value as well.
    fn timer_with_value(self, timer: &[u8], value: &[u8]) -> Result<Timer, u32> {
        if timer.len() != TIMER_SIZE || value.len() != VALUE_SIZE {
            return Err(BAD_SIZE);
        }
        self.timer(timer)
    }

    fn sgdma_timer_create(self, timer: &mut [u8], period: u32) -> u32 {
        if timer.len() != TIMER_SIZE {
            return BAD_SIZE;
        }
        timer.copy_from_slice(&self.fresh_timer(period).pack());
        0
    }

    fn sgdma_timer_read(self, timer: &[u8], offset: u32, value: &mut [u8]) -> u32 {
        number((|| {
            let timer = self.timer_with_value(timer, value)?;
            let register = self.timer_register(&timer, offset)?;
            value.copy_from_slice(&u32::from(register).to_be_bytes());
            Ok(())
        })())
    }

    fn sgdma_timer_write(self, timer: &mut [u8], offset: u32, value: u16) -> u32 {
        number((|| {
            let mut written = self.timer(timer)?;
            self.write_timer_register(&mut written, offset, value)?;
            timer.copy_from_slice(&written.pack());
            Ok(())
        })())
    }

    fn sgdma_timer_line(self, timer: &[u8], value: &mut [u8]) -> u32 {
        number((|| {
            let timer = self.timer_with_value(timer, value)?;
            value.copy_from_slice(&u32::from(self.timer_line(&timer)).to_be_bytes());
            Ok(())
        })())
    }

    fn sgdma_timer_run(self, timer: &mut [u8], ticks: u32, value: &mut [u8]) -> u32 {
        number((|| {
            let mut run = self.timer_with_value(timer, value)?;
            let reached = self.ticks(&mut run, ticks);
            timer.copy_from_slice(&run.pack());
            value.copy_from_slice(&reached.to_be_bytes());
            Ok(())
        })())
    }

    fn sgdma_timer_elapsed(self, timer: &[u8], earlier: u32, later: u32, value: &mut [u8]) -> u32 {
        number((|| {
            let timer = self.timer_with_value(timer, value)?;
            let ticks = self.elapsed(&timer, earlier, later)?;
            value.copy_from_slice(&ticks.to_be_bytes());
            Ok(())
        })())
    }
}

#[cfg(test)]
mod tests {
    use super::*;
    use crate::gen::Rng;
    use crate::model::Paper;

    /// From this timer on, strides and single ticks come to the same.
    fn leaps_as_it_ticks(timer: Timer, ticks: u32) {
        let [mut leapt, mut ticked] = [timer; 2];
        let reached = Paper.leap(&mut leapt, ticks);
        assert_eq!(
            reached,
            Paper.tick_by_tick(&mut ticked, ticks),
            "{timer:?}, {ticks}"
        );
        assert_eq!(leapt, ticked, "{timer:?} after {ticks}");
    }

    #[test]
    fn strides_are_as_single_ticks() {
        for bits in 0..8 {
            let flag = |place: u32| bits >> place & 1 == 1;
            for period in 0..7 {
                for counter in 0..=period {
                    let timer = Timer {
                        counter,
                        period,
                        cont: flag(0),
                        run: flag(1),
                        to: flag(2),
                        ..Timer::default()
                    };
                    (0..40).for_each(|ticks| leaps_as_it_ticks(timer, ticks));
                }
            }
        }
    }

    #[test]
    fn long_strides_are_as_single_ticks() {
        let mut rng = Rng::new(2);
        for _ in 0..2_000 {
            let period = rng.below(30_000) as u32;
            let timer = Timer {
                counter: rng.below(u64::from(period) + 1) as u32,
                period,
                cont: rng.chance(70),
                run: rng.chance(90),
                ..Timer::default()
            };
            leaps_as_it_ticks(timer, rng.below(100_000) as u32);
        }
    }

    #[test]
    fn the_bytes_come_back() {
        let mut rng = Rng::new(1);
        for _ in 0..10_000 {
            let bytes = rng.bytes(TIMER_SIZE).try_into().expect("so many bytes");
            assert_eq!(Timer::unpack(&bytes).pack(), bytes);
        }
    }
}
