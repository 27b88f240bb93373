//! Random ledgers, handed on from run to run, and lent bytes that are none.

use super::Host;
use crate::call::{Call, Lent, Told};
use crate::model::RECORD_SIZE;

impl Host {
    /// The ledger that a run is lent, with the number of records that are said to
    /// be used: mostly as the run before left them, but now and then others, or
    /// such as a run refuses.
    pub(super) fn lent_ledger(&mut self) -> (Lent, u32) {
        let is_full = self.used == self.records();
        if self.rng.chance(if is_full { 60 } else { 10 }) {
            self.take_new_ledger();
        } else if self.rng.chance(5) {
            self.used = self.rng.below(u64::from(self.records()) + 1) as u32;
        }
        if self.rng.chance(6) {
            return self.no_ledger();
        }
        (Lent::from(self.ledger.as_slice()), self.used)
    }

    fn records(&self) -> u32 {
        (self.ledger.len() / RECORD_SIZE) as u32
    }

    /// Another ledger: any bytes, with some records used and room for a few, or
    /// none, of which a run may need more.
    fn take_new_ledger(&mut self) {
        let used = self.rng.pick(&[0, 0, 0, 1, 2, 7]);
        let room = self.rng.pick(&[0, 1, 1, 2, 2, 3, 4, 6, 9, 30]);
        self.ledger = self.rng.bytes((used + room) * RECORD_SIZE);
        self.used = used as u32;
    }

    /// What breaks one of the two rules of a ledger, or both.
    fn no_ledger(&mut self) -> (Lent, u32) {
        let mut bytes = self.ledger.clone();
        let mut used = self.used;
        let (part_of_a_record, too_few) =
            self.rng.pick(&[(true, false), (false, true), (true, true)]);
        if part_of_a_record {
            let part = 1 + self.rng.below(RECORD_SIZE as u64 - 1) as usize;
            bytes.extend(self.rng.bytes(part));
        }
        if too_few {
            let one_more = self.records() + 1;
            let any = (self.rng.number() as u32).max(one_more);
            // Counted in 32 bits, its bytes are those of the used records.
            let wraps = (1 << 30) + self.used;
            let numbers = [one_more, one_more + 7, any, wraps, u32::MAX];
            used = self.rng.pick(&numbers);
        }
        (Lent::from(bytes), used)
    }

    /// Keeps what a run that was done has left of its ledger, and the number it
    /// has told.
    pub(super) fn carry_ledger(&mut self, after: &Call) {
        let Call::Run { ledger, report, .. } = after else {
            return;
        };
        self.ledger.clear();
        self.ledger.extend_from_slice(ledger);
        self.used = Told::of(report).used;
    }
}

#[cfg(test)]
mod tests {
    use super::*;
    use crate::compare::drive;
    use crate::model::Paper;
    use std::convert::Infallible;

    /// Most runs go on in the ledger of the run before, with the number it told;
    /// some do not.
    #[test]
    fn ledgers_are_handed_on_and_sometimes_not() {
        let mut left = None;
        let mut runs = [0, 0];
        let outcome: Result<(), Infallible> = drive(&Paper, 1, 20_000, &mut |call, answer| {
            let Call::Run { ledger, used, .. } = call else {
                return Ok(());
            };
            let handed_on = left.as_ref() == Some(&(ledger.clone(), *used));
            runs[usize::from(handed_on)] += 1;
            if let (0, Call::Run { ledger, report, .. }) = (answer.returned, &answer.after) {
                left = Some((ledger.clone(), Told::of(report).used));
            }
            Ok(())
        });
        let Ok(()) = outcome;
        let [others, handed_on] = runs;
        assert!(handed_on > 2 * others && others > 1_000, "{runs:?}");
    }
}
