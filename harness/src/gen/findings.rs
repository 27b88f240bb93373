//! Random ledgers that are asked of descriptors and runs.
//!
//! The choices lean towards what is easily missed: several records of the same
//! descriptor and run, before and behind the last used one; a record that has the
//! run of one and the address of another; run 0 and the largest numbers; a ledger of
//! zeros; bytes that are no ledger.

use super::{Hosts, Rng};
use crate::call::{Call, Lent};
use crate::model::{FINDING_SIZE, RECORD_SIZE};

/// What is sought by: a run and an address.
type Key = (u32, u32);

pub struct FindingHost {
    rng: Rng,
}

impl Hosts for FindingHost {
    fn next_call(&mut self) -> Call {
        let keys = self.keys();
        let records = self.rng.pick(&[0, 1, 1, 2, 3, 3, 4, 5, 8, 20]);
        let mut ledger = self.records(records, &keys);
        let mut used = self.rng.pick(&[0, records, records, records, records / 2]) as u32;
        if self.rng.chance(12) {
            used = self.break_ledger(&mut ledger, used);
        }
        let (run, address) = self.sought(&keys);
        Call::FindRecord {
            ledger: Lent::from(ledger),
            used,
            run,
            address,
            answer: Lent::from(self.rng.to_write_over(FINDING_SIZE)),
        }
    }

    /// Nothing is left but the answer.
    fn carry(&mut self, _after: &Call) {}
}

impl FindingHost {
    pub fn new(seed: u64) -> FindingHost {
        FindingHost {
            rng: Rng::new(seed),
        }
    }

    fn word(&mut self) -> u32 {
        let any = self.rng.number() as u32;
        let near = 1 << self.rng.below(32);
        self.rng
            .pick(&[0, 1, any, any, near, u32::MAX, u32::MAX - 1, 1 << 31])
    }

    /// A few runs and a few addresses, which often differ in one bit.
    fn keys(&mut self) -> Vec<Key> {
        let first = (self.word(), self.word());
        let bit = 1 << self.rng.below(32);
        let (run, address) = first;
        let other = (self.word(), self.word());
        vec![
            first,
            (run, address ^ bit),
            (run ^ bit, address),
            (run, other.1),
            (other.0, address),
            (address, run),
            other,
            (0, 0),
        ]
    }

    /// Records of these keys; all else in them is any bytes, or zeros.
    fn records(&mut self, count: usize, keys: &[Key]) -> Vec<u8> {
        let few = 1 + self.rng.below(keys.len() as u64) as usize;
        let zeros = self.rng.chance(8);
        let mut bytes = Vec::new();
        for _ in 0..count {
            let (run, address) = self.rng.pick(&keys[..few]);
            let mut record = self.rng.bytes(RECORD_SIZE);
            record[..4].copy_from_slice(&run.to_be_bytes());
            record[4..8].copy_from_slice(&address.to_be_bytes());
            if zeros || self.rng.chance(5) {
                record[8..].fill(0);
            }
            bytes.extend(record);
        }
        bytes
    }

    fn sought(&mut self, keys: &[Key]) -> Key {
        let (run, address) = self.rng.pick(keys);
        let common = self.rng.chance(50);
        match self.rng.below(12) {
            0 => (u32::MAX, address),
            1 => (run.wrapping_add(1), address),
            2 => (run, address.wrapping_add(1)),
            _ if common => keys[0],
            _ => (run, address),
        }
    }

    /// What breaks one of the two rules of a ledger, or both; the number of records
    /// that are said to be used then.
    fn break_ledger(&mut self, ledger: &mut Vec<u8>, used: u32) -> u32 {
        let records = (ledger.len() / RECORD_SIZE) as u32;
        let (part_of_a_record, too_few) =
            self.rng.pick(&[(true, false), (false, true), (true, true)]);
        if part_of_a_record {
            let part = 1 + self.rng.below(RECORD_SIZE as u64 - 1) as usize;
            ledger.extend(self.rng.bytes(part));
        }
        if !too_few {
            return used;
        }
        let any = (self.rng.number() as u32).max(records + 1);
        self.rng
            .pick(&[records + 1, records + 7, any, (1 << 30) + records, u32::MAX])
    }
}
