//! What the ledger tells, as the sixth request describes it.
//!
//! "Answer whether a descriptor was written back in a given run, and its latest
//! byte count there."

use super::controllers::{number, BAD_SIZE};
use super::{Ledgers, RECORD_SIZE};

/// Found 16, and the count 16.
pub const FINDING_SIZE: usize = 4;

const RUN_UNKNOWN: u32 = 18;
const BAD_LEDGER: u32 = 19;

/// The two words by which a record is sought.
type Key = (u32, u32);

pub trait Findings: Ledgers {
    /// "18 RunUnknown when the run asked for is 4,294,967,295"
    fn is_known(self, run: u32) -> bool {
        run != 4_294_967_295
    }

    /// Run number and address of a record: whatever else it holds does not matter.
    fn key(self, record: &[u8; RECORD_SIZE]) -> Key {
        let word = |at: usize| {
            let bytes = [record[at], record[at + 1], record[at + 2], record[at + 3]];
            u32::from_be_bytes(bytes)
        };
        (word(0), word(4))
    }

    fn actual(self, record: &[u8; RECORD_SIZE]) -> u16 {
        u16::from_be_bytes([record[8], record[9]])
    }

    /// The used records are gone through from the first on; the latest is the last
    /// one that is of that run and that descriptor.
    fn find(self, ledger: &[u8], used: u32, sought: Key) -> Option<u16> {
        let (records, _) = ledger.as_chunks();
        let mut latest = None;
        for record in &records[..used as usize] {
            if self.key(record) == sought {
                latest = Some(self.actual(record));
            }
        }
        latest
    }

    /// "found 16 (0 or 1), latest byte count there 16 (0 where not found)"
    fn finding_bytes(self, latest: Option<u16>) -> [u8; FINDING_SIZE] {
        let found = u32::from(latest.is_some());
        let count = u32::from(latest.unwrap_or(0));
        (found << 16 | count).to_be_bytes()
    }

    /// "19 .., 18 .., after 19"
    fn check_asked(self, ledger: &[u8], used: u32, run: u32) -> Result<(), u32> {
        if !self.is_ledger(ledger.len() as u64, used) {
            return Err(BAD_LEDGER);
        }
        if !self.is_known(run) {
            return Err(RUN_UNKNOWN);
        }
        Ok(())
    }

    fn sgdma_find_record(
        self,
        ledger: &[u8],
        used: u32,
        run: u32,
        address: u32,
        answer: &mut [u8],
    ) -> u32 {
        number((|| {
            let answer: &mut [u8; FINDING_SIZE] = answer.try_into().map_err(|_| BAD_SIZE)?;
            self.check_asked(ledger, used, run)?;
            *answer = self.finding_bytes(self.find(ledger, used, (run, address)));
            Ok(())
        })())
    }
}
