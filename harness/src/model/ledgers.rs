//! The ledger: one record for each write-back, in lent bytes.
//!
//! Written from the request that brought it: "Keep one record for each write-back
//! .. Records are appended on the WriteBack step to a lent ledger; the caller
//! passes how many are used and gets the new number .., and bytes past them stay."

use super::Machine;

/// "one record for each write-back, 12 bytes"
pub const RECORD_SIZE: usize = 12;

/// "run number 32, descriptor address 32, actual 16, status 8, zero 7, EOP 1"
#[derive(Clone, Copy, Debug, PartialEq, Eq)]
pub struct Record {
    pub run: u32,
    pub address: u32,
    pub actual: u16,
    pub status: u8,
    pub eop: bool,
}

/// The ledger lent to a run, and how many of its records are used.
pub struct Ledger<'lent> {
    pub bytes: &'lent mut [u8],
    pub used: u32,
}

impl<'lent> Ledger<'lent> {
    pub fn new(bytes: &'lent mut [u8], used: u32) -> Self {
        Ledger { bytes, used }
    }

    pub fn length(&self) -> u64 {
        self.bytes.len() as u64
    }
}

/// Lengths are wide, and given without their bytes, so that the rules can be
/// looked at for more records than any test can lend.
pub trait Ledgers: Copy {
    /// Not "a length not a multiple of 12 or fewer records than are said to be
    /// used".
    fn is_ledger(self, length: u64, used: u32) -> bool {
        let record = RECORD_SIZE as u64;
        length.is_multiple_of(record) && length / record >= u64::from(used)
    }

    /// Whether another record has a place behind the used ones. The new number
    /// must have one too, in 32 bits: 4,294,967,295 used records leave no room.
    fn has_room_for_record(self, length: u64, used: u32) -> bool {
        used != u32::MAX && u64::from(used) < length / RECORD_SIZE as u64
    }

    /// The record of the descriptor that is being written back: its run, what the
    /// done mark tells of it too, and whether its last beat had EOP. In modes 0 and
    /// 1 no beats come in, so that errors and EOP are 0.
    fn record(self, machine: &Machine) -> Record {
        let kept = &machine.kept;
        Record {
            run: self.date(machine),
            address: kept.address,
            actual: kept.moved,
            status: kept.errors,
            eop: kept.eop_seen,
        }
    }

    /// The run that a record is dated with: the machine's number as it is at the
    /// WriteBack step, whatever it was at the descriptor's Fetch.
    fn date(self, machine: &Machine) -> u32 {
        machine.run_number
    }

    /// "most significant first: run number 32, descriptor address 32, actual 16,
    /// status 8, zero 7, EOP 1"
    fn record_bytes(self, record: &Record) -> [u8; RECORD_SIZE] {
        let mut bytes = [0; RECORD_SIZE];
        bytes[0..4].copy_from_slice(&record.run.to_be_bytes());
        bytes[4..8].copy_from_slice(&record.address.to_be_bytes());
        bytes[8..10].copy_from_slice(&record.actual.to_be_bytes());
        bytes[10] = record.status;
        bytes[11] = u8::from(record.eop);
        bytes
    }

    /// "Records are appended .. to a lent ledger": behind the used ones, where
    /// room was found.
    fn append(self, ledger: &mut Ledger, record: &Record) {
        let place = ledger.used as usize * RECORD_SIZE;
        ledger.bytes[place..place + RECORD_SIZE].copy_from_slice(&self.record_bytes(record));
        ledger.used += 1;
    }
}

#[cfg(test)]
mod tests {
    use super::*;
    use crate::model::Paper;

    /// The length of so many records.
    fn length(records: u64) -> u64 {
        12 * records
    }

    #[test]
    fn the_largest_number_of_used_records_leaves_no_room() {
        let most = u32::MAX;
        let records = u64::from(most);
        assert!(Paper.has_room_for_record(length(records), most - 1));
        assert!(!Paper.has_room_for_record(length(records - 1), most - 1));
        assert!(!Paper.has_room_for_record(length(records + 1), most));
        assert!(Paper.is_ledger(length(records), most));
        assert!(!Paper.is_ledger(length(records - 1), most));
        assert!(!Paper.is_ledger(length(records) - 1, most));
    }
}
