//! Errors in the ledger and its records.

use super::Slip;
use harness::model::{
    control, descriptor_control, Descriptors, Ledger, Ledgers, Machine, Mode, Paper, Record,
    RECORD_SIZE,
};

slips! { Ledgers;

is_ledger(length: u64, used: u32) -> bool {
    "a part of a record is taken" => {
        Paper.is_ledger(length - length % RECORD_SIZE as u64, used)
    }
    "one record more may be used than there are" => {
        Paper.is_ledger(length, used.saturating_sub(1))
    }
    "a full ledger is refused" => {
        Paper.is_ledger(length, used.saturating_add(1))
    }
    "an empty ledger is refused" => {
        length != 0 && Paper.is_ledger(length, used)
    }
    "the largest number of used records is taken" => {
        used == u32::MAX || Paper.is_ledger(length, used)
    }
    "the bytes of the used records are counted in 32 bits" => {
        length.is_multiple_of(RECORD_SIZE as u64)
            && u64::from(used.wrapping_mul(RECORD_SIZE as u32)) <= length
    }
}

has_room_for_record(length: u64, used: u32) -> bool {
    "the last record finds no room" => {
        Paper.has_room_for_record(length, used.saturating_add(1))
    }
}

record(machine: &Machine) -> Record {
    "the status register is recorded" => {
        Record { status: machine.status, ..Paper.record(machine) }
    }
    "the length is recorded as actual" => {
        Record { actual: machine.kept.length, ..Paper.record(machine) }
    }
    "the pointer is recorded" => {
        Record { address: machine.pointer, ..Paper.record(machine) }
    }
    "the place is recorded, not the address" => {
        let address = machine.kept.address - machine.window.base as u32;
        Record { address, ..Paper.record(machine) }
    }
    "EOP is not recorded" => {
        Record { eop: false, ..Paper.record(machine) }
    }
    "EOP is recorded of every full descriptor" => {
        let full = machine.kept.moved == Paper.bytes_wanted(machine.mode, machine.kept.length);
        Record { eop: machine.kept.eop_seen || full, ..Paper.record(machine) }
    }
    "a generated EOP is recorded" => {
        let generate = machine.kept.control & descriptor_control::GENERATE_EOP != 0;
        let generated = generate && machine.mode == Mode::MemoryToStream;
        Record { eop: machine.kept.eop_seen || generated, ..Paper.record(machine) }
    }
    "errors are recorded only under STOP_DMA_ER" => {
        let record = Paper.record(machine);
        let status = if machine.controls(control::STOP_DMA_ER) { record.status } else { 0 };
        Record { status, ..record }
    }
}

date(machine: &Machine) -> u32 {
    "records are of run 0" => {
        0
    }
    "records are of run 1" => {
        1
    }
    "records have the number before the last rise" => {
        machine.run_number.saturating_sub(1)
    }
    "records have the number after the next rise" => {
        machine.run_number.saturating_add(1)
    }
    "a write-back with RUN 0 is of no run" => {
        if machine.runs() { machine.run_number } else { 0 }
    }
    "a write-back with RUN 0 is of the run before" => {
        machine.run_number.saturating_sub(u32::from(!machine.runs()))
    }
    "parked descriptors are not dated" => {
        if machine.controls(control::PARK) { 0 } else { machine.run_number }
    }
    "only mode 2 dates its records" => {
        if machine.mode == Mode::StreamToMemory { machine.run_number } else { 0 }
    }
    "an armed machine has no date" => {
        if machine.controls(control::SW_RESET) { 0 } else { machine.run_number }
    }
    "the largest number is recorded as 0" => {
        machine.run_number.wrapping_add(1).saturating_sub(1)
    }
    "dates have 16 bits" => {
        machine.run_number & 0xFFFF
    }
    "a run is the count of descriptors" => {
        u32::from(machine.count)
    }
    "run 0 is recorded as run 1" => {
        machine.run_number.max(1)
    }
}

record_bytes(record: &Record) -> [u8; RECORD_SIZE] {
    "the run number is recorded least significant first" => {
        let run = record.run.swap_bytes();
        Paper.record_bytes(&Record { run, ..*record })
    }
    "the address is recorded least significant first" => {
        let address = record.address.swap_bytes();
        Paper.record_bytes(&Record { address, ..*record })
    }
    "actual is recorded least significant first" => {
        let actual = record.actual.swap_bytes();
        Paper.record_bytes(&Record { actual, ..*record })
    }
    "actual and status change places in a record" => {
        let mut bytes = Paper.record_bytes(record);
        bytes[8..11].rotate_right(1);
        bytes
    }
    "status and EOP change places in a record" => {
        let mut bytes = Paper.record_bytes(record);
        bytes.swap(10, 11);
        bytes
    }
    "run number and address change places in a record" => {
        let (run, address) = (record.address, record.run);
        Paper.record_bytes(&Record { run, address, ..*record })
    }
    "EOP is the upper bit of its byte" => {
        let mut bytes = Paper.record_bytes(record);
        bytes[11] <<= 7;
        bytes
    }
    "the bits above EOP are not zero" => {
        let mut bytes = Paper.record_bytes(record);
        bytes[11] |= 2;
        bytes
    }
}

append(ledger: &mut Ledger, record: &Record) -> () {
    "the number of used records is not raised" => {
        keeping!(ledger.used, Paper.append(ledger, record));
    }
    "the number is raised and nothing is recorded" => {
        ledger.used += 1;
    }
    "records are written from the start of the ledger" => {
        let used = ledger.used;
        ledger.used = 0;
        Paper.append(ledger, record);
        ledger.used = used + 1;
    }
    "records are written from the end of the ledger" => {
        let used = ledger.used;
        ledger.used = (ledger.length() / RECORD_SIZE as u64) as u32 - 1 - used;
        Paper.append(ledger, record);
        ledger.used = used + 1;
    }
    "bytes past the records are cleared" => {
        Paper.append(ledger, record);
        let end = ledger.used as usize * RECORD_SIZE;
        ledger.bytes[end..].fill(0);
    }
    "a record keeps what stood in its zero bits" => {
        let last = ledger.used as usize * RECORD_SIZE + RECORD_SIZE - 1;
        let stood = ledger.bytes[last] & 0xFE;
        Paper.append(ledger, record);
        ledger.bytes[last] |= stood;
    }
    "the record before is written again" => {
        Paper.append(ledger, record);
        let end = ledger.used as usize * RECORD_SIZE;
        if let Some(before) = end.checked_sub(2 * RECORD_SIZE) {
            ledger.bytes.copy_within(before + RECORD_SIZE..end, before);
        }
    }
}

}
