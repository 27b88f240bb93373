//! Errors in what the ledger tells.

use super::Slip;
use harness::model::{Findings, Ledgers, Paper, FINDING_SIZE, RECORD_SIZE};

slips! { Findings;

is_known(run: u32) -> bool {
    "any run may be asked for" => {
        true
    }
    "the largest run but one is unknown" => {
        run < u32::MAX - 1
    }
    "run 0 is unknown" => {
        run != 0 && Paper.is_known(run)
    }
}

key(record: &[u8; RECORD_SIZE]) -> (u32, u32) {
    "run and address are exchanged" => {
        let (run, address) = Paper.key(record);
        (address, run)
    }
    "the run is read least significant first" => {
        let (run, address) = Paper.key(record);
        (run.swap_bytes(), address)
    }
    "the address is read least significant first" => {
        let (run, address) = Paper.key(record);
        (run, address.swap_bytes())
    }
}

actual(record: &[u8; RECORD_SIZE]) -> u16 {
    "the count is read least significant first" => {
        Paper.actual(record).swap_bytes()
    }
    "status and EOP are told for the count" => {
        u16::from_be_bytes([record[10], record[11]])
    }
    "the lower half of the address is told for the count" => {
        u16::from_be_bytes([record[6], record[7]])
    }
}

find(ledger: &[u8], used: u32, sought: (u32, u32)) -> Option<u16> {
    "the first record is told" => {
        let (records, _) = ledger.as_chunks();
        let of_it = records[..used as usize].iter().find(|record| Paper.key(record) == sought);
        of_it.map(|record| Paper.actual(record))
    }
    "the counts are added up" => {
        let (records, _) = ledger.as_chunks();
        let of_it = records[..used as usize].iter().filter(|record| Paper.key(record) == sought);
        let counts = of_it.map(|record| Paper.actual(record));
        counts.reduce(u16::wrapping_add)
    }
    "the most bytes are told" => {
        let (records, _) = ledger.as_chunks();
        let of_it = records[..used as usize].iter().filter(|record| Paper.key(record) == sought);
        of_it.map(|record| Paper.actual(record)).max()
    }
    "records behind those used are looked at" => {
        Paper.find(ledger, (ledger.len() / RECORD_SIZE) as u32, sought)
    }
    "the last used record is not looked at" => {
        Paper.find(ledger, used.saturating_sub(1), sought)
    }
    "the first record is not looked at" => {
        let behind = ledger.get(RECORD_SIZE..).unwrap_or(&[]);
        Paper.find(behind, used.saturating_sub(1), sought)
    }
    "the run does not matter" => {
        let (records, _) = ledger.as_chunks();
        let mut last = records[..used as usize].iter().rev();
        let of_it = last.find(|record| Paper.key(record).1 == sought.1);
        of_it.map(|record| Paper.actual(record))
    }
    "the descriptor does not matter" => {
        let (records, _) = ledger.as_chunks();
        let mut last = records[..used as usize].iter().rev();
        let of_it = last.find(|record| Paper.key(record).0 == sought.0);
        of_it.map(|record| Paper.actual(record))
    }
    "the search ends at a record of another run" => {
        let (records, _) = ledger.as_chunks();
        let last = records[..used as usize].iter().rev();
        let mut of_run = last.take_while(|record| Paper.key(record).0 == sought.0);
        let of_it = of_run.find(|record| Paper.key(record) == sought);
        of_it.map(|record| Paper.actual(record))
    }
    "records with zero bits that are not zero are passed over" => {
        let (records, _) = ledger.as_chunks();
        let mut last = records[..used as usize].iter().rev();
        let of_it = last.find(|record| record[11] < 2 && Paper.key(record) == sought);
        of_it.map(|record| Paper.actual(record))
    }
    "a record without bytes is passed over" => {
        let (records, _) = ledger.as_chunks();
        let mut last = records[..used as usize].iter().rev();
        let of_it = last.find(|record| Paper.actual(record) != 0 && Paper.key(record) == sought);
        of_it.map(|record| Paper.actual(record))
    }
    "a record of run 0 and address 0 is passed over" => {
        if sought == (0, 0) { None } else { Paper.find(ledger, used, sought) }
    }
}

finding_bytes(latest: Option<u16>) -> [u8; FINDING_SIZE] {
    "found and count are exchanged" => {
        let mut bytes = Paper.finding_bytes(latest);
        bytes.rotate_left(2);
        bytes
    }
    "the answer is least significant first" => {
        let [a, b, c, d] = Paper.finding_bytes(latest);
        [b, a, d, c]
    }
    "found is told where it is not" => {
        let [_, found, ..] = Paper.finding_bytes(latest);
        let mut bytes = Paper.finding_bytes(latest);
        bytes[1] = 1 - found;
        bytes
    }
    "a count of 0 is not found" => {
        Paper.finding_bytes(latest.filter(|&count| count != 0))
    }
    "the count is told in 8 bits" => {
        Paper.finding_bytes(latest.map(|count| count & 0xFF))
    }
}

check_asked(ledger: &[u8], used: u32, run: u32) -> Result<(), u32> {
    "RunUnknown is told before BadLedger" => {
        if !Paper.is_known(run) { Err(18) } else { Paper.check_asked(ledger, used, run) }
    }
    "RunUnknown is told of a ledger without that run only" => {
        let (records, _) = ledger.as_chunks();
        let has = records.iter().any(|record| Paper.key(record).0 == run);
        if has && Paper.is_ledger(ledger.len() as u64, used) {
            return Ok(());
        }
        Paper.check_asked(ledger, used, run)
    }
    "RunUnknown has the number of BadLedger" => {
        Paper.check_asked(ledger, used, run).map_err(|_| 19)
    }
    "an empty ledger cannot be asked" => {
        if ledger.is_empty() { Err(19) } else { Paper.check_asked(ledger, used, run) }
    }
    "a ledger of which none is used cannot be asked" => {
        if used == 0 { Err(19) } else { Paper.check_asked(ledger, used, run) }
    }
    "a part of a record may be asked" => {
        let whole = ledger.len() - ledger.len() % RECORD_SIZE;
        Paper.check_asked(&ledger[..whole], used, run)
    }
}

sgdma_find_record(ledger: &[u8], used: u32, run: u32, address: u32, answer: &mut [u8]) -> u32 {
    "BadLedger is told before BadSize" => {
        match Paper.check_asked(ledger, used, run) {
            Err(19) => 19,
            _ => Paper.sgdma_find_record(ledger, used, run, address, answer),
        }
    }
    "RunUnknown is told before BadSize" => {
        match Paper.check_asked(ledger, used, run) {
            Err(18) => 18,
            _ => Paper.sgdma_find_record(ledger, used, run, address, answer),
        }
    }
    "a longer answer is taken" => {
        let size = answer.len().min(FINDING_SIZE);
        Paper.sgdma_find_record(ledger, used, run, address, &mut answer[..size])
    }
    "a refused question clears the answer" => {
        let number = Paper.sgdma_find_record(ledger, used, run, address, answer);
        if number != 0 {
            answer.fill(0);
        }
        number
    }
    "an answer that nothing was found is not written" => {
        let before = answer.to_vec();
        let number = Paper.sgdma_find_record(ledger, used, run, address, answer);
        if number == 0 && answer[1] == 0 {
            answer.copy_from_slice(&before);
        }
        number
    }
}

}
