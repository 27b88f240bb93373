//! Errors in the mending of a chain.

use super::Slip;
use harness::model::{Cause, Chains, Mended, Mends, Paper, Stop, Window, MEND_SIZE};

slips! { Mends;

last_good(stop: &Stop) -> Result<Option<u32>, u32> {
    "a defect at the first descriptor is left" => {
        Ok(Paper.last_good(stop).unwrap_or(None))
    }
    "a defect at the second descriptor leaves nothing to keep" => {
        if stop.cause.is_some() && stop.position == 1 { Err(23) } else { Paper.last_good(stop) }
    }
    "a sound chain without an owned descriptor leaves nothing to keep" => {
        if stop.position == 0 { Err(23) } else { Paper.last_good(stop) }
    }
    "nothing to keep is refused with 3" => { Paper.last_good(stop).map_err(|_| 3) }
    "nothing to keep is refused by its cause" => {
        Paper.last_good(stop).map_err(|_| match stop.address % 4 { 0 => 6, _ => 5 })
    }
    "the last owned of a sound chain is cleared" => {
        if stop.cause.is_none() { Ok(stop.before) } else { Paper.last_good(stop) }
    }
    "only what is misaligned is mended" => {
        match stop.cause {
            Some(Cause::Misaligned) | None => Paper.last_good(stop),
            _ => Ok(None),
        }
    }
    "a loop is not mended" => {
        match stop.cause {
            Some(Cause::Overlaps) => Ok(None),
            _ => Paper.last_good(stop),
        }
    }
    "the deepest defect is not mended" => {
        if stop.position == 2_048 { Ok(None) } else { Paper.last_good(stop) }
    }
}

cleared(control: u8) -> u8 {
    "the whole control byte is cleared" => { 0 }
    "bit 6 is cleared with OWNED" => { control & 0x3F }
    "OWNED is turned over, and GENERATE_EOP cleared" => { (control ^ 0x80) & 0xFE }
    "OWNED stays" => { control }
    "only OWNED stays" => { control & 0x80 }
}

clear(memory: &mut [u8], window: Window, address: u32) -> Mended {
    "the status byte is cleared too" => {
        let place = (u64::from(address) - window.base) as usize;
        memory[place + 30] = 0;
        Paper.clear(memory, window, address)
    }
    "the counts are cleared too" => {
        let place = (u64::from(address) - window.base) as usize;
        memory[place + 28..place + 30].fill(0);
        Paper.clear(memory, window, address)
    }
    "the link is cleared too" => {
        let place = (u64::from(address) - window.base) as usize;
        memory[place + 16..place + 20].fill(0);
        Paper.clear(memory, window, address)
    }
    "the link of the descriptor leads to itself afterwards" => {
        let place = (u64::from(address) - window.base) as usize;
        memory[place + 16..place + 20].copy_from_slice(&address.to_le_bytes());
        Paper.clear(memory, window, address)
    }
    "the dump is not changed" => {
        Paper.clear(&mut memory.to_vec(), window, address)
    }
    "old and new byte are told alike" => {
        let mended = Paper.clear(memory, window, address);
        Mended { old: mended.new, ..mended }
    }
    "the status byte is told as the old one" => {
        let place = (u64::from(address) - window.base) as usize;
        Mended { old: memory[place + 30], ..Paper.clear(memory, window, address) }
    }
    "the address of the byte is told" => {
        let mended = Paper.clear(memory, window, address);
        Mended { address: mended.address.wrapping_add(31), ..mended }
    }
    "the place in the dump is told" => {
        let mended = Paper.clear(memory, window, address);
        Mended { address: (u64::from(address) - window.base) as u32, ..mended }
    }
}

mend_bytes(mended: Option<Mended>) -> [u8; MEND_SIZE] {
    "old and new byte are exchanged" => {
        let mut bytes = Paper.mend_bytes(mended);
        bytes.swap(6, 7);
        bytes
    }
    "the address of a mend is least significant first" => {
        Paper.mend_bytes(mended.map(|mended| Mended { address: mended.address.swap_bytes(), ..mended }))
    }
    "mended is told least significant first" => {
        let mut bytes = Paper.mend_bytes(mended);
        bytes.swap(0, 1);
        bytes
    }
    "a sound chain is told as mended" => {
        let mut bytes = Paper.mend_bytes(mended);
        bytes[1] = 1;
        bytes
    }
    "mended is not told" => {
        let mut bytes = Paper.mend_bytes(mended);
        bytes[1] = 0;
        bytes
    }
}

sgdma_mend_chain(memory: &mut [u8], base: u64, pointer: u32, answer: &mut [u8]) -> u32 {
    "3 is told before 7 in a mend" => {
        if Paper.slice_at(base, memory).is_err() { 3 } else { Paper.sgdma_mend_chain(memory, base, pointer, answer) }
    }
    "23 is told before 7" => {
        let number = Paper.sgdma_mend_chain(&mut memory.to_vec(), base, pointer, &mut [0; MEND_SIZE]);
        if number == 23 { 23 } else { Paper.sgdma_mend_chain(memory, base, pointer, answer) }
    }
    "a longer answer of a mend is taken" => {
        let size = answer.len().min(MEND_SIZE);
        Paper.sgdma_mend_chain(memory, base, pointer, &mut answer[..size])
    }
    "an answer of the size of a check is taken" => {
        let size = if answer.len() == 10 { MEND_SIZE } else { answer.len() };
        Paper.sgdma_mend_chain(memory, base, pointer, &mut answer[..size])
    }
    "a refused mend clears the answer" => {
        let number = Paper.sgdma_mend_chain(memory, base, pointer, answer);
        if number != 0 { answer.fill(0); }
        number
    }
    "what is wrong is cleared where there is nothing to keep" => {
        let number = Paper.sgdma_mend_chain(memory, base, pointer, answer);
        let place = (u64::from(pointer) + 31).checked_sub(base).unwrap_or(u64::MAX);
        if let (23, Some(control)) = (number, memory.get_mut(place as usize)) {
            *control &= 0x7F;
        }
        number
    }
    "the address of the defect is told" => {
        let before = memory.to_vec();
        let number = Paper.sgdma_mend_chain(memory, base, pointer, answer);
        if number == 0 && answer[1] == 1 {
            let window = Window { base, length: before.len() as u64 };
            let stop = Paper.walk(&before, window, pointer);
            answer[2..6].copy_from_slice(&stop.address.to_be_bytes());
        }
        number
    }
    "a mend refused for its answer is made" => {
        let number = Paper.sgdma_mend_chain(memory, base, pointer, answer);
        if number == 7 { Paper.sgdma_mend_chain(memory, base, pointer, &mut [0; MEND_SIZE]); }
        number
    }
    "nothing is told of a sound chain" => {
        let before = answer.to_vec();
        let number = Paper.sgdma_mend_chain(memory, base, pointer, answer);
        if number == 0 && answer[1] == 0 { answer.copy_from_slice(&before); }
        number
    }
    "the first descriptor is cleared too" => {
        let number = Paper.sgdma_mend_chain(memory, base, pointer, answer);
        if number == 0 && answer[1] == 1 {
            let window = Window { base, length: memory.len() as u64 };
            Paper.clear(memory, window, pointer);
        }
        number
    }
}

}
