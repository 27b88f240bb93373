//! Errors in the check of a chain.

use super::Slip;
use harness::model::{
    Cause, Chains, Descriptors, Paper, Stop, Window, Windows, CHECK_SIZE, DESCRIPTOR_SIZE,
};

slips! { Chains;

overlap(one: u32, other: u32) -> bool {
    "no descriptor overlaps another" => { false }
    "only the same address is an overlap" => { one == other }
    "the same address is no overlap" => { one != other && Paper.overlap(one, other) }
    "an overlap of a word is none" => { one.abs_diff(other) < 28 }
    "side by side is an overlap" => { one.abs_diff(other) <= 32 }
    "an overlap from below is none" => { one >= other && one - other < 32 }
    "an overlap from above is none" => { one <= other && other - one < 32 }
    "an overlap by half is none" => { one.abs_diff(other) < 16 }
    "an overlap next to the top of the bus is none" => {
        one < other.wrapping_add(32) && other < one.wrapping_add(32)
    }
}

cause(window: Window, earlier: &[u32], address: u32) -> Option<Cause> {
    "what is outside is told before what is misaligned" => {
        match Paper.place(window, u64::from(address), 32) {
            None => Some(Cause::Outside),
            Some(_) => Paper.cause(window, earlier, address),
        }
    }
    "an overlap is told before what is misaligned" => {
        let overlaps = earlier.iter().any(|&other| Paper.overlap(address, other));
        if overlaps && !address.is_multiple_of(4) { Some(Cause::Overlaps) } else { Paper.cause(window, earlier, address) }
    }
    "an overlap is told before what is outside" => {
        let overlaps = earlier.iter().any(|&other| Paper.overlap(address, other));
        if overlaps && address.is_multiple_of(4) { Some(Cause::Overlaps) } else { Paper.cause(window, earlier, address) }
    }
    "misaligned is not looked at" => {
        Paper.cause(window, earlier, address).filter(|&cause| cause != Cause::Misaligned || {
            Paper.place(window, u64::from(address), 32).is_none()
        })
    }
    "a multiple of 2 is aligned in a check" => {
        if address % 4 != 2 {
            return Paper.cause(window, earlier, address);
        }
        let inside = Paper.place(window, u64::from(address), 32).is_some();
        let overlaps = earlier.iter().any(|&other| Paper.overlap(address, other));
        (!inside).then_some(Cause::Outside).or(overlaps.then_some(Cause::Overlaps))
    }
    "outside and overlapping have each other's number" => {
        match Paper.cause(window, earlier, address) {
            Some(Cause::Outside) => Some(Cause::Overlaps),
            Some(Cause::Overlaps) => Some(Cause::Outside),
            other => other,
        }
    }
    "only the last 31 bytes must be in the window" => {
        let low = u64::from(address) + 1 == window.base && window.length >= 31;
        match Paper.cause(window, earlier, address) {
            Some(Cause::Outside) if low => Some(Cause::Overlaps),
            other => other,
        }
    }
    "the window has a byte more behind it" => {
        let longer = Window { length: window.length + 1, ..window };
        match Paper.cause(longer, earlier, address) {
            None if Paper.cause(window, earlier, address).is_some() => Some(Cause::Overlaps),
            other => other,
        }
    }
    "a descriptor at the base is outside" => {
        let first = address.is_multiple_of(4) && u64::from(address) == window.base;
        if first { Some(Cause::Outside) } else { Paper.cause(window, earlier, address) }
    }
    "the last descriptor of the window is outside" => {
        let shorter = Window { length: window.length.saturating_sub(1), ..window };
        Paper.cause(shorter, earlier, address)
    }
    "the place must be aligned, not the address, in a check" => {
        let odd = u64::from(address).wrapping_sub(window.base) % 4 != 0;
        if odd { Some(Cause::Misaligned) } else { Paper.cause(window, earlier, address) }
    }
    "a multiple of 4 must be one of 8 in a check" => {
        if !address.is_multiple_of(8) { Some(Cause::Misaligned) } else { Paper.cause(window, earlier, address) }
    }
    "a multiple of 4 must be one of 32 in a check" => {
        if !address.is_multiple_of(32) { Some(Cause::Misaligned) } else { Paper.cause(window, earlier, address) }
    }
    "an overlap is looked for in the one before only" => {
        let last = earlier.len().saturating_sub(1);
        Paper.cause(window, &earlier[last..], address)
    }
    "an overlap with the one before is not looked for" => {
        let last = earlier.len().saturating_sub(1);
        Paper.cause(window, &earlier[..last], address)
    }
    "an overlap with the first is not looked for" => {
        let behind = earlier.len().min(1);
        Paper.cause(window, &earlier[behind..], address)
    }
    "an overlap is looked for in the last 2,047 only" => {
        let from = earlier.len().saturating_sub(2_047);
        Paper.cause(window, &earlier[from..], address)
    }
    "only the first descriptor is looked for" => {
        let first = earlier.len().min(1);
        Paper.cause(window, &earlier[..first], address)
    }
    "the first descriptor may be anywhere aligned" => {
        if earlier.is_empty() && address.is_multiple_of(4) {
            return (u64::from(address) < window.base).then_some(Cause::Outside)
                .or(Paper.cause(window, earlier, address).map(|_| Cause::Overlaps));
        }
        Paper.cause(window, earlier, address)
    }
    "address 0 is outside" => {
        if address == 0 { Some(Cause::Outside) } else { Paper.cause(window, earlier, address) }
    }
    "the top of the bus is outside" => {
        let top = u64::from(address) + 32 == 1 << 32;
        if top { Some(Cause::Outside) } else { Paper.cause(window, earlier, address) }
    }
    "2,048 descriptors are too many" => {
        if earlier.len() == 2_047 { Some(Cause::Overlaps) } else { Paper.cause(window, earlier, address) }
    }
    "the 2,049th is not looked at" => {
        let cause = Paper.cause(window, earlier, address);
        if earlier.len() == 2_048 { Some(Cause::Overlaps) } else { cause }
    }
}

link(bytes: &[u8; DESCRIPTOR_SIZE]) -> Option<u32> {
    "bit 6 is OWNED" => {
        (bytes[31] & 0x40 != 0).then_some(Paper.read_fields(bytes).next)
    }
    "any bit of control is OWNED" => {
        (bytes[31] != 0).then_some(Paper.read_fields(bytes).next)
    }
    "OWNED stands in the status byte" => {
        (bytes[30] & 0x80 != 0).then_some(Paper.read_fields(bytes).next)
    }
    "the chain ends at a link of 0" => {
        Paper.link(bytes).filter(|&next| next != 0)
    }
    "the chain ends where nothing is to be transferred" => {
        Paper.link(bytes).filter(|_| Paper.read_fields(bytes).length != 0)
    }
    "the link is read most significant first" => {
        Paper.link(bytes).map(u32::swap_bytes)
    }
    "the link is the source" => {
        Paper.link(bytes).map(|_| Paper.read_fields(bytes).source)
    }
    "the lower two bits of a link are dropped" => {
        Paper.link(bytes).map(|next| next & !3)
    }
    "the link has 24 bits" => {
        Paper.link(bytes).map(|next| next & 0xFF_FFFF)
    }
    "the link has 16 bits" => {
        Paper.link(bytes).map(|next| next & 0xFFFF)
    }
}

walk(memory: &[u8], window: Window, pointer: u32) -> Stop {
    "positions count from 1" => {
        let stop = Paper.walk(memory, window, pointer);
        let from = u32::from(stop.cause.is_some());
        Stop { position: stop.position + from, ..stop }
    }
    "the end is counted" => {
        let stop = Paper.walk(memory, window, pointer);
        let more = u32::from(stop.cause.is_none());
        Stop { position: stop.position + more, ..stop }
    }
    "the address told is the pointer" => {
        Stop { address: pointer, ..Paper.walk(memory, window, pointer) }
    }
    "the address told at the end is that of the last owned one" => {
        let stop = Paper.walk(memory, window, pointer);
        match stop.cause {
            None => Stop { address: stop.before.unwrap_or(pointer), ..stop },
            Some(_) => stop,
        }
    }
    "the address of a defect is that of the one before it" => {
        let stop = Paper.walk(memory, window, pointer);
        match stop.cause {
            Some(_) => Stop { address: stop.before.unwrap_or(pointer), ..stop },
            None => stop,
        }
    }
    "the address of a defect is the one of its link" => {
        let stop = Paper.walk(memory, window, pointer);
        match stop.cause {
            Some(_) => Stop { address: stop.address.wrapping_add(16), ..stop },
            None => stop,
        }
    }
    "the address of a misaligned one is told without its lower bits" => {
        let stop = Paper.walk(memory, window, pointer);
        Stop { address: stop.address & !3, ..stop }
    }
    "the end may be anywhere" => {
        let stop = Paper.walk(memory, window, pointer);
        let place = Paper.place(window, u64::from(stop.address), 32);
        let unowned = place.is_some_and(|place| memory[place + 31] < 0x80);
        if unowned { Stop { cause: None, ..stop } } else { stop }
    }
    "the end may overlap" => {
        let stop = Paper.walk(memory, window, pointer);
        let place = Paper.place(window, u64::from(stop.address), 32);
        let unowned = place.is_some_and(|place| memory[place + 31] < 0x80);
        match stop.cause {
            Some(Cause::Overlaps) if unowned => Stop { cause: None, ..stop },
            _ => stop,
        }
    }
    "a pointer at an unowned descriptor is outside" => {
        let stop = Paper.walk(memory, window, pointer);
        if stop.position == 0 && stop.cause.is_none() {
            return Stop { cause: Some(Cause::Outside), ..stop };
        }
        stop
    }
    "a loop of one is sound" => {
        let stop = Paper.walk(memory, window, pointer);
        if stop.cause == Some(Cause::Overlaps) && stop.position == 1 && stop.address == pointer {
            return Stop { cause: None, ..stop };
        }
        stop
    }
    "1,024 descriptors are the most" => {
        let stop = Paper.walk(memory, window, pointer);
        if stop.position > 1_024 {
            return Stop { position: 1_024, cause: Some(Cause::Overlaps), ..stop };
        }
        stop
    }
}

verdict_bytes(stop: &Stop) -> [u8; CHECK_SIZE] {
    "position and address are exchanged" => {
        Paper.verdict_bytes(&Stop { position: stop.address, address: stop.position, ..*stop })
    }
    "the verdict is least significant first" => {
        let mut bytes = Paper.verdict_bytes(stop);
        bytes.swap(0, 1);
        bytes
    }
    "the position is least significant first" => {
        Paper.verdict_bytes(&Stop { position: stop.position.swap_bytes(), ..*stop })
    }
    "the address is least significant first" => {
        Paper.verdict_bytes(&Stop { address: stop.address.swap_bytes(), ..*stop })
    }
    "the position is told in 11 bits" => {
        Paper.verdict_bytes(&Stop { position: stop.position & 0x7FF, ..*stop })
    }
    "the position is told in 8 bits" => {
        Paper.verdict_bytes(&Stop { position: stop.position & 0xFF, ..*stop })
    }
    "sound is told as 1" => {
        let mut bytes = Paper.verdict_bytes(stop);
        bytes[1] = u8::from(stop.cause.is_none());
        bytes
    }
    "the causes are counted from 0" => {
        let mut bytes = Paper.verdict_bytes(stop);
        bytes[1] = bytes[1].saturating_sub(1);
        bytes
    }
    "the end's address is not told" => {
        match stop.cause {
            None => Paper.verdict_bytes(&Stop { address: 0, ..*stop }),
            Some(_) => Paper.verdict_bytes(stop),
        }
    }
}

slice_at(base: u64, memory: &[u8]) -> Result<Window, u32> {
    "any window may be checked" => {
        let window = Window { base: base % (1 << 32), length: memory.len() as u64 };
        Ok(window)
    }
    "a bad window is refused with 4" => { Paper.slice_at(base, memory).map_err(|_| 4) }
    "an empty window is refused" => {
        if memory.is_empty() { Err(3) } else { Paper.slice_at(base, memory) }
    }
    "a window without room for a descriptor is refused" => {
        if memory.len() < 32 { Err(3) } else { Paper.slice_at(base, memory) }
    }
    "a window must begin at a multiple of 4" => {
        if !base.is_multiple_of(4) { Err(3) } else { Paper.slice_at(base, memory) }
    }
    "a window of 65,537 bytes is checked" => {
        Paper.slice_at(base, memory).or_else(|number| match memory.len() {
            65_537 => Ok(Window { base, length: 65_537 }),
            _ => Err(number),
        })
    }
    "a window that ends above 2^32 is checked" => {
        let length = memory.len() as u64;
        let taken = base < 1 << 32 && length <= 65_536;
        if taken { Ok(Window { base, length }) } else { Err(3) }
    }
    "a window that ends at 2^32 is not checked" => {
        Paper.slice_at(base, memory).and_then(|window| match window.base + window.length {
            0x1_0000_0000 => Err(3),
            _ => Ok(window),
        })
    }
    "base 2^32 is taken for an empty window in a check" => {
        let taken = base == 1 << 32 && memory.is_empty();
        if taken { Ok(Window { base, length: 0 }) } else { Paper.slice_at(base, memory) }
    }
    "the largest window is refused" => {
        if memory.len() == 65_536 { Err(3) } else { Paper.slice_at(base, memory) }
    }
}

sgdma_check_chain(memory: &[u8], base: u64, pointer: u32, answer: &mut [u8]) -> u32 {
    "3 is told before 7 in a check" => {
        if Paper.slice_at(base, memory).is_err() { 3 } else { Paper.sgdma_check_chain(memory, base, pointer, answer) }
    }
    "a longer answer of a check is taken" => {
        let size = answer.len().min(CHECK_SIZE);
        Paper.sgdma_check_chain(memory, base, pointer, &mut answer[..size])
    }
    "a misaligned pointer is refused with 5" => {
        let number = Paper.sgdma_check_chain(memory, base, pointer, &mut answer.to_vec());
        if number == 0 && !pointer.is_multiple_of(4) { return 5; }
        Paper.sgdma_check_chain(memory, base, pointer, answer)
    }
    "a pointer outside is refused with 6" => {
        let mut told = answer.to_vec();
        let number = Paper.sgdma_check_chain(memory, base, pointer, &mut told);
        if number == 0 && told[..6] == [0, 2, 0, 0, 0, 0] { return 6; }
        Paper.sgdma_check_chain(memory, base, pointer, answer)
    }
    "a refused check clears the answer" => {
        let number = Paper.sgdma_check_chain(memory, base, pointer, answer);
        if number != 0 { answer.fill(0); }
        number
    }
    "the verdict is returned" => {
        let number = Paper.sgdma_check_chain(memory, base, pointer, answer);
        if number == 0 { u32::from(answer[1]) } else { number }
    }
    "a sound chain is not told" => {
        let before = answer.to_vec();
        let number = Paper.sgdma_check_chain(memory, base, pointer, answer);
        if number == 0 && answer[1] == 0 { answer.copy_from_slice(&before); }
        number
    }
}

}
