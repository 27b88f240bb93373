//! Rows of bytes, moved by the loops that one would write by hand for speed.
//!
//! What a row leaves is what one byte after the other leaves. Where the order
//! shows, as in a copy over its own source, the bytes are moved in that order.

use std::cell::Cell;
use std::iter::repeat;
use std::ops::Range;

/// Two bytes: errors and EOP, then data.
pub type Beat = [u8; 2];

const EOP: u8 = 1;

/// So many beats are looked at before they are laid: few enough for a short
/// descriptor, and enough for the compiler to take many at a time.
const BLOCK: usize = 32;

/// The places of a row: one behind the other, or the first for every byte.
#[derive(Clone, Copy, Debug)]
pub struct Row {
    pub at: usize,
    pub fixed: bool,
}

impl Row {
    /// The bytes of memory that a row of so many has.
    fn range(self, bytes: usize) -> Range<usize> {
        let extent = if self.fixed { bytes.min(1) } else { bytes };
        self.at..self.at + extent
    }
}

/// Memory to memory.
pub fn copy(memory: &mut [u8], from: Row, to: Row, bytes: usize) {
    let (read, written) = (from.range(bytes), to.range(bytes));
    let reads_what_it_wrote = read.start < written.start && written.start < read.end;
    if from.fixed {
        let byte = memory[from.at];
        memory[written].fill(byte);
    } else if to.fixed || reads_what_it_wrote {
        let cells = Cell::from_mut(memory).as_slice_of_cells();
        copy_in_order(&cells[read], &cells[written]);
    } else {
        memory.copy_within(read, to.at);
    }
}

/// One byte after the other, where each may be read again as a later one; all to
/// one place, where there is but one.
fn copy_in_order(from: &[Cell<u8>], to: &[Cell<u8>]) {
    if let [place] = to {
        for byte in from {
            place.set(byte.get());
        }
    } else {
        for (byte, place) in from.iter().zip(to) {
            place.set(byte.get());
        }
    }
}

/// Memory to beats without a mark.
pub fn send(memory: &[u8], from: Row, beats: &mut [Beat]) {
    if from.fixed {
        beats.fill([0, memory[from.at]]);
        return;
    }
    let bytes = &memory[from.at..from.at + beats.len()];
    for (beat, &byte) in beats.iter_mut().zip(bytes) {
        *beat = [0, byte];
    }
}

/// How many beats were taken, the errors of all, and whether the last had EOP.
#[derive(Clone, Copy, Debug, PartialEq, Eq)]
pub struct Received {
    pub beats: usize,
    pub errors: u8,
    pub eop: bool,
}

/// Beats to memory, until one with EOP is taken.
#[inline]
pub fn receive(memory: &mut [u8], to: Row, beats: &[Beat]) -> Received {
    let places = &mut memory[to.range(beats.len())];
    if let (true, [place]) = (to.fixed, &mut *places) {
        receive_at_one(place, beats)
    } else {
        receive_row(places, beats)
    }
}

/// Each block is looked at and laid before the next, while it is at hand.
#[inline]
fn receive_row(places: &mut [u8], beats: &[Beat]) -> Received {
    let (mut taken, mut flags) = (0, 0);
    let rows = places.as_chunks_mut::<BLOCK>().0;
    for (row, block) in rows.iter_mut().zip(beats.as_chunks::<BLOCK>().0) {
        let seen = flags_of(block);
        if seen & EOP != 0 {
            break;
        }
        lay(row, block);
        flags |= seen;
        taken += BLOCK;
    }
    let rest = Cell::from_mut(&mut places[taken..]).as_slice_of_cells();
    take_last(beats, taken, flags, rest.iter())
}

/// Of all that land at one place the last stays.
fn receive_at_one(place: &mut u8, beats: &[Beat]) -> Received {
    let (mut taken, mut flags) = (0, 0);
    for block in beats.as_chunks::<BLOCK>().0 {
        let seen = flags_of(block);
        if seen & EOP != 0 {
            break;
        }
        *place = block[BLOCK - 1][1];
        flags |= seen;
        taken += BLOCK;
    }
    take_last(beats, taken, flags, repeat(Cell::from_mut(place)))
}

/// Behind the blocks, one by one.
#[inline]
fn take_last<'memory>(
    beats: &[Beat],
    mut taken: usize,
    mut flags: u8,
    places: impl Iterator<Item = &'memory Cell<u8>>,
) -> Received {
    for ([flag, data], place) in beats[taken..].iter().zip(places) {
        place.set(*data);
        flags |= flag;
        taken += 1;
        if flag & EOP != 0 {
            break;
        }
    }
    Received {
        beats: taken,
        errors: flags >> 1,
        eop: flags & EOP != 0,
    }
}

fn lay(places: &mut [u8; BLOCK], beats: &[Beat; BLOCK]) {
    for (place, beat) in places.iter_mut().zip(beats) {
        *place = beat[1];
    }
}

/// The first bytes of the beats, gathered by OR. A beat is taken as one number,
/// so that the compiler takes eight at a time.
#[inline]
fn flags_of(beats: &[Beat; BLOCK]) -> u8 {
    let gather = |flags, &beat: &Beat| flags | u16::from_ne_bytes(beat);
    beats.iter().fold(0, gather).to_ne_bytes()[0]
}

#[cfg(test)]
mod tests {
    use super::*;

    /// A memory in which every byte differs from its neighbours.
    fn memory() -> Vec<u8> {
        (0..=250).collect()
    }

    fn rows(at: usize) -> [Row; 2] {
        [false, true].map(|fixed| Row { at, fixed })
    }

    /// Every two rows that begin at these places.
    fn pairs(from: usize, to: usize) -> impl Iterator<Item = (Row, Row)> {
        let with_each = move |from| rows(to).map(|to| (from, to));
        rows(from).into_iter().flat_map(with_each)
    }

    fn place(row: Row, byte: usize) -> usize {
        row.at + if row.fixed { 0 } else { byte }
    }

    #[test]
    fn a_copy_leaves_what_one_byte_after_the_other_leaves() {
        let numbers = (0..1_000).map(|n| (n % 10, n / 10 % 10, n / 100 * 9));
        for (from, to, bytes) in numbers {
            for (from, to) in pairs(from, to) {
                let (mut at_once, mut by_bytes) = (memory(), memory());
                copy(&mut at_once, from, to, bytes);
                for byte in 0..bytes {
                    by_bytes[place(to, byte)] = by_bytes[place(from, byte)];
                }
                assert_eq!(at_once, by_bytes, "{bytes} from {from:?} to {to:?}");
            }
        }
    }

    #[test]
    fn beats_made_hold_the_bytes() {
        for from in rows(3) {
            let mut beats = [[7; 2]; 70];
            send(&memory(), from, &mut beats);
            for (byte, beat) in beats.iter().enumerate() {
                assert_eq!(*beat, [0, memory()[place(from, byte)]]);
            }
        }
    }

    /// Beats with some errors, and with EOP from a place on.
    fn beats_with_eop(count: usize, eop: usize) -> Vec<Beat> {
        let errors = |place: usize| [0, 0, 1, 64, 0, 8][(place + eop) % 6];
        let flags = |place| errors(place) << 1 | u8::from(place >= eop);
        (0..count)
            .map(|place| [flags(place), place as u8])
            .collect()
    }

    /// One beat after the other.
    fn receive_by_beats(memory: &mut [u8], to: Row, beats: &[Beat]) -> Received {
        let (mut taken, mut errors, mut eop) = (0, 0, false);
        while taken < beats.len() && !eop {
            let [flags, data] = beats[taken];
            memory[place(to, taken)] = data;
            (errors, eop) = (errors | flags >> 1, flags & EOP != 0);
            taken += 1;
        }
        Received {
            beats: taken,
            errors,
            eop,
        }
    }

    #[test]
    fn a_row_ends_with_its_first_eop_wherever_that_is() {
        for (count, eop) in (0..100 * 110).map(|n| (n / 110, n % 110)) {
            let beats = beats_with_eop(count, eop);
            for to in rows(5) {
                let (mut at_once, mut by_beats) = (memory(), memory());
                let received = receive(&mut at_once, to, &beats);
                assert_eq!(received, receive_by_beats(&mut by_beats, to, &beats));
                assert_eq!(at_once, by_beats, "{count} beats, EOP at {eop}, to {to:?}");
            }
        }
    }
}
