//! From a case on which two parties differ to a small one.
//!
//! Greedy: an edit that makes the case simpler stays where the parties still
//! differ, until no edit does.

use crate::call::{Argument, Call, Lent};
use crate::model::RECORD_SIZE;
use std::ops::Range;

/// Bounds the work on a case. A trial on a large window counts as several.
const MOST_TRIALS: usize = 10_000;
const WINDOW_OF_A_TRIAL: usize = 4_096;

/// Where the window's length stands in an image, the pointer, the slot, and the
/// address in it.
const WINDOW_LENGTH: Range<usize> = 16..20;
const POINTER: Range<usize> = 8..12;
const SLOT: Range<usize> = 44..81;
const SLOT_ADDRESS: Range<usize> = 45..49;

/// One way to make a call simpler. An argument is named by its place.
enum Edit {
    /// So many bytes fewer at the end of the window, also by the word of the image.
    ShortenWindow { by: usize },
    /// A lower pointer, and with it the address of what was read ahead there.
    LowerPointer { place: usize, by: u32 },
    /// Nothing in the slot, neither kind nor address nor bytes.
    EmptySlot { place: usize },
    /// Some beats fewer in a stream, or records in the ledger.
    Cut { place: usize, bytes: Range<usize> },
    /// Zero in the place of some bytes.
    Clear { place: usize, bytes: Range<usize> },
    /// A smaller number.
    Lower { place: usize, by: u64 },
}

/// The smallest case found on which the last call still differs.
pub fn shrink(calls: Vec<Call>, differs: &dyn Fn(&[Call]) -> bool) -> Vec<Call> {
    let mut calls = fewer_calls(calls, differs);
    let mut trials = 0;
    while simplify(&mut calls, differs, &mut trials) && trials < MOST_TRIALS {}
    calls
}

/// A call is a whole case by itself, so the last one will do, unless a party
/// remembers what it was asked before.
fn fewer_calls(mut calls: Vec<Call>, differs: &dyn Fn(&[Call]) -> bool) -> Vec<Call> {
    let last = &calls[calls.len() - 1..];
    if differs(last) {
        return last.to_vec();
    }
    let mut place = 0;
    while place + 1 < calls.len() {
        let mut fewer = calls.clone();
        fewer.remove(place);
        if differs(&fewer) {
            calls = fewer;
        } else {
            place += 1;
        }
    }
    calls
}

/// Tries every edit once and tells whether one of them stays.
fn simplify(calls: &mut [Call], differs: &dyn Fn(&[Call]) -> bool, trials: &mut usize) -> bool {
    let mut simplified = false;
    for place in 0..calls.len() {
        for edit in edits(&mut calls[place]) {
            if !edit.simplifies(&mut calls[place]) {
                continue;
            }
            let before = calls[place].clone();
            edit.apply(&mut calls[place]);
            if differs(calls) {
                simplified = true;
            } else {
                calls[place] = before;
            }
            *trials += cost(&calls[place]);
            if *trials >= MOST_TRIALS {
                return simplified;
            }
        }
    }
    simplified
}

/// As how many trials one with this call counts.
fn cost(call: &Call) -> usize {
    let window = call.window().map_or(0, |window| window.len());
    1 + window / WINDOW_OF_A_TRIAL
}

/// The edits of a call, the boldest first.
fn edits(call: &mut Call) -> Vec<Edit> {
    let window = call.window().map_or(0, |window| window.len());
    let shorter = halves(window as u64).map(|by| Edit::ShortenWindow { by: by as usize });
    let mut edits: Vec<Edit> = shorter.collect();
    for (place, argument) in call.arguments().iter().enumerate() {
        if let Argument::Lent("image", lent) = argument {
            edits.extend(edits_of_slot(lent, place));
        }
        if let Argument::Lent(name, lent) = argument {
            if let Some(size) = element_size(name) {
                edits.extend(cuts(lent.len(), size).map(|bytes| Edit::Cut { place, bytes }));
            }
            edits.extend(blocks(lent.len()).map(|bytes| Edit::Clear { place, bytes }));
        }
        let lower = halves(argument.number().unwrap_or(0));
        edits.extend(lower.map(|by| Edit::Lower { place, by }));
    }
    edits
}

/// The edits of pointer and slot, which go together where a slot is held.
fn edits_of_slot(image: &[u8], place: usize) -> Vec<Edit> {
    let pointer = image.get(POINTER).map_or(0, number);
    let lower = halves(pointer.into()).map(|by| Edit::LowerPointer {
        place,
        by: by as u32,
    });
    std::iter::once(Edit::EmptySlot { place })
        .chain(lower)
        .collect()
}

fn number(bytes: &[u8]) -> u32 {
    let append = |number, &byte| number << 8 | u32::from(byte);
    bytes.iter().fold(0, append)
}

/// Lowers the pointer, and the slot's address where that is the pointer.
fn lower_pointer(image: &mut [u8], by: u32) {
    let pointer = number(&image[POINTER]);
    for address in [POINTER, SLOT_ADDRESS] {
        if let Some(bytes) = image.get_mut(address) {
            if number(bytes) == pointer {
                bytes.copy_from_slice(&(pointer - by).to_be_bytes());
            }
        }
    }
}

/// The bytes of one element of a slice that may have fewer of them.
fn element_size(name: &str) -> Option<usize> {
    match name {
        "beats" | "out" => Some(2),
        "ledger" => Some(RECORD_SIZE),
        _ => None,
    }
}

/// The blocks of a slice that are of whole elements.
fn cuts(length: usize, size: usize) -> impl Iterator<Item = Range<usize>> {
    blocks(length / size).map(move |elements| elements.start * size..elements.end * size)
}

/// The number, its half, its quarter and so on down to 1: taken away one after
/// the other where possible, they find the least number that will do.
fn halves(number: u64) -> impl Iterator<Item = u64> {
    std::iter::successors(Some(number), |number| Some(number / 2)).take_while(|&part| part > 0)
}

/// The blocks of a slice: the whole, its halves, its quarters and so on down to
/// single elements, each time from behind.
fn blocks(length: usize) -> impl Iterator<Item = Range<usize>> {
    halves(length as u64).flat_map(move |size| {
        let starts = (0..length).step_by(size as usize).rev();
        starts.map(move |start| start..length.min(start + size as usize))
    })
}

impl Edit {
    /// Whether the edit, found some edits ago, would still make the call simpler.
    fn simplifies(&self, call: &mut Call) -> bool {
        match self {
            Edit::ShortenWindow { by } => call.window().is_some_and(|window| *by <= window.len()),
            Edit::LowerPointer { place, by } => {
                let pointer = lent_at(call, *place).get(POINTER);
                pointer.is_some_and(|bytes| number(bytes) >= *by)
            }
            Edit::EmptySlot { place } => clears(lent_at(call, *place), &SLOT),
            Edit::Cut { place, bytes } => lent_at(call, *place).len() >= bytes.end,
            Edit::Clear { place, bytes } => clears(lent_at(call, *place), bytes),
            Edit::Lower { place, by } => call.arguments()[*place].number() >= Some(*by),
        }
    }

    fn apply(&self, call: &mut Call) {
        match self {
            Edit::ShortenWindow { by } => shorten_window(call, *by),
            Edit::LowerPointer { place, by } => lower_pointer(lent_at(call, *place), *by),
            Edit::EmptySlot { place } => lent_at(call, *place)[SLOT].fill(0),
            Edit::Cut { place, bytes } => {
                let stream = lent_at(call, *place);
                *stream = Lent::from([&stream[..bytes.start], &stream[bytes.end..]].concat());
            }
            Edit::Clear { place, bytes } => lent_at(call, *place)[bytes.clone()].fill(0),
            Edit::Lower { place, by } => {
                let argument = &mut call.arguments()[*place];
                let number = argument.number().unwrap_or(0);
                argument.set_number(number - by);
            }
        }
    }
}

/// Whether there is a byte that zero would change.
fn clears(lent: &[u8], bytes: &Range<usize>) -> bool {
    let cleared = lent.get(bytes.clone());
    cleared.is_some_and(|bytes| bytes.iter().any(|&byte| byte != 0))
}

fn lent_at(call: &mut Call, place: usize) -> &mut Lent {
    match call.arguments().swap_remove(place) {
        Argument::Lent(_, lent) => lent,
        _ => unreachable!("the edit speaks of a lent slice"),
    }
}

/// Shortens the window, and tells the image of a run whose window had the length
/// that the image tells.
fn shorten_window(call: &mut Call, by: usize) {
    match call {
        Call::Run { image, window, .. } => {
            let [told, shorter] = [window.len(), window.len() - by].map(|n| n as u32);
            if let Some(length) = image.get_mut(WINDOW_LENGTH) {
                if *length == told.to_be_bytes() {
                    length.copy_from_slice(&shorter.to_be_bytes());
                }
            }
            *window = Lent::from(&window[..shorter as usize]);
        }
        Call::BuildDescriptor { window, .. }
        | Call::ReadDescriptor { window, .. }
        | Call::CheckChain { window, .. }
        | Call::MendChain { window, .. } => {
            *window = Lent::from(&window[..window.len() - by]);
        }
        _ => {}
    }
}

#[cfg(test)]
mod tests {
    use super::*;
    use crate::model::IMAGE_SIZE;

    fn write(offset: u32, value: u32) -> Call {
        Call::WriteRegister {
            image: Lent::from(vec![0xFF; 8]),
            offset,
            value,
        }
    }

    /// Whether a write at this offset is among the calls.
    fn writes(calls: &[Call], sought: u32) -> bool {
        let at =
            |call: &Call| matches!(call, Call::WriteRegister { offset, .. } if *offset == sought);
        calls.iter().any(at)
    }

    /// Where one call alone does not differ, the calls it needs before it stay.
    #[test]
    fn calls_that_matter_stay() {
        let calls = (0..6).map(|offset| write(offset, 100)).collect();
        let shrunk = shrink(calls, &|calls| writes(calls, 2) && writes(calls, 5));
        let clear = |offset| Call::WriteRegister {
            image: Lent::zeros(8),
            offset,
            value: 0,
        };
        assert_eq!(shrunk, [clear(2), clear(5)]);
    }

    /// Of bytes and numbers only what matters stays.
    #[test]
    fn bytes_and_numbers_that_matter_stay() {
        let matters = |calls: &[Call]| {
            let [Call::WriteRegister { image, value, .. }] = calls else {
                return false;
            };
            image[5] != 0 && *value >= 37
        };
        let Call::WriteRegister {
            image,
            offset,
            value,
        } = &shrink(vec![write(4, 1000)], &matters)[0]
        else {
            panic!("the call became another");
        };
        assert_eq!(**image, [0, 0, 0, 0, 0, 0xFF, 0, 0]);
        assert_eq!((*offset, *value), (0, 37));
    }

    /// A slot and its pointer stay together, and go together.
    #[test]
    fn a_slot_stays_at_the_pointer() {
        let mut image = [0; IMAGE_SIZE];
        image[POINTER].copy_from_slice(&4100_u32.to_be_bytes());
        image[SLOT].fill(7);
        image[SLOT_ADDRESS].copy_from_slice(&4100_u32.to_be_bytes());
        let line = |image: &[u8]| Call::Line {
            image: Lent::from(image),
            value: Lent::zeros(0),
        };
        let at_pointer = |calls: &[Call]| {
            let [Call::Line { image, .. }] = calls else {
                return false;
            };
            let [pointer, address] = [POINTER, SLOT_ADDRESS].map(|at| number(&image[at]));
            pointer >= 100 && (address == pointer || image[SLOT] == [0; 37])
        };
        let shrunk = shrink(vec![line(&image)], &at_pointer);
        let mut smallest = [0; IMAGE_SIZE];
        smallest[POINTER].copy_from_slice(&100_u32.to_be_bytes());
        assert_eq!(shrunk, [line(&smallest)]);
        let held = |calls: &[Call]| {
            let holds = matches!(calls, [Call::Line { image, .. }] if image[44] != 0);
            holds && at_pointer(calls)
        };
        let shrunk = shrink(vec![line(&image)], &held);
        smallest[44] = 7;
        smallest[SLOT_ADDRESS].copy_from_slice(&100_u32.to_be_bytes());
        assert_eq!(shrunk, [line(&smallest)]);
    }

    /// A ledger that matters for its room behind a used record keeps one of each.
    #[test]
    fn records_that_matter_stay() {
        let matters = |calls: &[Call]| {
            let [Call::Run { ledger, used, .. }] = calls else {
                return false;
            };
            let records = (ledger.len() / RECORD_SIZE) as u32;
            (1..records).contains(used)
        };
        let run = |ledger: Vec<u8>, used| Call::Run {
            image: Lent::zeros(0),
            window: Lent::zeros(0),
            beats: Lent::zeros(0),
            out: Lent::zeros(0),
            ledger: Lent::from(ledger),
            used,
            budget: 0,
            report: Lent::zeros(0),
        };
        let long = run(vec![0xFF; 9 * RECORD_SIZE], 7);
        let short = run(vec![0; 2 * RECORD_SIZE], 1);
        assert_eq!(shrink(vec![long], &matters), [short]);
    }
}
