//! The walk along a chain in time that grows with the chain alone: a descriptor
//! marks its words of the window, and one that finds a word marked overlaps.

use super::Bulk;
use crate::model::{Cause, Chains, Stop, Window, Windows, DESCRIPTOR_SIZE};

const WORD: usize = 4;
const WORDS: usize = DESCRIPTOR_SIZE / WORD;

/// Marks the words of the descriptor at this place, and tells whether all were free.
/// Multiples of 4 on the bus are all as far from a multiple of 4 in the window, so
/// that each word has a mark of its own, whatever the base is.
fn takes(marks: &mut [bool], place: usize) -> bool {
    let first = place / WORD;
    let words = &mut marks[first..first + WORDS];
    let free = words.iter().all(|&marked| !marked);
    words.fill(true);
    free
}

impl Chains for Bulk {
    fn walk(self, memory: &[u8], window: Window, pointer: u32) -> Stop {
        let mut marks = vec![false; memory.len() / WORD];
        let (mut position, mut address, mut before) = (0, pointer, None);
        let cause = loop {
            if !self.is_aligned(window, address) {
                break Some(Cause::Misaligned);
            }
            let Some(place) = self.place(window, u64::from(address), DESCRIPTOR_SIZE as u64) else {
                break Some(Cause::Outside);
            };
            if !takes(&mut marks, place) {
                break Some(Cause::Overlaps);
            }
            let Some(next) = self.link(&self.bytes_at(memory, window, address)) else {
                break None;
            };
            position += 1;
            before = Some(address);
            address = next;
        };
        Stop {
            position,
            address,
            before,
            cause,
        }
    }
}
