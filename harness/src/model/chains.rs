//! The check of a chain, as the eighth request describes it.
//!
//! "Given a window and a pointer, say sound with k and the end's address, or the
//! position (from 0) of the first descriptor that is misaligned, outside, or
//! overlaps an earlier one, the first of these three causes being named."

use super::controllers::{number, BAD_SIZE};
use super::{descriptor_control, Descriptors, Window, DESCRIPTOR_SIZE};

/// Verdict 16, k or position 32, address 32.
pub const CHECK_SIZE: usize = 10;

/// "At most 2,049 descriptors are read on one walk."
pub const MOST_READ: usize = 2_049;

const BAD_WINDOW: u32 = 3;
const SOUND: u16 = 0;

/// What is wrong with a descriptor, under the number of the verdict.
#[derive(Clone, Copy, Debug, PartialEq, Eq, PartialOrd, Ord)]
pub enum Cause {
    Misaligned = 1,
    Outside = 2,
    Overlaps = 3,
}

/// Where a walk stops: at the end of the chain, or at its first defect.
#[derive(Clone, Copy, Debug, PartialEq, Eq)]
pub struct Stop {
    /// How many descriptors stand before it.
    pub position: u32,
    pub address: u32,
    /// The address of the one just before it.
    pub before: Option<u32>,
    /// None at the end.
    pub cause: Option<Cause>,
}

pub trait Chains: Descriptors {
    /// Two descriptors of 32 bytes have a byte in common.
    fn overlap(self, one: u32, other: u32) -> bool {
        one.abs_diff(other) < DESCRIPTOR_SIZE as u32
    }

    /// "misaligned, outside, or overlaps an earlier one, the first of these three
    /// causes being named"
    fn cause(self, window: Window, earlier: &[u32], address: u32) -> Option<Cause> {
        let bytes = DESCRIPTOR_SIZE as u64;
        if !self.is_aligned(window, address) {
            return Some(Cause::Misaligned);
        }
        if self.place(window, u64::from(address), bytes).is_none() {
            return Some(Cause::Outside);
        }
        let overlaps = earlier.iter().any(|&other| self.overlap(address, other));
        overlaps.then_some(Cause::Overlaps)
    }

    /// "owned descriptors and one unowned at the end": where an owned one leads to.
    fn link(self, bytes: &[u8; DESCRIPTOR_SIZE]) -> Option<u32> {
        let fields = self.read_fields(bytes);
        let owned = fields.control & descriptor_control::OWNED_BY_HW != 0;
        owned.then_some(fields.next)
    }

    /// The descriptor that stands at an address of the window.
    fn bytes_at(self, memory: &[u8], window: Window, address: u32) -> [u8; DESCRIPTOR_SIZE] {
        let place = (u64::from(address) - window.base) as usize;
        let mut bytes = [0; DESCRIPTOR_SIZE];
        bytes.copy_from_slice(&memory[place..place + DESCRIPTOR_SIZE]);
        bytes
    }

    /// Goes from descriptor to descriptor and holds each against all before it. No
    /// more than 2,048 of 32 bytes are apart in 65,536, so that one of so many
    /// overlaps.
    fn walk(self, memory: &[u8], window: Window, pointer: u32) -> Stop {
        let mut earlier = Vec::new();
        let mut address = pointer;
        let cause = loop {
            if earlier.len() == MOST_READ {
                break Some(Cause::Overlaps);
            }
            if let Some(cause) = self.cause(window, &earlier, address) {
                break Some(cause);
            }
            let Some(next) = self.link(&self.bytes_at(memory, window, address)) else {
                break None;
            };
            earlier.push(address);
            address = next;
        };
        Stop {
            position: earlier.len() as u32,
            address,
            before: earlier.last().copied(),
            cause,
        }
    }

    /// "verdict 16 (0 sound, 1 misaligned, 2 outside, 3 overlaps), k or position 32,
    /// address of the end or of that descriptor 32"
    fn verdict_bytes(self, stop: &Stop) -> [u8; CHECK_SIZE] {
        let verdict = stop.cause.map_or(SOUND, |cause| cause as u16);
        let mut bytes = [0; CHECK_SIZE];
        bytes[..2].copy_from_slice(&verdict.to_be_bytes());
        bytes[2..6].copy_from_slice(&stop.position.to_be_bytes());
        bytes[6..].copy_from_slice(&stop.address.to_be_bytes());
        bytes
    }

    /// "3 for a bad window"
    fn slice_at(self, base: u64, memory: &[u8]) -> Result<Window, u32> {
        let window = Window {
            base,
            length: memory.len() as u64,
        };
        if !self.is_window(window) {
            return Err(BAD_WINDOW);
        }
        Ok(window)
    }

    fn sgdma_check_chain(self, memory: &[u8], base: u64, pointer: u32, answer: &mut [u8]) -> u32 {
        number((|| {
            let answer: &mut [u8; CHECK_SIZE] = answer.try_into().map_err(|_| BAD_SIZE)?;
            let window = self.slice_at(base, memory)?;
            *answer = self.verdict_bytes(&self.walk(memory, window, pointer));
            Ok(())
        })())
    }
}
