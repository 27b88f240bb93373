//! The mending of a chain, as the thirteenth request describes it.
//!
//! "Walk as in order 8; where a defect is past the first descriptor, clear OWNED in
//! the one just before it. Report its address with the old and new byte."

use super::controllers::{number, BAD_SIZE};
use super::{descriptor_control, Chains, Stop, Window};

/// Mended 16, the address 32, the old byte 8, the new one 8.
pub const MEND_SIZE: usize = 8;

const NOTHING_TO_KEEP: u32 = 23;
const CONTROL_AT: usize = 31;

/// The control byte that was changed, by the address of its descriptor.
#[derive(Clone, Copy, Debug, PartialEq, Eq)]
pub struct Mended {
    pub address: u32,
    pub old: u8,
    pub new: u8,
}

pub trait Mends: Chains {
    /// The descriptor just before the defect; none where the chain is sound. "23
    /// NothingToKeep when the defect is the first descriptor."
    fn last_good(self, stop: &Stop) -> Result<Option<u32>, u32> {
        match (stop.cause, stop.before) {
            (None, _) => Ok(None),
            (Some(_), Some(before)) => Ok(Some(before)),
            (Some(_), None) => Err(NOTHING_TO_KEEP),
        }
    }

    /// "clear OWNED"
    fn cleared(self, control: u8) -> u8 {
        control & !descriptor_control::OWNED_BY_HW
    }

    /// "Nothing else in the dump changes"
    fn clear(self, memory: &mut [u8], window: Window, address: u32) -> Mended {
        let place = (u64::from(address) - window.base) as usize;
        let control = &mut memory[place + CONTROL_AT];
        let old = *control;
        *control = self.cleared(old);
        Mended {
            address,
            old,
            new: *control,
        }
    }

    /// "mended 16 (0 where the chain was sound, else 1), address of the descriptor
    /// changed 32, old byte 8, new byte 8 (0 where sound)"
    fn mend_bytes(self, mended: Option<Mended>) -> [u8; MEND_SIZE] {
        let mut bytes = [0; MEND_SIZE];
        if let Some(Mended { address, old, new }) = mended {
            bytes[1] = 1;
            bytes[2..6].copy_from_slice(&address.to_be_bytes());
            bytes[6..].copy_from_slice(&[old, new]);
        }
        bytes
    }

    fn sgdma_mend_chain(
        self,
        memory: &mut [u8],
        base: u64,
        pointer: u32,
        answer: &mut [u8],
    ) -> u32 {
        number((|| {
            let answer: &mut [u8; MEND_SIZE] = answer.try_into().map_err(|_| BAD_SIZE)?;
            let window = self.slice_at(base, memory)?;
            let good = self.last_good(&self.walk(memory, window, pointer))?;
            let mended = good.map(|address| self.clear(memory, window, address));
            *answer = self.mend_bytes(mended);
            Ok(())
        })())
    }
}
