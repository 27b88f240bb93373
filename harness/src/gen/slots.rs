//! Random slots and run numbers of an image, and a host that writes over what the
//! core holds in its slot.

use super::Host;
use crate::model::{
    descriptor_control, Descriptors, Image, Paper, Phase, Slot, SlotKind, Slots, DESCRIPTOR_SIZE,
};

/// "a held slot stands only in Fetch, Move and WriteBack"
fn may_hold(phase: Phase) -> bool {
    (Phase::Fetch..=Phase::WriteBack).contains(&phase)
}

impl Host {
    /// What an image of this phase may hold that points there: mostly what is in
    /// memory, or what was.
    pub(super) fn good_slot(&mut self, phase: Phase, pointer: u32) -> Slot {
        if !may_hold(phase) || self.rng.chance(25) {
            return Slot::default();
        }
        let mut slot = Paper.look_at(self.window(), pointer, &self.memory);
        if slot.kind == SlotKind::Descriptor && self.rng.chance(50) {
            let fields = self.descriptor(pointer);
            Paper.build(&mut slot.bytes, &fields);
        }
        slot
    }

    /// The pointer of an image: oftener bad where a slot may hold that.
    pub(super) fn pointer_of(&mut self, phase: Phase) -> u32 {
        if may_hold(phase) && self.rng.chance(30) {
            return self.any_address();
        }
        self.descriptor_address()
    }

    /// Small, near the largest, or any at all.
    pub(super) fn good_run_number(&mut self) -> u32 {
        let any = self.rng.number() as u32;
        self.rng
            .pick(&[0, 0, 1, 2, u32::MAX - 1, u32::MAX, u32::MAX, any])
    }

    /// The host writes over the descriptor that the carried image holds: hands it
    /// over or takes it back, changes a byte, or builds another one there.
    pub(super) fn rewrite_held(&mut self) {
        let Some(place) = self.held_place() else {
            return;
        };
        let bytes = &mut self.memory[place..place + DESCRIPTOR_SIZE];
        match self.rng.below(3) {
            0 => bytes[31] ^= descriptor_control::OWNED_BY_HW,
            1 => bytes[self.rng.below(32) as usize] ^= 1 << self.rng.below(8),
            _ => {
                let address = (self.base + place as u64) as u32;
                let fields = self.descriptor(address);
                let mut built = [0; DESCRIPTOR_SIZE];
                Paper.build(&mut built, &fields);
                self.memory[place..place + DESCRIPTOR_SIZE].copy_from_slice(&built);
            }
        }
    }

    /// Where the descriptor stands that the carried image holds.
    fn held_place(&self) -> Option<usize> {
        let Image { slot, .. } = self.carried_image();
        let in_window = Paper.kind_at(self.window(), slot.address) == SlotKind::Descriptor;
        let held = slot.kind == SlotKind::Descriptor && in_window;
        held.then(|| (u64::from(slot.address) - self.base) as usize)
    }

    /// A pointer that a host writes: now and then the one that is there already.
    pub(super) fn pointer_value(&mut self) -> u32 {
        if self.rng.chance(25) {
            return self.carried_image().pointer;
        }
        self.descriptor_address()
    }
}
