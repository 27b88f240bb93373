//! The descriptor that the core reads ahead, and the slot that holds it.
//!
//! Written from the request that brought it: "On the step that fetches an owned
//! descriptor, also read the next one into a slot; the next Fetch uses the slot
//! instead of memory. A bad address is kept in the slot and faults only at that
//! Fetch."

use super::{Descriptors, Machine, Window, DESCRIPTOR_SIZE};

/// "slot kind 2 (empty, descriptor, fault 10, fault 11)"
#[derive(Clone, Copy, Debug, Default, PartialEq, Eq, PartialOrd, Ord)]
pub enum SlotKind {
    #[default]
    Empty,
    Descriptor,
    Misaligned,
    Outside,
}

impl SlotKind {
    pub const ALL: [SlotKind; 4] = [
        SlotKind::Empty,
        SlotKind::Descriptor,
        SlotKind::Misaligned,
        SlotKind::Outside,
    ];

    /// Every number of two bits is a kind.
    pub fn of_number(number: u8) -> SlotKind {
        SlotKind::ALL[usize::from(number & 3)]
    }
}

/// What was read ahead, from where. "An empty slot is all zero; a fault slot's
/// bytes are zero".
#[derive(Clone, Copy, Debug, Default, PartialEq, Eq)]
pub struct Slot {
    pub kind: SlotKind,
    pub address: u32,
    /// As they stood in memory.
    pub bytes: [u8; DESCRIPTOR_SIZE],
}

impl Slot {
    pub fn is_held(&self) -> bool {
        self.kind != SlotKind::Empty
    }
}

/// What empties the slot: "Rest, Halted, Ended, Faulted, reset and a host pointer
/// write". A reset makes the whole machine anew.
#[derive(Clone, Copy, Debug, PartialEq, Eq)]
pub enum Emptying {
    Rest,
    Halted,
    Ended,
    Faulted,
    PointerWrite,
}

pub trait Slots: Descriptors {
    /// What rules 10 and 11 give at the address: "misaligned, fault 10; not wholly
    /// in the window, fault 11".
    fn kind_at(self, window: Window, address: u32) -> SlotKind {
        let size = DESCRIPTOR_SIZE as u64;
        if !self.is_aligned(window, address) {
            SlotKind::Misaligned
        } else if self.place(window, u64::from(address), size).is_none() {
            SlotKind::Outside
        } else {
            SlotKind::Descriptor
        }
    }

    /// The 32 bytes at the address, or which fault a Fetch meets there.
    fn look_at(self, window: Window, address: u32, memory: &[u8]) -> Slot {
        let kind = self.kind_at(window, address);
        let mut bytes = [0; DESCRIPTOR_SIZE];
        if kind == SlotKind::Descriptor {
            let place = (u64::from(address) - window.base) as usize;
            bytes.copy_from_slice(&memory[place..place + DESCRIPTOR_SIZE]);
        }
        Slot {
            kind,
            address,
            bytes,
        }
    }

    /// "On the step that fetches an owned descriptor, also read the next one into
    /// a slot": at the new pointer, from memory as it is at that step.
    fn read_ahead(self, machine: &mut Machine, memory: &[u8]) {
        machine.slot = self.look_at(machine.window, machine.pointer, memory);
    }

    /// "the next Fetch uses the slot instead of memory"
    fn looked_at(self, machine: &Machine, memory: &[u8]) -> Slot {
        if machine.slot.is_held() {
            machine.slot
        } else {
            self.look_at(machine.window, machine.pointer, memory)
        }
    }

    /// "Rest, Halted, Ended, Faulted, reset and a host pointer write empty the
    /// slot."
    fn empty_slot(self, machine: &mut Machine, _by: Emptying) {
        machine.slot = Slot::default();
    }
}
