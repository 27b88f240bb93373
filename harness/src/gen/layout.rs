//! Random windows, and what is laid in them.

use super::{Host, TWO_TO_32};
use crate::model::{descriptor_control, Descriptor, Descriptors, Paper, Window, DESCRIPTOR_SIZE};

impl Host {
    /// Another window, of any length and base, with a chain laid in it.
    pub(super) fn take_new_window(&mut self) {
        let length = match self.rng.below(1000) {
            0..=29 => 0,
            30..=59 => self.rng.below(32),
            60..=99 => 32,
            100..=199 => 33 + self.rng.below(95),
            200..=996 => 128 + self.rng.below(400),
            _ => 65_536,
        };
        let highest = TWO_TO_32 - length.max(1);
        let near = self.rng.below(8);
        self.base = match self.rng.below(10) {
            0 => 0,
            1 => near,
            2..=4 => 4096,
            5 => 4096 + near,
            6 => highest,
            7 => highest - near,
            8 => highest & !3,
            _ => self.rng.below(highest + 1),
        };
        self.memory = if self.rng.chance(50) {
            vec![0; length as usize]
        } else {
            self.rng.bytes(length as usize)
        };
        self.lay_chain();
    }

    pub(super) fn window(&self) -> Window {
        Window {
            base: self.base,
            length: self.memory.len() as u64,
        }
    }

    /// The lowest address in the window where a descriptor may stand.
    pub(super) fn first_slot(&self) -> u64 {
        self.base.next_multiple_of(4)
    }

    /// How many descriptors fit one after the other.
    pub(super) fn slots(&self) -> u64 {
        let end = self.base + self.memory.len() as u64;
        end.saturating_sub(self.first_slot()) / DESCRIPTOR_SIZE as u64
    }

    /// Lays a few descriptors at the start of the window.
    pub(super) fn lay_chain(&mut self) {
        let count = self.slots().min(1 + self.rng.below(5));
        for slot in 0..count {
            let address = self.first_slot() + slot * DESCRIPTOR_SIZE as u64;
            let place = (address - self.base) as usize;
            let descriptor = self.descriptor(address as u32);
            let mut bytes = [0; DESCRIPTOR_SIZE];
            Paper.build(&mut bytes, &descriptor);
            if self.rng.chance(30) {
                self.fill_unnamed(&mut bytes);
            }
            self.memory[place..place + DESCRIPTOR_SIZE].copy_from_slice(&bytes);
        }
    }

    /// Fills the bytes that a descriptor reserves, and actual and status.
    fn fill_unnamed(&mut self, bytes: &mut [u8; DESCRIPTOR_SIZE]) {
        for unnamed in [4..8, 12..16, 20..24, 26..31] {
            for byte in &mut bytes[unnamed] {
                *byte = self.rng.number() as u8;
            }
        }
    }

    pub(super) fn descriptor(&mut self, address: u32) -> Descriptor {
        let follower = address.wrapping_add(DESCRIPTOR_SIZE as u32);
        let elsewhere = self.descriptor_address();
        let mut control = self.rng.number() as u8;
        if self.rng.chance(50) {
            control &=
                !(descriptor_control::READ_FIXED_ADDRESS | descriptor_control::WRITE_FIXED_ADDRESS);
        }
        if self.rng.chance(75) {
            control |= descriptor_control::OWNED_BY_HW;
        }
        Descriptor {
            source: self.data_address(),
            destination: self.data_address(),
            next: if self.rng.chance(85) {
                follower
            } else {
                self.rng.pick(&[address, elsewhere])
            },
            length: self.length(),
            control,
            ..Descriptor::default()
        }
    }

    /// bytes_to_transfer, mostly small.
    fn length(&mut self) -> u16 {
        match self.rng.below(20) {
            0 => 0,
            1..=2 => 1,
            3..=4 => 2,
            5..=11 => 3 + self.rng.below(6) as u16,
            12..=17 => 8 + self.rng.below(60) as u16,
            18 => 65_535,
            _ => self.rng.number() as u16,
        }
    }

    /// An address for a descriptor, mostly one that will do.
    pub(super) fn descriptor_address(&mut self) -> u32 {
        let slots = self.slots();
        if slots == 0 || self.rng.chance(12) {
            return self.any_address();
        }
        let slot = match self.rng.below(10) {
            0..=2 => 0,
            3..=7 => self.rng.below(slots.min(5)),
            8 => slots - 1,
            _ => self.rng.below(slots),
        };
        let shift = self.rng.pick(&[0, 0, 0, 0, 0, 0, 0, 4, 2]);
        (self.first_slot() + slot * DESCRIPTOR_SIZE as u64 + shift) as u32
    }

    /// An address for data: mostly inside, and often close to the end.
    fn data_address(&mut self) -> u32 {
        let length = self.memory.len() as u64;
        if self.base < 8 && self.rng.chance(20) {
            // A sum that wrapped at 2^32 would come back into this window.
            return u32::MAX - self.rng.below(4) as u32;
        }
        if length == 0 || self.rng.chance(4) {
            return self.any_address();
        }
        let place = match self.rng.below(20) {
            0 => length - 1,
            1 => length.saturating_sub(1 + self.rng.below(9)),
            2..=14 => length / 2 + self.rng.below(length.div_ceil(4)),
            _ => self.rng.below(length),
        };
        (self.base + place) as u32
    }

    /// An address near an end of the window or of the bus, or any at all.
    pub(super) fn any_address(&mut self) -> u32 {
        let near = self.rng.below(36);
        let end = self.base + self.memory.len() as u64;
        match self.rng.below(8) {
            0 => self.base as u32,
            1 => self.base.wrapping_sub(near) as u32,
            2 => end as u32,
            3 | 4 => end.wrapping_sub(near) as u32,
            5 => near as u32,
            6 => u32::MAX - near as u32,
            _ => self.rng.number() as u32,
        }
    }
}
