//! Random images: any that the rules allow, and ones with a field spoilt.

use super::{Host, Rng};
use crate::model::{
    control, descriptor_control, status, Descriptors, Image, Kept, Machine, Mode, Paper, Phase,
    SlotKind, DESCRIPTOR_SIZE, IMAGE_SIZE,
};

/// What may be spoilt in an image: one field each.
type Spoil = fn(&mut Image, &mut Rng);
const SPOIL_FAULT: Spoil = |image, rng| image.fault = rng.pick(&[0, 1, 9, 12, 13, 14, 15, 31]);
#[rustfmt::skip]
const SPOILS: [Spoil; 16] = [
    |image, rng| image.edition = rng.below(16) as u8,
    |image, _| image.mode = 3,
    |image, rng| image.mode = rng.below(3) as u8,
    |image, _| image.phase = 7,
    |image, rng| image.phase = rng.below(7) as u8,
    |image, _| image.armed = !image.armed,
    SPOIL_FAULT,
    |image, rng| image.status ^= 1 << rng.below(8),
    |image, _| image.count = 255,
    |image, rng| image.control ^= 1 << rng.below(32),
    |image, _| image.control ^= control::RUN,
    |image, rng| image.base = u32::MAX - rng.below(600) as u32,
    |image, rng| image.window_length = rng.pick(&[65_536, 65_537, 1 << 31]),
    |image, rng| image.window_length ^= 1 << rng.below(32),
    |image, rng| image.zero = 1 << rng.below(15),
    |image, rng| image.fault_address ^= 1 << rng.below(32),
];

/// What may be spoilt in the descriptor that an image keeps.
#[rustfmt::skip]
const KEPT_SPOILS: [Spoil; 10] = [
    |image, rng| image.kept.address ^= 1 << rng.below(2),
    |image, rng| image.kept.address ^= 1 << rng.below(32),
    |image, rng| image.kept.source ^= 1 << rng.below(32),
    |image, rng| image.kept.destination ^= 1 << rng.below(32),
    |image, rng| image.kept.length = rng.pick(&[0, 1, 2]),
    |image, rng| image.kept.control ^= rng.pick(&[1, 0x80]),
    |image, rng| image.kept.errors ^= rng.pick(&[1, 0x80]),
    |image, rng| image.kept.moved = rng.pick(&[0, image.kept.length, 65_535]),
    |image, _| image.kept.moved = image.kept.length.wrapping_add(1),
    |image, _| image.kept.eop_seen = !image.kept.eop_seen,
];

/// What may be spoilt in the slot of an image.
#[rustfmt::skip]
const SLOT_SPOILS: [Spoil; 8] = [
    |image, rng| image.slot.kind = rng.pick(&SlotKind::ALL),
    |image, rng| (image.slot.kind, image.slot.address) = (rng.pick(&SlotKind::ALL), image.pointer),
    |image, rng| image.slot.address ^= 1 << rng.below(32),
    |image, _| image.slot.address = 0,
    |image, rng| image.pointer ^= 1 << rng.below(32),
    |image, rng| image.slot.bytes[rng.below(32) as usize] ^= 1 << rng.below(8),
    |image, rng| image.slot.bytes = [rng.pick(&[0, 1]); DESCRIPTOR_SIZE],
    |image, rng| image.slot_zero = 1 << rng.below(6),
];

impl Host {
    /// An image that keeps all rules, of any mode and phase, for this window.
    pub(super) fn good_image(&mut self) -> Image {
        let phase = self.good_phase();
        let mode = match phase {
            Phase::Halted => Mode::StreamToMemory,
            _ => self.rng.pick(&Mode::ALL),
        };
        let mut image = Image::of_machine(&Machine::fresh(mode, self.window()));
        image.phase = phase as u8;
        image.pending = self.rng.chance(40);
        image.status = self.good_status(mode, phase);
        image.count = self.good_count();
        image.control = self.control_bits();
        if matches!(phase, Phase::Ended | Phase::Halted) {
            image.control |= control::RUN;
        }
        image.armed = image.control & control::SW_RESET != 0;
        image.pointer = self.pointer_of(phase);
        image.slot = self.good_slot(phase, image.pointer);
        image.run_number = self.good_run_number();
        if matches!(phase, Phase::Move | Phase::WriteBack) {
            image.kept = self.good_kept(mode, phase);
        }
        if phase == Phase::Faulted {
            image.fault = self.good_fault(mode);
            image.fault_address = self.any_address();
        }
        image
    }

    /// Each phase alike, but more often one that keeps a descriptor, if one fits.
    fn good_phase(&mut self) -> Phase {
        let keeping = self.rng.pick(&[Phase::Move, Phase::WriteBack]);
        let any = self.rng.pick(&Phase::ALL);
        match self.rng.pick(&[any, any, any, keeping]) {
            Phase::Move | Phase::WriteBack if self.slots() == 0 => Phase::Fetch,
            phase => phase,
        }
    }

    fn good_status(&mut self, mode: Mode, phase: Phase) -> u8 {
        let mut bits = self.rng.number() as u8 & status::CLEARED_BY_WRITING;
        if mode != Mode::StreamToMemory {
            bits &= !(status::ERROR | status::EOP_ENCOUNTERED);
        }
        if (Phase::Fetch..=Phase::Ended).contains(&phase) {
            bits |= status::BUSY;
        }
        bits
    }

    fn good_count(&mut self) -> u8 {
        let any = self.rng.below(255) as u8;
        self.rng.pick(&[0, 0, 1, 2, 3, 253, 254, any])
    }

    fn good_fault(&mut self, mode: Mode) -> u8 {
        self.rng.pick(match mode {
            Mode::MemoryToMemory => &[10, 11, 12, 13, 14],
            Mode::MemoryToStream => &[10, 11, 12, 13],
            Mode::StreamToMemory => &[10, 11, 14],
        })
    }

    fn good_kept(&mut self, mode: Mode, phase: Phase) -> Kept {
        let slot = self.rng.below(self.slots());
        let address = (self.first_slot() + slot * DESCRIPTOR_SIZE as u64) as u32;
        let fields = self.descriptor(address);
        let mut length = fields.length;
        match mode {
            Mode::StreamToMemory if self.rng.chance(20) => length = 0,
            Mode::MemoryToMemory | Mode::MemoryToStream if length == 0 => length = 1,
            _ => {}
        }
        let mut kept = Kept {
            address,
            source: fields.source,
            destination: fields.destination,
            length,
            control: fields.control | descriptor_control::OWNED_BY_HW,
            ..Kept::default()
        };
        self.make_progress(&mut kept, mode, phase);
        kept
    }

    /// Bytes moved already, with what beats would have brought.
    fn make_progress(&mut self, kept: &mut Kept, mode: Mode, phase: Phase) {
        let wanted = Paper.bytes_wanted(mode, kept.length);
        let some = self.rng.below(u64::from(wanted)) as u16;
        let streams_in = mode == Mode::StreamToMemory;
        if phase == Phase::Move {
            kept.moved = self.rng.pick(&[0, 1.min(wanted - 1), wanted - 1, some]);
        } else {
            kept.eop_seen = streams_in && self.rng.chance(50);
            kept.moved = if kept.eop_seen { 1 + some } else { wanted };
        }
        if streams_in && kept.moved > 0 && self.rng.chance(50) {
            kept.errors = self.rng.number() as u8 & 0x7F;
        }
    }

    /// A good image with one field spoilt, or two, or some bytes beside it: it may
    /// break a rule, or several at once.
    pub(super) fn broken_image(&mut self) -> Image {
        let mut image = if self.rng.chance(30) {
            self.carried_image()
        } else {
            self.good_image()
        };
        self.spoil_fitting(&mut image);
        match self.rng.below(10) {
            0..=4 => self.spoil_any(&mut image),
            5..=6 => self.write_over(&mut image),
            _ => {}
        }
        image
    }

    /// Spoils a field that says something in this phase.
    fn spoil_fitting(&mut self, image: &mut Image) {
        let keeps = image.kept != Kept::default();
        let spoil = match Phase::of_number(image.phase) {
            Phase::Faulted if self.rng.chance(30) => SPOIL_FAULT,
            _ if self.rng.chance(25) => self.rng.pick(&SLOT_SPOILS),
            _ if keeps || self.rng.chance(20) => self.rng.pick(&KEPT_SPOILS),
            _ => self.rng.pick(&SPOILS),
        };
        spoil(image, &mut self.rng);
    }

    fn spoil_any(&mut self, image: &mut Image) {
        let spoils = self
            .rng
            .pick(&[SPOILS.as_slice(), &KEPT_SPOILS, &SLOT_SPOILS]);
        self.rng.pick(spoils)(image, &mut self.rng);
    }

    /// A write that strays over some bytes of the image, often over its first,
    /// where there are many fields.
    fn write_over(&mut self, image: &mut Image) {
        let mut bytes = image.pack();
        let starts = self.rng.pick(&[4, IMAGE_SIZE as u64]);
        let from = self.rng.below(starts) as usize;
        let most = self.rng.pick(&[8, IMAGE_SIZE]).min(IMAGE_SIZE - from);
        let count = 1 + self.rng.below(most as u64) as usize;
        let stray = if self.rng.chance(50) {
            vec![0xFF; count]
        } else {
            self.rng.bytes(count)
        };
        bytes[from..from + count].copy_from_slice(&stray);
        *image = Image::unpack(&bytes);
    }
}

#[cfg(test)]
mod tests {
    use super::*;
    use crate::model::Images;

    #[test]
    fn good_images_keep_all_rules() {
        let mut host = Host::new(1);
        for _ in 0..20_000 {
            host.next_call();
            let image = host.good_image();
            assert_eq!(Paper.broken_rules(&image), [], "{image:?}");
        }
    }
}
