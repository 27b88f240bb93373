//! Descriptors in the window: the layout, the builder and the reader.

use super::{Mode, Refusal, Window, Windows};

/// "32 bytes, little-endian, address a multiple of 4"
pub const DESCRIPTOR_SIZE: usize = 32;

/// "Control: 0 GENERATE_EOP, 1 READ_FIXED_ADDRESS, 2 WRITE_FIXED_ADDRESS,
/// 7 OWNED_BY_HW. Bits 3..6 have no effect and are kept as given."
pub mod descriptor_control {
    pub const GENERATE_EOP: u8 = 1 << 0;
    pub const READ_FIXED_ADDRESS: u8 = 1 << 1;
    pub const WRITE_FIXED_ADDRESS: u8 = 1 << 2;
    pub const OWNED_BY_HW: u8 = 1 << 7;
}

/// Every named field of a descriptor.
#[derive(Clone, Copy, Debug, Default, PartialEq, Eq)]
pub struct Descriptor {
    pub source: u32,
    pub destination: u32,
    pub next: u32,
    pub length: u16,
    pub actual: u16,
    pub status: u8,
    pub control: u8,
}

fn long_at(bytes: &[u8; DESCRIPTOR_SIZE], place: usize) -> u32 {
    u32::from_le_bytes([
        bytes[place],
        bytes[place + 1],
        bytes[place + 2],
        bytes[place + 3],
    ])
}

fn short_at(bytes: &[u8; DESCRIPTOR_SIZE], place: usize) -> u16 {
    u16::from_le_bytes([bytes[place], bytes[place + 1]])
}

pub trait Descriptors: Windows {
    /// "+0 source, +8 destination, +16 next_desc_ptr (32 bits each),
    /// +24 bytes_to_transfer (16), +28 actual_bytes_transferred (16),
    /// +30 desc_status (8), +31 desc_control (8). The rest is reserved."
    fn read_fields(self, bytes: &[u8; DESCRIPTOR_SIZE]) -> Descriptor {
        Descriptor {
            source: long_at(bytes, 0),
            destination: long_at(bytes, 8),
            next: long_at(bytes, 16),
            length: short_at(bytes, 24),
            actual: short_at(bytes, 28),
            status: bytes[30],
            control: bytes[31],
        }
    }

    /// "The builder writes all 32 bytes, with reserved, actual and status zero."
    fn build(self, bytes: &mut [u8; DESCRIPTOR_SIZE], descriptor: &Descriptor) {
        *bytes = [0; DESCRIPTOR_SIZE];
        bytes[0..4].copy_from_slice(&descriptor.source.to_le_bytes());
        bytes[8..12].copy_from_slice(&descriptor.destination.to_le_bytes());
        bytes[16..20].copy_from_slice(&descriptor.next.to_le_bytes());
        bytes[24..26].copy_from_slice(&descriptor.length.to_le_bytes());
        bytes[31] = descriptor.control;
    }

    /// The last four bytes of a descriptor: actual, status, control.
    fn last_four(self, actual: u16, status: u8, control: u8) -> [u8; 4] {
        let [low, high] = actual.to_le_bytes();
        [low, high, status, control]
    }

    /// "L is bytes_to_transfer; in mode 2 a 0 means 65,535."
    #[inline]
    fn bytes_wanted(self, mode: Mode, length: u16) -> u16 {
        if length == 0 && mode == Mode::StreamToMemory {
            65_535
        } else {
            length
        }
    }

    /// The place of the descriptor that the builder or the reader is asked for.
    fn descriptor_place(self, window: Window, address: u32) -> Result<usize, Refusal> {
        if !self.is_window(window) {
            return Err(Refusal::BadWindow);
        }
        if !self.is_aligned(window, address) {
            return Err(Refusal::Misaligned);
        }
        self.place(window, u64::from(address), DESCRIPTOR_SIZE as u64)
            .ok_or(Refusal::Outside)
    }
}
