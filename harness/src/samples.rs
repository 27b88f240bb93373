//! Good images to start a test from, and a record to end it with.

use crate::model::{control, status, Image, Kept, Machine, Mode, Phase, Window, RECORD_SIZE};

pub const BASE: u32 = 4096;
pub const LENGTH: usize = 256;

/// An image of this mode and phase, with RUN 1, over a window of 256 bytes at
/// 4096. Where a descriptor is kept, it stands at 4096, leads from 4200 to 4224
/// and has 4 bytes, of which 1 is moved in Move and all are in WriteBack. It keeps
/// all rules, but for Halted in mode 0 or 1.
pub fn image(mode: Mode, phase: Phase) -> Image {
    let window = Window {
        base: u64::from(BASE),
        length: LENGTH as u64,
    };
    let mut image = Image::of_machine(&Machine::fresh(mode, window));
    image.phase = phase as u8;
    image.control = control::RUN;
    image.pointer = 4128;
    if (Phase::Fetch..=Phase::Ended).contains(&phase) {
        image.status = status::BUSY;
    }
    if matches!(phase, Phase::Move | Phase::WriteBack) {
        image.kept = Kept {
            address: 4096,
            source: 4200,
            destination: 4224,
            length: 4,
            control: 0x80,
            moved: if phase == Phase::Move { 1 } else { 4 },
            ..Kept::default()
        };
    }
    if phase == Phase::Faulted {
        image.fault = 11;
        image.fault_address = 4324;
    }
    image
}

/// A record of this run, of the descriptor at this address: "run number 32,
/// descriptor address 32", and then "actual 16, status 8, zero 7, EOP 1".
pub const fn record(
    run: u32,
    address: u32,
    [high, low, status, eop]: [u8; 4],
) -> [u8; RECORD_SIZE] {
    let [p, q, r, s] = run.to_be_bytes();
    let [a, b, c, d] = address.to_be_bytes();
    [p, q, r, s, a, b, c, d, high, low, status, eop]
}
