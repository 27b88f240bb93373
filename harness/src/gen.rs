//! Random calls that lead to one another.
//!
//! A [`Host`] carries an image, a window and a ledger from call to call, as
//! firmware does, and starts anew after a while. Its choices lean towards what is
//! easily missed: the ends of the window, the first and the last byte of a
//! descriptor, one step at a time, one enable alone, the last room in the ledger,
//! a descriptor written over while the core holds it, images that differ from a
//! good one in a field or two.

mod beside;
mod chains;
mod controllers;
mod editions;
mod findings;
mod images;
mod layout;
mod ledgers;
mod mends;
mod rng;
mod slots;
mod timers;

pub use chains::ChainHost;
pub use controllers::ControllerHost;
pub use editions::EditionHost;
pub use findings::FindingHost;
pub use mends::MendHost;
pub use rng::Rng;
pub use timers::TimerHost;

use crate::call::{Call, Lent};
use crate::model::{
    control, offset, Image, Mode, Paper, Phase, Window, Windows, DESCRIPTOR_ANSWER_SIZE,
    DESCRIPTOR_SIZE, IMAGE_SIZE, OLD_IMAGE_SIZE, REPORT_SIZE, VALUE_SIZE,
};

const CALLS_WITH_ONE_WINDOW: u64 = 40;
const TWO_TO_32: u64 = 1 << 32;

/// Whoever makes calls that lead to one another.
pub trait Hosts {
    fn next_call(&mut self) -> Call;

    /// Keeps what a call that was done has left in its lent bytes.
    fn carry(&mut self, after: &Call);
}

impl Hosts for Host {
    fn next_call(&mut self) -> Call {
        Host::next_call(self)
    }

    fn carry(&mut self, after: &Call) {
        Host::carry(self, after);
    }
}

/// The bytes that a host carries from call to call, and its next choices.
pub struct Host {
    rng: Rng,
    image: [u8; IMAGE_SIZE],
    memory: Vec<u8>,
    base: u64,
    ledger: Vec<u8>,
    used: u32,
    calls_left: u64,
}

/// How often each call is made, in parts of the sum.
type Choice = (u64, fn(&mut Host) -> Call);
const CHOICES: [Choice; 7] = [
    (60, Host::run),
    (24, Host::write_register),
    (6, Host::read_register),
    (6, Host::line),
    (8, Host::build_descriptor),
    (6, Host::read_descriptor),
    (4, Host::create),
];

impl Host {
    pub fn new(seed: u64) -> Host {
        Host {
            rng: Rng::new(seed),
            image: [0; IMAGE_SIZE],
            memory: Vec::new(),
            base: 0,
            ledger: Vec::new(),
            used: 0,
            calls_left: 0,
        }
    }

    /// The next call. One with a new window is always a good create.
    pub fn next_call(&mut self) -> Call {
        if self.calls_left == 0 {
            self.calls_left = 1 + self.rng.below(CALLS_WITH_ONE_WINDOW);
            self.take_new_window();
            return self.good_create();
        }
        self.calls_left -= 1;
        if self.rng.chance(12) {
            self.image = self.good_image().pack();
        }
        if self.rng.chance(10) {
            self.lay_chain();
        }
        if self.rng.chance(12) {
            self.rewrite_held();
        }
        if self.rng.chance(75) {
            if let Some(help) = self.help_on() {
                return help;
            }
        }
        let choose = self.rng.weighted(&CHOICES);
        choose(self)
    }

    /// Where the machine stands still, a write that helps it on.
    fn help_on(&mut self) -> Option<Call> {
        let carried = self.carried_image();
        let bits = self.control_bits();
        let descriptor = u64::from(carried.pointer);
        let points_inside = Paper
            .place(self.window(), descriptor, DESCRIPTOR_SIZE as u64)
            .is_some();
        let (offset, value) = match Phase::of_number(carried.phase) {
            Phase::Rest if carried.control & control::RUN != 0 => return None,
            Phase::Rest if points_inside => (offset::CONTROL, bits | control::RUN),
            Phase::Rest => (offset::NEXT_DESCRIPTOR_POINTER, self.first_slot() as u32),
            Phase::Ended | Phase::Halted if self.rng.chance(70) => {
                (offset::CONTROL, bits & !control::RUN)
            }
            Phase::Ended | Phase::Halted | Phase::Faulted => {
                (offset::CONTROL, bits | control::SW_RESET)
            }
            Phase::Fetch | Phase::Move | Phase::WriteBack => return None,
        };
        Some(Call::WriteRegister {
            image: Lent::from(self.image.as_slice()),
            offset,
            value,
        })
    }

    /// Keeps what a call that was done has left in its lent bytes.
    pub fn carry(&mut self, after: &Call) {
        if let Some(image) = after.image().and_then(|lent| (**lent).try_into().ok()) {
            self.image = image;
        }
        if let Some(window) = after.window() {
            if window.len() == self.memory.len() {
                self.memory.copy_from_slice(window);
            }
        }
        self.carry_ledger(after);
    }

    /// The carried image, or now and then a broken one or one of another size.
    fn lent_image(&mut self) -> Lent {
        let mut bytes = if self.rng.chance(16) {
            self.broken_image().pack().to_vec()
        } else {
            self.image.to_vec()
        };
        let mut size = self.rng.size(IMAGE_SIZE);
        if self.rng.chance(1) {
            size = OLD_IMAGE_SIZE;
        }
        bytes.resize(size, 0);
        Lent::from(bytes)
    }

    /// The carried window, or now and then one of another length.
    fn lent_window(&mut self) -> Lent {
        let mut bytes = self.memory.clone();
        if self.rng.chance(3) {
            let other = self.rng.pick(&[0, 1, 32, bytes.len() + 1, bytes.len() / 2]);
            bytes.resize(other, 0);
        }
        Lent::from(bytes)
    }

    /// A stream of some beats; now and then with half a beat more.
    fn stream_length(&mut self) -> usize {
        let beats = self.rng.pick(&[0, 1, 2, 4, 8, 16, 32, 64]);
        2 * beats + usize::from(self.rng.chance(3))
    }

    /// Beats with no errors, few or many, and the same of EOP.
    fn beats(&mut self) -> Lent {
        let length = self.stream_length();
        let mut bytes = self.rng.bytes(length);
        let errors_in_100 = self.rng.pick(&[0, 3, 20]);
        let eop_in_100 = self.rng.pick(&[0, 3, 20]);
        for first in bytes.iter_mut().step_by(2) {
            if !self.rng.chance(errors_in_100) {
                *first = 0;
            }
            *first = *first & 0xFE | u8::from(self.rng.chance(eop_in_100));
        }
        Lent::from(bytes)
    }

    fn run(&mut self) -> Call {
        let image = self.lent_image();
        let (ledger, used) = self.lent_ledger();
        Call::Run {
            budget: self.budget(&image),
            image,
            window: self.lent_window(),
            beats: self.beats(),
            out: self.lent_output(),
            ledger,
            used,
            report: Lent::from(self.rng.to_write_over(REPORT_SIZE)),
        }
    }

    fn lent_output(&mut self) -> Lent {
        let length = self.stream_length();
        Lent::from(self.rng.bytes(length))
    }

    /// Streams bound a run of mode 1 or 2, but a chain of mode 0 may have no end.
    fn budget(&mut self, image: &[u8]) -> u32 {
        let endless = image.first().is_none_or(|head| head >> 2 & 3 == 0);
        match self.rng.below(20) {
            0..=1 => 0,
            2..=6 => 1,
            7..=10 => 2 + self.rng.below(6) as u32,
            11..=16 => 8 + self.rng.below(40) as u32,
            17..=18 => 50 + self.rng.below(400) as u32,
            _ if endless => 1000,
            _ => u32::MAX - self.rng.below(2) as u32,
        }
    }

    fn write_register(&mut self) -> Call {
        let (offset, value) = match self.rng.below(20) {
            0..=4 => (offset::STATUS, self.status_value()),
            5..=12 => (offset::CONTROL, self.control_value()),
            13..=18 => (offset::NEXT_DESCRIPTOR_POINTER, self.pointer_value()),
            _ => (self.no_offset(), self.rng.number() as u32),
        };
        Call::WriteRegister {
            image: self.lent_image(),
            offset,
            value,
        }
    }

    fn status_value(&mut self) -> u32 {
        let any = self.rng.number() as u32;
        self.rng.pick(&[0, u32::MAX, 0x10, any, any & 0x0F])
    }

    fn control_value(&mut self) -> u32 {
        let mut value = self.control_bits();
        if self.carried_image().armed && self.rng.chance(75) {
            value |= control::SW_RESET;
        }
        if self.rng.chance(15) {
            value |= control::CLEAR_INTERRUPT;
        }
        if self.rng.chance(10) {
            value |= self.rng.number() as u32 & !control::STORED & !control::CLEAR_INTERRUPT;
        }
        value
    }

    /// Bits 0 to 17 of control: mostly running, often with one enable alone.
    fn control_bits(&mut self) -> u32 {
        let enables = [
            control::IE_ERROR,
            control::IE_EOP,
            control::IE_DESCRIPTOR,
            control::IE_CHAIN,
            control::IE_MAX,
        ];
        let mut bits = 0;
        if self.rng.chance(50) {
            bits |= self.rng.pick(&enables);
        } else {
            for enable in enables {
                bits |= enable * u32::from(self.rng.chance(30));
            }
        }
        for (percent, bit) in [
            (80, control::RUN),
            (50, control::IE_GLOBAL),
            (40, control::STOP_DMA_ER),
            (16, control::SW_RESET),
            (25, control::PARK),
        ] {
            bits |= bit * u32::from(self.rng.chance(percent));
        }
        let any = self.rng.number() as u8;
        let max = self.rng.pick(&[0, 0, 0, 1, 1, 2, 3, 255, any]);
        bits | u32::from(max) << control::MAX_DESC_PROCESSED_SHIFT
    }

    fn no_offset(&mut self) -> u32 {
        let any = self.rng.number() as u32 | 1;
        self.rng.pick(&[1, 2, 3, 5, 7, 9, 12, 0x100, 0x1_0004, any])
    }

    fn read_register(&mut self) -> Call {
        let none = self.no_offset();
        Call::ReadRegister {
            image: self.lent_image(),
            offset: self.rng.pick(&[
                offset::STATUS,
                offset::CONTROL,
                offset::NEXT_DESCRIPTOR_POINTER,
                none,
            ]),
            value: Lent::from(self.rng.to_write_over(VALUE_SIZE)),
        }
    }

    fn line(&mut self) -> Call {
        Call::Line {
            image: self.lent_image(),
            value: Lent::from(self.rng.to_write_over(VALUE_SIZE)),
        }
    }

    fn good_create(&mut self) -> Call {
        let Window { base, length } = self.window();
        Call::Create {
            image: Lent::from(self.rng.bytes(IMAGE_SIZE)),
            mode: self.rng.below(Mode::ALL.len() as u64) as u32,
            base,
            length,
        }
    }

    /// A create with numbers that are often just beyond what is allowed.
    fn create(&mut self) -> Call {
        let Window { base, length } = self.window();
        let any = self.rng.number();
        Call::Create {
            image: Lent::from(self.rng.to_write_over(IMAGE_SIZE)),
            mode: self.rng.pick(&[0, 1, 2, 3, 4, 258, u32::MAX]),
            base: self.rng.pick(&[
                base,
                base,
                TWO_TO_32 - length,
                TWO_TO_32 - 1,
                TWO_TO_32,
                any,
            ]),
            length: self
                .rng
                .pick(&[length, length, 0, 1, 65_536, 65_537, TWO_TO_32, any]),
        }
    }

    /// The window and base that the builder and the reader are given.
    fn descriptor_window(&mut self) -> (Lent, u64) {
        if self.rng.below(400) == 0 {
            let length = self.rng.pick(&[65_536, 65_537]);
            return (Lent::from(self.rng.bytes(length)), self.base.min(1 << 20));
        }
        let window = self.lent_window();
        let wide = self.rng.number();
        let beyond = TWO_TO_32 - window.len() as u64 + 1;
        let base = if self.rng.chance(90) {
            self.base
        } else {
            self.rng
                .pick(&[TWO_TO_32, beyond, beyond - 1, self.base + TWO_TO_32, wide])
        };
        (window, base)
    }

    fn build_descriptor(&mut self) -> Call {
        let (window, base) = self.descriptor_window();
        let address = self.descriptor_address();
        let fields = self.descriptor(address);
        Call::build(window, base, address, &fields)
    }

    fn read_descriptor(&mut self) -> Call {
        let (window, base) = self.descriptor_window();
        Call::ReadDescriptor {
            window,
            base,
            address: self.descriptor_address(),
            answer: Lent::from(self.rng.to_write_over(DESCRIPTOR_ANSWER_SIZE)),
        }
    }

    fn carried_image(&self) -> Image {
        Image::unpack(&self.image)
    }
}
