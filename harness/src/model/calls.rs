//! The eight calls on a core for a C host, on bytes; what is asked of a ledger and of
//! a chain, and the calls on a controller and on a timer, stand with these.
//!
//! Their arguments are those of the C prototypes, with a slice for a pointer and
//! a length. "A refused call returns its number and nothing else; machine and
//! lent bytes keep their values." So each call first makes all its checks, in the
//! paper's order, and only then writes.

use super::{
    Controllers, Descriptor, Editions, Findings, Ledger, Machine, Mends, Mode, Ports, Report,
    Steps, Timers, Window, DESCRIPTOR_SIZE,
};

/// With the ledger "32 bits more in the report, now 18 bytes"
pub const REPORT_SIZE: usize = 18;
/// "A register value is 4 bytes."
pub const VALUE_SIZE: usize = 4;
/// "A descriptor read is 18"
pub const DESCRIPTOR_ANSWER_SIZE: usize = 18;

/// The refusals under their numbers.
#[derive(Clone, Copy, Debug, PartialEq, Eq, PartialOrd, Ord)]
pub enum Refusal {
    NoRegister = 1,
    BadMode = 2,
    BadWindow = 3,
    OtherWindow = 4,
    Misaligned = 5,
    Outside = 6,
    BadSize = 7,
    BadImage = 8,
    OddStream = 9,
    SlotHeld = 15,
    BadLedger = 19,
}

impl Refusal {
    /// "First that applies: 7, 8, 9, 2, 3, 4, 1, 5, 6", and 15 "after 8", 19 "after
    /// 9".
    pub const ORDER: [Refusal; 11] = [
        Refusal::BadSize,
        Refusal::BadImage,
        Refusal::SlotHeld,
        Refusal::OddStream,
        Refusal::BadLedger,
        Refusal::BadMode,
        Refusal::BadWindow,
        Refusal::OtherWindow,
        Refusal::NoRegister,
        Refusal::Misaligned,
        Refusal::Outside,
    ];
}

/// A refusal with the field of the image that comes with it: "8 carries it"; with
/// every other it is 0.
#[derive(Clone, Copy, Debug, PartialEq, Eq)]
pub struct Refused {
    pub refusal: Refusal,
    pub field: u8,
}

impl Refused {
    pub fn for_field(field: u8) -> Refused {
        Refused {
            refusal: Refusal::BadImage,
            field,
        }
    }

    /// "in C as 8 + 256 × field"
    pub fn number(self) -> u32 {
        self.refusal as u32 + 256 * u32::from(self.field)
    }
}

impl From<Refusal> for Refused {
    fn from(refusal: Refusal) -> Refused {
        Refused { refusal, field: 0 }
    }
}

/// The number that a call returns: 0 for done, or the refusal's.
fn number(outcome: Result<(), Refused>) -> u32 {
    outcome.map_or_else(Refused::number, |()| 0)
}

/// The lent bytes at exactly the size they must have.
fn sized<const SIZE: usize>(lent: &[u8]) -> Result<&[u8; SIZE], Refusal> {
    lent.try_into().map_err(|_| Refusal::BadSize)
}

fn sized_mut<const SIZE: usize>(lent: &mut [u8]) -> Result<&mut [u8; SIZE], Refusal> {
    lent.try_into().map_err(|_| Refusal::BadSize)
}

/// The window that a slice is when it stands at this base.
fn window_at(base: u64, memory: &[u8]) -> Window {
    Window {
        base,
        length: memory.len() as u64,
    }
}

pub trait Calls: Steps + Findings + Mends + Editions + Controllers + Timers {
    /// What the model is called where its answers differ from another's.
    const NAME: &'static str = "model";

    fn sgdma_create(self, image: &mut [u8], mode: u32, base: u64, length: u64) -> u32 {
        number((|| {
            let image = sized_mut(image)?;
            self.check_mode(mode)?;
            let window = Window { base, length };
            self.check_window(window)?;
            *image = self.save(&Machine::fresh(Mode::of_number(mode as u8), window));
            Ok(())
        })())
    }

    fn sgdma_read_register(self, image: &[u8], offset: u32, value: &mut [u8]) -> u32 {
        number((|| {
            let (image, value) = (sized(image)?, sized_mut(value)?);
            let machine = self.load(image)?;
            *value = self.value_bytes(self.read_register(&machine, offset)?);
            Ok(())
        })())
    }

    fn sgdma_write_register(self, image: &mut [u8], offset: u32, value: u32) -> u32 {
        number((|| {
            let image = sized_mut(image)?;
            let mut machine = self.load(image)?;
            self.write_register(&mut machine, offset, value)?;
            *image = self.save(&machine);
            Ok(())
        })())
    }

    /// The value is 0 or 1.
    fn sgdma_line(self, image: &[u8], value: &mut [u8]) -> u32 {
        number((|| {
            let (image, value) = (sized(image)?, sized_mut(value)?);
            let machine = self.load(image)?;
            *value = self.value_bytes(u32::from(self.line(&machine)));
            Ok(())
        })())
    }

    #[allow(clippy::too_many_arguments)]
    fn sgdma_run(
        self,
        image: &mut [u8],
        window: &mut [u8],
        beats: &[u8],
        out: &mut [u8],
        ledger: &mut [u8],
        used: u32,
        budget: u32,
        report: &mut [u8],
    ) -> u32 {
        number((|| {
            let (image, report) = (sized_mut(image)?, sized_mut(report)?);
            let mut machine = self.load(image)?;
            self.check_streams(&machine, beats, out)?;
            self.check_ledger(&machine, ledger, used)?;
            self.check_same_window(&machine, window)?;
            let mut ports = Ports::new(window, beats, out, Ledger::new(ledger, used));
            let told = self.run(&mut machine, &mut ports, budget);
            *report = self.report_bytes(&told);
            *image = self.save(&machine);
            Ok(())
        })())
    }

    /// "the builder takes numbers"
    #[allow(clippy::too_many_arguments)]
    fn sgdma_build_descriptor(
        self,
        window: &mut [u8],
        base: u64,
        address: u32,
        source: u32,
        destination: u32,
        next: u32,
        length: u16,
        control: u8,
    ) -> u32 {
        number((|| {
            let place = self.descriptor_place(window_at(base, window), address)?;
            let fields = Descriptor {
                source,
                destination,
                next,
                length,
                control,
                ..Descriptor::default()
            };
            let bytes = sized_mut(&mut window[place..place + DESCRIPTOR_SIZE])?;
            self.build(bytes, &fields);
            Ok(())
        })())
    }

    fn sgdma_read_descriptor(
        self,
        window: &[u8],
        base: u64,
        address: u32,
        answer: &mut [u8],
    ) -> u32 {
        number((|| {
            let answer = sized_mut(answer)?;
            let place = self.descriptor_place(window_at(base, window), address)?;
            let bytes = sized(&window[place..place + DESCRIPTOR_SIZE])?;
            *answer = self.answer_bytes(&self.read_fields(bytes));
            Ok(())
        })())
    }

    fn sgdma_move_image(self, from: &[u8], to: &mut [u8]) -> u32 {
        number(self.move_image(from, to))
    }

    fn check_mode(self, mode: u32) -> Result<(), Refusal> {
        if mode > 2 {
            return Err(Refusal::BadMode);
        }
        Ok(())
    }

    fn check_window(self, window: Window) -> Result<(), Refusal> {
        if !self.is_window(window) {
            return Err(Refusal::BadWindow);
        }
        Ok(())
    }

    /// "odd number of beat bytes, in or out", in every mode.
    fn check_streams(self, _machine: &Machine, beats: &[u8], out: &[u8]) -> Result<(), Refusal> {
        if beats.len() % 2 == 1 || out.len() % 2 == 1 {
            return Err(Refusal::OddStream);
        }
        Ok(())
    }

    /// "19 BadLedger for a length not a multiple of 12 or fewer records than are
    /// said to be used", in every mode and phase.
    fn check_ledger(self, _machine: &Machine, ledger: &[u8], used: u32) -> Result<(), Refusal> {
        if !self.is_ledger(ledger.len() as u64, used) {
            return Err(Refusal::BadLedger);
        }
        Ok(())
    }

    /// "lent window's length is not the machine's"
    fn check_same_window(self, machine: &Machine, memory: &[u8]) -> Result<(), Refusal> {
        if memory.len() as u64 != machine.window.length {
            return Err(Refusal::OtherWindow);
        }
        Ok(())
    }

    /// "Most significant first throughout."
    fn value_bytes(self, value: u32) -> [u8; VALUE_SIZE] {
        value.to_be_bytes()
    }

    /// "reason 16, steps 32, taken 32, made 32", and "32 bits more" for the new
    /// number of records.
    fn report_bytes(self, report: &Report) -> [u8; REPORT_SIZE] {
        let mut bytes = [0; REPORT_SIZE];
        bytes[0..2].copy_from_slice(&(report.reason as u16).to_be_bytes());
        bytes[2..6].copy_from_slice(&report.steps.to_be_bytes());
        bytes[6..10].copy_from_slice(&report.taken.to_be_bytes());
        bytes[10..14].copy_from_slice(&report.made.to_be_bytes());
        bytes[14..18].copy_from_slice(&report.used.to_be_bytes());
        bytes
    }

    /// "source 32, destination 32, next 32, length 16, actual 16, status 8,
    /// control 8"
    fn answer_bytes(self, descriptor: &Descriptor) -> [u8; DESCRIPTOR_ANSWER_SIZE] {
        let mut bytes = [0; DESCRIPTOR_ANSWER_SIZE];
        bytes[0..4].copy_from_slice(&descriptor.source.to_be_bytes());
        bytes[4..8].copy_from_slice(&descriptor.destination.to_be_bytes());
        bytes[8..12].copy_from_slice(&descriptor.next.to_be_bytes());
        bytes[12..14].copy_from_slice(&descriptor.length.to_be_bytes());
        bytes[14..16].copy_from_slice(&descriptor.actual.to_be_bytes());
        bytes[16] = descriptor.status;
        bytes[17] = descriptor.control;
        bytes
    }
}
