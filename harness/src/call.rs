//! A call as a value, and the parties that can answer it.
//!
//! All state lies in the lent bytes, so a call is a whole case by itself: it
//! holds every byte and number that goes in, and afterwards every byte that came
//! back.

mod controllers;
mod timers;

pub use controllers::VicCall;
pub use timers::TimerCall;

use crate::bulk::Bulk;
use crate::model::{Calls, Descriptor, Paper};
use std::fmt::{self, Display, Formatter};
use std::ops::{Deref, DerefMut};

/// Bytes on either side of a lent slice, which no call may touch. Their number
/// is odd, so that lent slices are not aligned by chance.
pub(crate) const CANARY: [u8; 13] = [
    0xA5, 0x5A, 0xC3, 0x3C, 0x96, 0x69, 0xF0, 0x0F, 0xE1, 0x1E, 0xD2, 0x2D, 0xB4,
];

/// A slice to lend, between two canaries.
#[derive(Clone, Debug, PartialEq, Eq)]
pub struct Lent {
    guarded: Vec<u8>,
}

impl Lent {
    /// Zeros take no memory before they are touched, so that a slice may be lent
    /// that is longer than the memory.
    pub fn zeros(length: usize) -> Lent {
        let end = CANARY.len() + length;
        let mut guarded = vec![0; end + CANARY.len()];
        guarded[..CANARY.len()].copy_from_slice(&CANARY);
        guarded[end..].copy_from_slice(&CANARY);
        Lent { guarded }
    }

    pub fn canaries_live(&self) -> bool {
        self.guarded.starts_with(&CANARY) && self.guarded.ends_with(&CANARY)
    }

    /// The slice together with its canaries.
    #[cfg(have_bridge)]
    pub(crate) fn guarded_mut(&mut self) -> &mut [u8] {
        &mut self.guarded
    }
}

impl From<&[u8]> for Lent {
    fn from(bytes: &[u8]) -> Lent {
        Lent {
            guarded: [&CANARY, bytes, &CANARY].concat(),
        }
    }
}

impl From<Vec<u8>> for Lent {
    fn from(bytes: Vec<u8>) -> Lent {
        Lent::from(bytes.as_slice())
    }
}

impl Deref for Lent {
    type Target = [u8];

    fn deref(&self) -> &[u8] {
        &self.guarded[CANARY.len()..self.guarded.len() - CANARY.len()]
    }
}

impl DerefMut for Lent {
    fn deref_mut(&mut self) -> &mut [u8] {
        let end = self.guarded.len() - CANARY.len();
        &mut self.guarded[CANARY.len()..end]
    }
}

/// The functions.
#[derive(Clone, Copy, Debug, PartialEq, Eq, PartialOrd, Ord)]
pub enum Function {
    Create,
    ReadRegister,
    WriteRegister,
    Line,
    Run,
    BuildDescriptor,
    ReadDescriptor,
    FindRecord,
    MoveImage,
    CheckChain,
    MendChain,
    VicCreate,
    VicConfigure,
    VicEnable,
    VicTrigger,
    VicLine,
    VicChoose,
    TimerCreate,
    TimerRead,
    TimerWrite,
    TimerLine,
    TimerRun,
    TimerElapsed,
}

impl Function {
    /// Whether what the call leaves does not depend on what was there.
    pub fn creates(self) -> bool {
        use Function::{Create, TimerCreate, VicCreate};
        matches!(self, Create | VicCreate | TimerCreate)
    }
}

/// One call with all its arguments, in the order of the C prototypes.
#[derive(Clone, Debug, PartialEq, Eq)]
pub enum Call {
    Create {
        image: Lent,
        mode: u32,
        base: u64,
        length: u64,
    },
    ReadRegister {
        image: Lent,
        offset: u32,
        value: Lent,
    },
    WriteRegister {
        image: Lent,
        offset: u32,
        value: u32,
    },
    Line {
        image: Lent,
        value: Lent,
    },
    Run {
        image: Lent,
        window: Lent,
        beats: Lent,
        out: Lent,
        ledger: Lent,
        used: u32,
        budget: u32,
        report: Lent,
    },
    BuildDescriptor {
        window: Lent,
        base: u64,
        address: u32,
        source: u32,
        destination: u32,
        next: u32,
        length: u16,
        control: u8,
    },
    ReadDescriptor {
        window: Lent,
        base: u64,
        address: u32,
        answer: Lent,
    },
    FindRecord {
        ledger: Lent,
        used: u32,
        run: u32,
        address: u32,
        answer: Lent,
    },
    MoveImage {
        from: Lent,
        to: Lent,
    },
    CheckChain {
        window: Lent,
        base: u64,
        pointer: u32,
        answer: Lent,
    },
    MendChain {
        window: Lent,
        base: u64,
        pointer: u32,
        answer: Lent,
    },
    Vic(VicCall),
    Timer(TimerCall),
}

/// The numbers of a run's report.
#[derive(Clone, Copy, Debug, PartialEq, Eq)]
pub struct Told {
    pub reason: u16,
    pub steps: u32,
    pub taken: u32,
    pub made: u32,
    pub used: u32,
}

impl Told {
    /// What a report of the size that is due tells.
    pub fn of(report: &[u8]) -> Told {
        let (numbers, _) = report[2..].as_chunks();
        let number = |place: usize| u32::from_be_bytes(numbers[place]);
        Told {
            reason: u16::from_be_bytes([report[0], report[1]]),
            steps: number(0),
            taken: number(1),
            made: number(2),
            used: number(3),
        }
    }
}

/// An argument of a call, whichever it is.
pub enum Argument<'call> {
    Lent(&'static str, &'call mut Lent),
    Byte(&'call mut u8),
    Short(&'call mut u16),
    Long(&'call mut u32),
    Wide(&'call mut u64),
}

impl Argument<'_> {
    /// The value of a number.
    pub fn number(&self) -> Option<u64> {
        match self {
            Argument::Lent(..) => None,
            Argument::Byte(number) => Some(u64::from(**number)),
            Argument::Short(number) => Some(u64::from(**number)),
            Argument::Long(number) => Some(u64::from(**number)),
            Argument::Wide(number) => Some(**number),
        }
    }

    /// Replaces a number by a smaller one, which its type therefore holds.
    pub fn set_number(&mut self, smaller: u64) {
        match self {
            Argument::Lent(..) => {}
            Argument::Byte(number) => **number = smaller as u8,
            Argument::Short(number) => **number = smaller as u16,
            Argument::Long(number) => **number = smaller as u32,
            Argument::Wide(number) => **number = smaller,
        }
    }
}

impl Call {
    /// Builds the descriptor with these fields, of which the builder takes what
    /// firmware sets.
    pub fn build(window: Lent, base: u64, address: u32, fields: &Descriptor) -> Call {
        Call::BuildDescriptor {
            window,
            base,
            address,
            source: fields.source,
            destination: fields.destination,
            next: fields.next,
            length: fields.length,
            control: fields.control,
        }
    }

    pub fn function(&self) -> Function {
        match self {
            Call::Create { .. } => Function::Create,
            Call::ReadRegister { .. } => Function::ReadRegister,
            Call::WriteRegister { .. } => Function::WriteRegister,
            Call::Line { .. } => Function::Line,
            Call::Run { .. } => Function::Run,
            Call::BuildDescriptor { .. } => Function::BuildDescriptor,
            Call::ReadDescriptor { .. } => Function::ReadDescriptor,
            Call::FindRecord { .. } => Function::FindRecord,
            Call::MoveImage { .. } => Function::MoveImage,
            Call::CheckChain { .. } => Function::CheckChain,
            Call::MendChain { .. } => Function::MendChain,
            Call::Vic(call) => call.function(),
            Call::Timer(call) => call.function(),
        }
    }

    /// The image that the call is given, where it is given one.
    pub fn image(&self) -> Option<&Lent> {
        match self {
            Call::Create { image, .. }
            | Call::ReadRegister { image, .. }
            | Call::WriteRegister { image, .. }
            | Call::Line { image, .. }
            | Call::Run { image, .. } => Some(image),
            _ => None,
        }
    }

    /// The window that the call is lent, where it is lent one.
    pub fn window(&self) -> Option<&Lent> {
        match self {
            Call::Run { window, .. }
            | Call::BuildDescriptor { window, .. }
            | Call::ReadDescriptor { window, .. }
            | Call::CheckChain { window, .. }
            | Call::MendChain { window, .. } => Some(window),
            _ => None,
        }
    }

    /// Every argument in the order of the prototype.
    #[rustfmt::skip]
    pub fn arguments(&mut self) -> Vec<Argument<'_>> {
        use Argument::{Byte, Lent, Long, Short, Wide};
        match self {
            Call::Create { image, mode, base, length } =>
                vec![Lent("image", image), Long(mode), Wide(base), Wide(length)],
            Call::ReadRegister { image, offset, value } =>
                vec![Lent("image", image), Long(offset), Lent("value", value)],
            Call::WriteRegister { image, offset, value } =>
                vec![Lent("image", image), Long(offset), Long(value)],
            Call::Line { image, value } =>
                vec![Lent("image", image), Lent("value", value)],
            Call::Run { image, window, beats, out, ledger, used, budget, report } =>
                vec![Lent("image", image), Lent("window", window), Lent("beats", beats),
                     Lent("out", out), Lent("ledger", ledger), Long(used), Long(budget),
                     Lent("report", report)],
            Call::BuildDescriptor {
                window, base, address, source, destination, next, length, control,
            } =>
                vec![Lent("window", window), Wide(base), Long(address), Long(source),
                     Long(destination), Long(next), Short(length), Byte(control)],
            Call::ReadDescriptor { window, base, address, answer } =>
                vec![Lent("window", window), Wide(base), Long(address), Lent("answer", answer)],
            Call::FindRecord { ledger, used, run, address, answer } =>
                vec![Lent("ledger", ledger), Long(used), Long(run), Long(address),
                     Lent("answer", answer)],
            Call::MoveImage { from, to } =>
                vec![Lent("from", from), Lent("to", to)],
            Call::CheckChain { window, base, pointer, answer }
            | Call::MendChain { window, base, pointer, answer } =>
                vec![Lent("window", window), Wide(base), Long(pointer), Lent("answer", answer)],
            Call::Vic(call) => call.arguments(),
            Call::Timer(call) => call.arguments(),
        }
    }
}

/// The call as C text, so that it can be made again by hand.
impl Display for Call {
    fn fmt(&self, text: &mut Formatter) -> fmt::Result {
        let name = match self.function() {
            Function::Create => "create",
            Function::ReadRegister => "read_register",
            Function::WriteRegister => "write_register",
            Function::Line => "line",
            Function::Run => "run",
            Function::BuildDescriptor => "build_descriptor",
            Function::ReadDescriptor => "read_descriptor",
            Function::FindRecord => "find_record",
            Function::MoveImage => "move_image",
            Function::CheckChain => "check_chain",
            Function::MendChain => "mend_chain",
            Function::VicCreate => "vic_create",
            Function::VicConfigure => "vic_configure",
            Function::VicEnable => "vic_enable",
            Function::VicTrigger => "vic_trigger",
            Function::VicLine => "vic_line",
            Function::VicChoose => "vic_choose",
            Function::TimerCreate => "timer_create",
            Function::TimerRead => "timer_read",
            Function::TimerWrite => "timer_write",
            Function::TimerLine => "timer_line",
            Function::TimerRun => "timer_run",
            Function::TimerElapsed => "timer_elapsed",
        };
        let mut passed = Vec::new();
        for argument in self.clone().arguments() {
            if let Argument::Lent(name, bytes) = argument {
                writeln!(text, "    {}", declaration(name, bytes))?;
                passed.push(format!("{name}, {}", bytes.len()));
            } else {
                passed.extend(argument.number().map(|number| format!("{number:#x}")));
            }
        }
        writeln!(text, "    sgdma_{name}({});", passed.join(", "))
    }
}

/// A lent slice as a C array; runs of zero are left out.
fn declaration(name: &str, bytes: &[u8]) -> String {
    if bytes.is_empty() {
        return format!("uint8_t *{name} = NULL;");
    }
    let mut elements = Vec::new();
    let mut expected = 0;
    for (place, &byte) in bytes.iter().enumerate().filter(|(_, &byte)| byte != 0) {
        if place == expected {
            elements.push(format!("{byte:#04x}"));
        } else {
            elements.push(format!("[{place}] = {byte:#04x}"));
        }
        expected = place + 1;
    }
    if elements.is_empty() {
        elements.push("0".to_owned());
    }
    let length = bytes.len();
    format!("uint8_t {name}[{length}] = {{{}}};", elements.join(", "))
}

/// Whoever can answer the calls.
pub trait Party {
    fn name(&self) -> &'static str;

    /// Makes the call on its lent bytes and gives the number returned.
    fn answer(&self, call: &mut Call) -> u32;
}

/// A model answers with its own calls.
impl<Model: Calls> Party for Model {
    fn name(&self) -> &'static str {
        Model::NAME
    }

    #[rustfmt::skip]
    fn answer(&self, call: &mut Call) -> u32 {
        match call {
            Call::Create { image, mode, base, length } =>
                self.sgdma_create(image, *mode, *base, *length),
            Call::ReadRegister { image, offset, value } =>
                self.sgdma_read_register(image, *offset, value),
            Call::WriteRegister { image, offset, value } =>
                self.sgdma_write_register(image, *offset, *value),
            Call::Line { image, value } =>
                self.sgdma_line(image, value),
            Call::Run { image, window, beats, out, ledger, used, budget, report } =>
                self.sgdma_run(image, window, beats, out, ledger, *used, *budget, report),
            Call::BuildDescriptor {
                window, base, address, source, destination, next, length, control,
            } =>
                self.sgdma_build_descriptor(window, *base, *address, *source, *destination, *next,
                                            *length, *control),
            Call::ReadDescriptor { window, base, address, answer } =>
                self.sgdma_read_descriptor(window, *base, *address, answer),
            Call::FindRecord { ledger, used, run, address, answer } =>
                self.sgdma_find_record(ledger, *used, *run, *address, answer),
            Call::MoveImage { from, to } => self.sgdma_move_image(from, to),
            Call::CheckChain { window, base, pointer, answer } =>
                self.sgdma_check_chain(window, *base, *pointer, answer),
            Call::MendChain { window, base, pointer, answer } =>
                self.sgdma_mend_chain(window, *base, *pointer, answer),
            Call::Vic(call) => call.answer(*self),
            Call::Timer(call) => call.answer(*self),
        }
    }
}

/// The library, where it could be reached when this package was built.
pub fn libraries() -> Vec<Box<dyn Party>> {
    #[cfg(have_library)]
    return [true, false]
        .map(|null_for_empty| {
            Box::new(crate::library::Library { null_for_empty }) as Box<dyn Party>
        })
        .into();
    #[cfg(not(have_library))]
    Vec::new()
}

/// The library; where there is none the model itself, of which random calls then
/// still show that they reach every case and are refused as they must be.
pub fn libraries_or_model() -> Vec<Box<dyn Party>> {
    let mut found = libraries();
    if found.is_empty() {
        found.push(Box::new(Paper));
    }
    found
}

/// Both models, and the library where there is one: all must give the same
/// answers.
pub fn parties() -> Vec<Box<dyn Party>> {
    let mut parties = libraries();
    parties.push(Box::new(Paper));
    parties.push(Box::new(Bulk));
    parties
}

#[cfg(test)]
mod tests {
    use super::*;

    #[test]
    fn a_byte_beside_the_slice_kills_a_canary() {
        let lent = Lent::from(vec![1, 2, 3]);
        assert!(lent.canaries_live());
        assert_eq!(&*lent, [1, 2, 3]);
        for beside in [CANARY.len() - 1, CANARY.len() + lent.len()] {
            let mut touched = lent.clone();
            touched.guarded[beside] ^= 0x80;
            assert!(!touched.canaries_live());
            assert_eq!(&*touched, &*lent);
        }
    }

    #[test]
    fn a_call_reads_as_c() {
        let call = Call::Run {
            image: Lent::from(vec![0x14, 0, 0, 7]),
            window: Lent::zeros(2),
            beats: Lent::zeros(0),
            out: Lent::from(vec![0, 9]),
            ledger: Lent::from(vec![8]),
            used: 3,
            budget: 16,
            report: Lent::from(vec![1, 2]),
        };
        let expected = [
            "    uint8_t image[4] = {0x14, [3] = 0x07};",
            "    uint8_t window[2] = {0};",
            "    uint8_t *beats = NULL;",
            "    uint8_t out[2] = {[1] = 0x09};",
            "    uint8_t ledger[1] = {0x08};",
            "    uint8_t report[2] = {0x01, 0x02};",
            "    sgdma_run(image, 4, window, 2, beats, 0, out, 2, ledger, 1, 0x3, 0x10, report, 2);\n",
        ];
        assert_eq!(call.to_string(), expected.join("\n"));
    }
}
