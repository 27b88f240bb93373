//! The saved image: the layout, the rules, loading and saving.

use super::{
    control, descriptor_control, status, Kept, Machine, Mode, Phase, Refused, Slot, SlotKind,
    Slots, Window, DESCRIPTOR_SIZE,
};

/// "The image becomes edition 2: .. 85 bytes", bits most significant first.
pub const IMAGE_SIZE: usize = 85;

pub(super) const EDITION: u8 = 2;

/// The numbers of an image in the paper's order, whether they keep the rules or
/// not.
#[derive(Clone, Copy, Debug, PartialEq, Eq)]
pub struct Image {
    pub edition: u8,
    pub mode: u8,
    pub phase: u8,
    pub armed: bool,
    pub pending: bool,
    pub fault: u8,
    pub status: u8,
    pub count: u8,
    pub control: u32,
    pub pointer: u32,
    pub base: u32,
    pub window_length: u32,
    pub kept: Kept,
    pub zero: u16,
    pub fault_address: u32,
    pub slot_zero: u8,
    pub slot: Slot,
    pub run_number: u32,
}

impl Image {
    /// "edition 4, mode 2, phase 3 .., armed 1, pending 1, fault 5, status 8,
    /// count 8, control 32, pointer 32, base 32, window length 32; then descriptor
    /// address 32, source 32, destination 32, length 16, control 8, errors 8,
    /// moved 16, EOP seen 1, zero 15; fault address 32", and "after the old fields,
    /// slot kind 2 .., zero 6, slot address 32, slot bytes 256, run number 32".
    #[inline]
    pub fn unpack(bytes: &[u8; IMAGE_SIZE]) -> Image {
        let short = |place| u16::from_be_bytes([bytes[place], bytes[place + 1]]);
        let long = |place| (u32::from(short(place)) << 16) | u32::from(short(place + 2));
        let (head, tail) = (short(0), short(38));
        let bits = |from: u32, width: u32| ((head >> from) & ((1 << width) - 1)) as u8;
        Image {
            edition: bits(12, 4),
            mode: bits(10, 2),
            phase: bits(7, 3),
            armed: bits(6, 1) == 1,
            pending: bits(5, 1) == 1,
            fault: bits(0, 5),
            status: bytes[2],
            count: bytes[3],
            control: long(4),
            pointer: long(8),
            base: long(12),
            window_length: long(16),
            kept: Kept {
                address: long(20),
                source: long(24),
                destination: long(28),
                length: short(32),
                control: bytes[34],
                errors: bytes[35],
                moved: short(36),
                eop_seen: tail >> 15 == 1,
            },
            zero: tail & 0x7FFF,
            fault_address: long(40),
            slot_zero: bytes[44] & 0x3F,
            slot: Slot {
                kind: SlotKind::of_number(bytes[44] >> 6),
                address: long(45),
                bytes: *bytes[49..].first_chunk().expect("32 bytes in order"),
            },
            run_number: long(81),
        }
    }

    /// The same layout, written.
    #[inline]
    pub fn pack(&self) -> [u8; IMAGE_SIZE] {
        let mut bytes = [0; IMAGE_SIZE];
        let mut put = |place: usize, number: &[u8]| {
            bytes[place..place + number.len()].copy_from_slice(number);
        };
        let head = u16::from(self.edition) << 12
            | u16::from(self.mode) << 10
            | u16::from(self.phase) << 7
            | u16::from(self.armed) << 6
            | u16::from(self.pending) << 5
            | u16::from(self.fault);
        put(0, &head.to_be_bytes());
        put(2, &[self.status, self.count]);
        put(4, &self.control.to_be_bytes());
        put(8, &self.pointer.to_be_bytes());
        put(12, &self.base.to_be_bytes());
        put(16, &self.window_length.to_be_bytes());
        put(20, &self.kept.address.to_be_bytes());
        put(24, &self.kept.source.to_be_bytes());
        put(28, &self.kept.destination.to_be_bytes());
        put(32, &self.kept.length.to_be_bytes());
        put(34, &[self.kept.control, self.kept.errors]);
        put(36, &self.kept.moved.to_be_bytes());
        let tail = u16::from(self.kept.eop_seen) << 15 | self.zero;
        put(38, &tail.to_be_bytes());
        put(40, &self.fault_address.to_be_bytes());
        put(44, &[(self.slot.kind as u8) << 6 | self.slot_zero]);
        put(45, &self.slot.address.to_be_bytes());
        put(49, &self.slot.bytes);
        put(81, &self.run_number.to_be_bytes());
        bytes
    }

    #[inline]
    pub fn of_machine(machine: &Machine) -> Image {
        Image {
            edition: EDITION,
            mode: machine.mode as u8,
            phase: machine.phase as u8,
            armed: machine.controls(control::SW_RESET),
            pending: machine.pending,
            fault: machine.fault_code,
            status: machine.status,
            count: machine.count,
            control: machine.control,
            pointer: machine.pointer,
            base: machine.window.base as u32,
            window_length: machine.window.length as u32,
            kept: machine.kept,
            zero: 0,
            fault_address: machine.fault_address,
            slot_zero: 0,
            slot: machine.slot,
            run_number: machine.run_number,
        }
    }

    /// The machine of an image that keeps the rules.
    #[inline]
    fn machine(&self) -> Machine {
        Machine {
            mode: Mode::of_number(self.mode),
            window: self.window(),
            phase: Phase::of_number(self.phase),
            status: self.status,
            control: self.control,
            pointer: self.pointer,
            count: self.count,
            pending: self.pending,
            kept: self.kept,
            fault_code: self.fault,
            fault_address: self.fault_address,
            slot: self.slot,
            run_number: self.run_number,
        }
    }

    #[inline]
    fn window(&self) -> Window {
        Window {
            base: u64::from(self.base),
            length: u64::from(self.window_length),
        }
    }

    #[inline]
    fn is_in(&self, phases: &[Phase]) -> bool {
        phases.iter().any(|&phase| self.phase == phase as u8)
    }

    #[inline]
    fn keeps_descriptor(&self) -> bool {
        self.is_in(&[Phase::Move, Phase::WriteBack])
    }

    /// Modes 0 and 1, where neither beats nor their errors come in.
    #[inline]
    fn is_from_memory(&self) -> bool {
        self.mode < Mode::StreamToMemory as u8
    }
}

/// The sentences of the image rules, one by one; one "that makes several zero is a
/// rule for each".
#[derive(Clone, Copy, Debug, PartialEq, Eq, PartialOrd, Ord)]
pub enum ImageRule {
    EditionTwo,
    ModeAtMostTwo,
    PhaseAtMostSix,
    WindowLength,
    WindowEnd,
    StatusBitsZero,
    ControlBitsZero,
    ArmedIsControlBit16,
    BusyInPhasesOneToFour,
    RunInEndedAndHalted,
    HaltedOnlyInModeTwo,
    StreamStatusOnlyInModeTwo,
    CountAtMost254,
    NoAddressElsewhere,
    NoSourceElsewhere,
    NoDestinationElsewhere,
    NoLengthElsewhere,
    NoControlElsewhere,
    NoErrorsElsewhere,
    NoMovedElsewhere,
    NoEopElsewhere,
    AddressAligned,
    AddressInWindow,
    ControlOwned,
    LengthNotZeroFromMemory,
    NoErrorsFromMemory,
    NoEopFromMemory,
    ErrorsBit7Zero,
    MoveMovedBelowL,
    MoveNoEop,
    MoveNoErrorsBeforeFirstByte,
    WriteBackMovedOneToL,
    WriteBackFinished,
    FaultCode,
    FaultCodeOfMode,
    NoFaultCodeElsewhere,
    NoFaultAddressElsewhere,
    ZeroBitsZero,
    HeldOnlyInFetchMoveWriteBack,
    SlotZeroBitsZero,
    EmptySlotWithoutAddress,
    HeldSlotAtPointer,
    SlotKindOfItsAddress,
    EmptySlotWithoutBytes,
    FaultSlotWithoutBytes,
}

impl ImageRule {
    pub const ALL: [ImageRule; 45] = [
        ImageRule::EditionTwo,
        ImageRule::ModeAtMostTwo,
        ImageRule::PhaseAtMostSix,
        ImageRule::WindowLength,
        ImageRule::WindowEnd,
        ImageRule::StatusBitsZero,
        ImageRule::ControlBitsZero,
        ImageRule::ArmedIsControlBit16,
        ImageRule::BusyInPhasesOneToFour,
        ImageRule::RunInEndedAndHalted,
        ImageRule::HaltedOnlyInModeTwo,
        ImageRule::StreamStatusOnlyInModeTwo,
        ImageRule::CountAtMost254,
        ImageRule::NoAddressElsewhere,
        ImageRule::NoSourceElsewhere,
        ImageRule::NoDestinationElsewhere,
        ImageRule::NoLengthElsewhere,
        ImageRule::NoControlElsewhere,
        ImageRule::NoErrorsElsewhere,
        ImageRule::NoMovedElsewhere,
        ImageRule::NoEopElsewhere,
        ImageRule::AddressAligned,
        ImageRule::AddressInWindow,
        ImageRule::ControlOwned,
        ImageRule::LengthNotZeroFromMemory,
        ImageRule::NoErrorsFromMemory,
        ImageRule::NoEopFromMemory,
        ImageRule::ErrorsBit7Zero,
        ImageRule::MoveMovedBelowL,
        ImageRule::MoveNoEop,
        ImageRule::MoveNoErrorsBeforeFirstByte,
        ImageRule::WriteBackMovedOneToL,
        ImageRule::WriteBackFinished,
        ImageRule::FaultCode,
        ImageRule::FaultCodeOfMode,
        ImageRule::NoFaultCodeElsewhere,
        ImageRule::NoFaultAddressElsewhere,
        ImageRule::ZeroBitsZero,
        ImageRule::HeldOnlyInFetchMoveWriteBack,
        ImageRule::SlotZeroBitsZero,
        ImageRule::EmptySlotWithoutAddress,
        ImageRule::HeldSlotAtPointer,
        ImageRule::SlotKindOfItsAddress,
        ImageRule::EmptySlotWithoutBytes,
        ImageRule::FaultSlotWithoutBytes,
    ];
}

impl ImageRule {
    /// The field that the rule counts against, "in layout order from 1": of the
    /// fields it speaks of, its condition among them, "the last".
    pub fn field(self) -> u8 {
        use ImageRule::*;
        match self {
            EditionTwo => 1,
            ModeAtMostTwo => 2,
            PhaseAtMostSix | HaltedOnlyInModeTwo => 3,
            FaultCode | FaultCodeOfMode | NoFaultCodeElsewhere => 6,
            StatusBitsZero | BusyInPhasesOneToFour | StreamStatusOnlyInModeTwo => 7,
            CountAtMost254 => 8,
            ControlBitsZero | ArmedIsControlBit16 | RunInEndedAndHalted => 9,
            WindowLength | WindowEnd => 12,
            NoAddressElsewhere | AddressAligned | AddressInWindow => 13,
            NoSourceElsewhere => 14,
            NoDestinationElsewhere => 15,
            NoLengthElsewhere | LengthNotZeroFromMemory => 16,
            NoControlElsewhere | ControlOwned => 17,
            NoErrorsElsewhere | NoErrorsFromMemory | ErrorsBit7Zero => 18,
            NoMovedElsewhere
            | MoveMovedBelowL
            | MoveNoErrorsBeforeFirstByte
            | WriteBackMovedOneToL => 19,
            NoEopElsewhere | NoEopFromMemory | MoveNoEop | WriteBackFinished => 20,
            ZeroBitsZero => 21,
            NoFaultAddressElsewhere => 22,
            HeldOnlyInFetchMoveWriteBack => 23,
            SlotZeroBitsZero => 24,
            EmptySlotWithoutAddress | HeldSlotAtPointer | SlotKindOfItsAddress => 25,
            EmptySlotWithoutBytes | FaultSlotWithoutBytes => 26,
        }
    }

    /// Whether an image can break this rule and no other. A length of 0 in mode 0
    /// or 1 makes L 0, and then no number of bytes moved keeps the rules of Move
    /// or of WriteBack.
    pub fn can_break_alone(self) -> bool {
        self != ImageRule::LengthNotZeroFromMemory
    }
}

/// Each rule with whether the image keeps it.
type Verdicts<const RULES: usize> = [(ImageRule, bool); RULES];

pub trait Images: Slots {
    /// "An image loads exactly when it keeps these rules"
    #[inline]
    fn load(self, bytes: &[u8; IMAGE_SIZE]) -> Result<Machine, Refused> {
        let image = Image::unpack(bytes);
        let accepted = |&(rule, kept): &(ImageRule, bool)| kept || self.overlooks(rule);
        let keeps_rules = self.machine_rules(&image).iter().all(accepted)
            && self.none_elsewhere_rules(&image).iter().all(accepted)
            && self.kept_rules(&image).iter().all(accepted)
            && self.progress_rules(&image).iter().all(accepted)
            && self.fault_rules(&image).iter().all(accepted)
            && self.slot_rules(&image).iter().all(accepted);
        if keeps_rules {
            Ok(image.machine())
        } else {
            Err(Refused::for_field(self.field_told(bytes)))
        }
    }

    /// "give with refusal 8 the lowest field that breaks a rule": 0 where none does.
    /// It unpacks the bytes anew, so that an image that loads need not stay at hand.
    #[cold]
    fn field_told(self, bytes: &[u8; IMAGE_SIZE]) -> u8 {
        let mut broken = self.broken_rules(&Image::unpack(bytes));
        broken.retain(|&rule| !self.overlooks(rule));
        let fields = broken.into_iter().map(|rule| self.field_of(rule));
        fields.min().unwrap_or(0)
    }

    /// A deliberate error may count a rule against another field.
    fn field_of(self, rule: ImageRule) -> u8 {
        rule.field()
    }

    /// ".. and saved again gives the same bytes."
    #[inline]
    fn save(self, machine: &Machine) -> [u8; IMAGE_SIZE] {
        Image::of_machine(machine).pack()
    }

    /// The paper overlooks none of its rules; a deliberate error may.
    fn overlooks(self, _rule: ImageRule) -> bool {
        false
    }

    /// The rules that the image breaks.
    fn broken_rules(self, image: &Image) -> Vec<ImageRule> {
        self.machine_rules(image)
            .into_iter()
            .chain(self.none_elsewhere_rules(image))
            .chain(self.kept_rules(image))
            .chain(self.progress_rules(image))
            .chain(self.fault_rules(image))
            .chain(self.slot_rules(image))
            .filter_map(|(rule, kept)| (!kept).then_some(rule))
            .collect()
    }

    /// "edition 2; mode at most 2, phase at most 6; window as above; status bits
    /// 5..7, control bits 18..31 zero; control bit 16 equals armed; BUSY 1 exactly
    /// in phases 1 to 4; RUN 1 in Ended and Halted; Halted only in mode 2; ERROR
    /// and EOP_ENCOUNTERED 0 outside mode 2; count at most 254."
    #[inline]
    fn machine_rules(self, image: &Image) -> Verdicts<13> {
        use ImageRule::*;
        let Window { base, length } = image.window();
        let busy = image.status & status::BUSY != 0;
        let runs = image.control & control::RUN != 0;
        let is_stream_to_memory = image.mode == Mode::StreamToMemory as u8;
        let stream_status = image.status & (status::ERROR | status::EOP_ENCOUNTERED);
        [
            (EditionTwo, image.edition == EDITION),
            (ModeAtMostTwo, image.mode <= 2),
            (PhaseAtMostSix, image.phase <= 6),
            (WindowLength, length <= 65_536),
            (WindowEnd, base + length <= 4_294_967_296),
            (StatusBitsZero, image.status & 0xE0 == 0),
            (ControlBitsZero, image.control & !control::STORED == 0),
            (
                ArmedIsControlBit16,
                image.armed == (image.control & control::SW_RESET != 0),
            ),
            (
                BusyInPhasesOneToFour,
                busy == (1..=4).contains(&image.phase),
            ),
            (
                RunInEndedAndHalted,
                runs || !image.is_in(&[Phase::Ended, Phase::Halted]),
            ),
            (
                HaltedOnlyInModeTwo,
                is_stream_to_memory || !image.is_in(&[Phase::Halted]),
            ),
            (
                StreamStatusOnlyInModeTwo,
                is_stream_to_memory || stream_status == 0,
            ),
            (CountAtMost254, image.count <= 254),
        ]
    }

    /// "Descriptor fields zero outside Move and WriteBack"
    #[inline]
    fn none_elsewhere_rules(self, image: &Image) -> Verdicts<8> {
        use ImageRule::*;
        let Image { kept, .. } = *image;
        let keeps = image.keeps_descriptor();
        [
            (NoAddressElsewhere, keeps || kept.address == 0),
            (NoSourceElsewhere, keeps || kept.source == 0),
            (NoDestinationElsewhere, keeps || kept.destination == 0),
            (NoLengthElsewhere, keeps || kept.length == 0),
            (NoControlElsewhere, keeps || kept.control == 0),
            (NoErrorsElsewhere, keeps || kept.errors == 0),
            (NoMovedElsewhere, keeps || kept.moved == 0),
            (NoEopElsewhere, keeps || !kept.eop_seen),
        ]
    }

    /// "there: address aligned and in the window, control bit 7 set, in modes 0 and
    /// 1 length not 0, errors and EOP seen 0; errors bit 7 zero." "Zero bits are
    /// zero."
    #[inline]
    fn kept_rules(self, image: &Image) -> Verdicts<8> {
        use ImageRule::*;
        let Image { kept, .. } = *image;
        let keeps = image.keeps_descriptor();
        let from_memory = keeps && image.is_from_memory();
        let place = self.place(
            image.window(),
            u64::from(kept.address),
            DESCRIPTOR_SIZE as u64,
        );
        let owned = kept.control & descriptor_control::OWNED_BY_HW != 0;
        [
            (
                AddressAligned,
                !keeps || self.is_aligned(image.window(), kept.address),
            ),
            (AddressInWindow, !keeps || place.is_some()),
            (ControlOwned, !keeps || owned),
            (LengthNotZeroFromMemory, !from_memory || kept.length != 0),
            (NoErrorsFromMemory, !from_memory || kept.errors == 0),
            (NoEopFromMemory, !from_memory || !kept.eop_seen),
            (ErrorsBit7Zero, !keeps || kept.errors & 0x80 == 0),
            (ZeroBitsZero, image.zero == 0),
        ]
    }

    /// "Move: moved < L, EOP seen 0, errors 0 if moved is 0. WriteBack: 1 <= moved
    /// <= L, and moved = L or EOP seen."
    #[inline]
    fn progress_rules(self, image: &Image) -> Verdicts<5> {
        use ImageRule::*;
        let Image { kept, .. } = *image;
        let wanted = self.bytes_wanted(Mode::of_number(image.mode), kept.length);
        let moving = image.is_in(&[Phase::Move]);
        let writing_back = image.is_in(&[Phase::WriteBack]);
        [
            (MoveMovedBelowL, !moving || kept.moved < wanted),
            (MoveNoEop, !moving || !kept.eop_seen),
            (
                MoveNoErrorsBeforeFirstByte,
                !moving || kept.moved != 0 || kept.errors == 0,
            ),
            (
                WriteBackMovedOneToL,
                !writing_back || (1..=wanted).contains(&kept.moved),
            ),
            (
                WriteBackFinished,
                !writing_back || kept.moved == wanted || kept.eop_seen,
            ),
        ]
    }

    /// "Faulted: code 10 to 14, 12 and 13 only in modes 0 and 1, 14 only in 0 and
    /// 2; else code and address 0."
    #[inline]
    fn fault_rules(self, image: &Image) -> Verdicts<4> {
        use ImageRule::*;
        let faulted = image.is_in(&[Phase::Faulted]);
        let met_in_mode = match image.fault {
            12 | 13 => image.is_from_memory(),
            14 => image.mode != Mode::MemoryToStream as u8,
            _ => true,
        };
        [
            (FaultCode, !faulted || (10..=14).contains(&image.fault)),
            (FaultCodeOfMode, !faulted || met_in_mode),
            (NoFaultCodeElsewhere, faulted || image.fault == 0),
            (NoFaultAddressElsewhere, faulted || image.fault_address == 0),
        ]
    }

    /// "An empty slot is all zero; a fault slot's bytes are zero; a held slot stands
    /// only in Fetch, Move and WriteBack, its address is the pointer, and its kind
    /// is what rules 10 and 11 give there." "Zero bits are zero."
    #[inline]
    fn slot_rules(self, image: &Image) -> Verdicts<7> {
        use ImageRule::*;
        let Image { slot, .. } = image;
        let held = slot.is_held();
        let has_bytes = slot.kind == SlotKind::Descriptor;
        let no_bytes = slot.bytes == [0; DESCRIPTOR_SIZE];
        let stands = image.is_in(&[Phase::Fetch, Phase::Move, Phase::WriteBack]);
        let due = || self.kind_at(image.window(), slot.address);
        [
            (HeldOnlyInFetchMoveWriteBack, !held || stands),
            (SlotZeroBitsZero, image.slot_zero == 0),
            (EmptySlotWithoutAddress, held || slot.address == 0),
            (HeldSlotAtPointer, !held || slot.address == image.pointer),
            (SlotKindOfItsAddress, !held || slot.kind == due()),
            (EmptySlotWithoutBytes, held || no_bytes),
            (FaultSlotWithoutBytes, !held || has_bytes || no_bytes),
        ]
    }
}
