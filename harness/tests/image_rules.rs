//! Every image rule broken alone, each beside a repaired twin that loads, and two
//! or more at once: the field that is told.

use harness::call::{parties, Call, Lent, Party};
use harness::compare::ask;
use harness::model::ImageRule::{self, *};
use harness::model::{
    offset, Image, Images, Kept, Machine, Mode, Paper, Phase, Slot, SlotKind, Window,
    DESCRIPTOR_SIZE, IMAGE_SIZE, REPORT_SIZE, VALUE_SIZE,
};
use harness::samples::image;
use std::collections::BTreeSet;

const MODES: [Mode; 3] = Mode::ALL;
const FROM_MEMORY: [Mode; 2] = [Mode::MemoryToMemory, Mode::MemoryToStream];
const STREAM: Mode = Mode::StreamToMemory;
const RUN: u32 = 0x20;
const BUSY: u8 = 0x10;

/// Every good image of the three modes.
fn images() -> Vec<Image> {
    let mut images = Vec::new();
    for mode in MODES {
        images.extend(Phase::ALL.map(|phase| image(mode, phase)));
    }
    images.retain(|image| Paper.broken_rules(image).is_empty());
    images
}

/// An edit of one field.
type Edit = fn(&mut Image);

/// A rule with the field that it counts against, the good images on which it is
/// broken, the edit that breaks it, and an edit of the same field that does not.
struct Row {
    field: u32,
    rule: ImageRule,
    images: Vec<Image>,
    breaks: Edit,
    keeps: Edit,
}

fn row(field: u32, rule: ImageRule, images: Vec<Image>, breaks: Edit, keeps: Edit) -> Row {
    Row {
        field,
        rule,
        images,
        breaks,
        keeps,
    }
}

/// The good images in these phases, of these modes.
fn of(modes: &[Mode], phases: &[Phase]) -> Vec<Image> {
    let mut images = images();
    images.retain(|image| {
        modes.iter().any(|&mode| image.mode == mode as u8)
            && phases.iter().any(|&phase| image.phase == phase as u8)
    });
    images
}

fn with(mut images: Vec<Image>, edit: Edit) -> Vec<Image> {
    images.iter_mut().for_each(edit);
    images
}

const REST: [Phase; 1] = [Phase::Rest];
const MOVE: [Phase; 1] = [Phase::Move];
const WRITE_BACK: [Phase; 1] = [Phase::WriteBack];
const KEEPING: [Phase; 2] = [Phase::Move, Phase::WriteBack];
const NOT_KEEPING: [Phase; 5] = [
    Phase::Rest,
    Phase::Fetch,
    Phase::Ended,
    Phase::Halted,
    Phase::Faulted,
];
const NOT_FAULTED: [Phase; 6] = [
    Phase::Rest,
    Phase::Fetch,
    Phase::Move,
    Phase::WriteBack,
    Phase::Ended,
    Phase::Halted,
];

const HOLDING: [Phase; 3] = [Phase::Fetch, Phase::Move, Phase::WriteBack];
const NOT_HOLDING: [Phase; 4] = [Phase::Rest, Phase::Ended, Phase::Halted, Phase::Faulted];

/// Points there and holds that in the slot: of a descriptor, bytes of which each
/// is another.
fn hold(image: &mut Image, address: u32, kind: SlotKind) {
    let bytes = match kind {
        SlotKind::Descriptor => std::array::from_fn(|place| 0x81 + place as u8),
        _ => [0; DESCRIPTOR_SIZE],
    };
    image.pointer = address;
    image.slot = Slot {
        kind,
        address,
        bytes,
    };
}

#[rustfmt::skip]
fn head_rows() -> Vec<Row> {
    let at_the_top = || with(of(&MODES, &REST), |i| i.base = u32::MAX);
    vec![
        row(1, EditionTwo, images(), |i| i.edition = 0, |i| i.edition = 2),
        row(1, EditionTwo, images(), |i| i.edition = 1, |i| i.edition = 2),
        row(1, EditionTwo, images(), |i| i.edition = 9, |i| i.edition = 2),
        row(2, ModeAtMostTwo, of(&MODES, &REST), |i| i.mode = 3, |i| i.mode = 2),
        row(3, PhaseAtMostSix, of(&MODES, &REST), |i| i.phase = 7, |i| i.phase = 0),
        row(12, WindowLength, of(&MODES, &REST),
            |i| i.window_length = 65_537, |i| i.window_length = 65_536),
        row(12, WindowEnd, at_the_top(), |i| i.window_length = 2, |i| i.window_length = 1),
        row(7, StatusBitsZero, images(), |i| i.status |= 0x20, |i| i.status |= 0x08),
        row(7, StatusBitsZero, images(), |i| i.status |= 0x40, |i| i.status |= 0x08),
        row(7, StatusBitsZero, images(), |i| i.status |= 0x80, |i| i.status |= 0x08),
        row(9, ControlBitsZero, images(), |i| i.control |= 1 << 18, |i| i.control |= 1 << 17),
        row(9, ControlBitsZero, images(), |i| i.control |= 1 << 30, |i| i.control |= 1 << 15),
        row(9, ControlBitsZero, images(), |i| i.control |= 1 << 31, |i| i.control |= 1 << 15),
        row(9, ArmedIsControlBit16, images(), |i| i.armed = true, |i| i.armed = false),
        row(9, ArmedIsControlBit16, with(images(), |i| i.armed = true),
            |i| i.control |= 1 << 15, |i| i.control |= 1 << 16),
        row(8, CountAtMost254, images(), |i| i.count = 255, |i| i.count = 254),
        row(21, ZeroBitsZero, images(), |i| i.zero = 1, |i| i.zero = 0),
        row(21, ZeroBitsZero, images(), |i| i.zero = 0x4000, |i| i.zero = 0),
    ]
}

#[rustfmt::skip]
fn phase_rows() -> Vec<Row> {
    use Phase::*;
    vec![
        row(7, BusyInPhasesOneToFour, of(&MODES, &[Rest, Halted, Faulted]),
            |i| i.status |= BUSY, |i| i.status |= 4),
        row(7, BusyInPhasesOneToFour, of(&MODES, &[Fetch, Move, WriteBack, Ended]),
            |i| i.status = 4, |i| i.status |= 4),
        row(9, RunInEndedAndHalted, of(&MODES, &[Ended, Halted]),
            |i| i.control &= !RUN, |i| i.control |= RUN),
        row(3, HaltedOnlyInModeTwo, of(&MODES, &[Halted]), |i| i.mode = 0, |i| i.mode = 2),
        row(3, HaltedOnlyInModeTwo, of(&MODES, &[Halted]), |i| i.mode = 1, |i| i.mode = 2),
        row(7, StreamStatusOnlyInModeTwo, of(&FROM_MEMORY, &Phase::ALL),
            |i| i.status |= 1, |i| i.status |= 4),
        row(7, StreamStatusOnlyInModeTwo, of(&FROM_MEMORY, &Phase::ALL),
            |i| i.status |= 2, |i| i.status |= 8),
        row(6, FaultCode, of(&MODES, &[Faulted]), |i| i.fault = 0, |i| i.fault = 10),
        row(6, FaultCode, of(&MODES, &[Faulted]), |i| i.fault = 9, |i| i.fault = 11),
        row(6, FaultCode, of(&MODES, &[Faulted]), |i| i.fault = 31, |i| i.fault = 10),
        row(6, FaultCode, of(&FROM_MEMORY, &[Faulted]), |i| i.fault = 15, |i| i.fault = 12),
        row(6, FaultCodeOfMode, of(&[STREAM], &[Faulted]), |i| i.fault = 12, |i| i.fault = 14),
        row(6, FaultCodeOfMode, of(&[STREAM], &[Faulted]), |i| i.fault = 13, |i| i.fault = 14),
        row(6, FaultCodeOfMode, of(&[Mode::MemoryToStream], &[Faulted]),
            |i| i.fault = 14, |i| i.fault = 13),
        row(6, NoFaultCodeElsewhere, of(&MODES, &NOT_FAULTED), |i| i.fault = 10, |i| i.fault = 0),
        row(22, NoFaultAddressElsewhere, of(&MODES, &NOT_FAULTED),
            |i| i.fault_address = 1, |i| i.fault_address = 0),
    ]
}

#[rustfmt::skip]
fn kept_rows() -> Vec<Row> {
    let elsewhere = || of(&MODES, &NOT_KEEPING);
    vec![
        row(13, NoAddressElsewhere, elsewhere(),
            |i| i.kept.address = 4096, |i| i.kept.address = 0),
        row(14, NoSourceElsewhere, elsewhere(),
            |i| i.kept.source = 1, |i| i.kept.source = 0),
        row(15, NoDestinationElsewhere, elsewhere(),
            |i| i.kept.destination = 1, |i| i.kept.destination = 0),
        row(16, NoLengthElsewhere, elsewhere(),
            |i| i.kept.length = 1, |i| i.kept.length = 0),
        row(17, NoControlElsewhere, elsewhere(),
            |i| i.kept.control = 0x80, |i| i.kept.control = 0),
        row(18, NoErrorsElsewhere, elsewhere(),
            |i| i.kept.errors = 1, |i| i.kept.errors = 0),
        row(19, NoMovedElsewhere, elsewhere(),
            |i| i.kept.moved = 1, |i| i.kept.moved = 0),
        row(20, NoEopElsewhere, elsewhere(),
            |i| i.kept.eop_seen = true, |i| i.kept.eop_seen = false),
        row(13, AddressAligned, of(&MODES, &KEEPING),
            |i| i.kept.address = 4097, |i| i.kept.address = 4100),
        row(13, AddressAligned, of(&MODES, &KEEPING),
            |i| i.kept.address = 4098, |i| i.kept.address = 4100),
        row(13, AddressInWindow, of(&MODES, &KEEPING),
            |i| i.kept.address = 4092, |i| i.kept.address = 4096),
        row(13, AddressInWindow, of(&MODES, &KEEPING),
            |i| i.kept.address = 4324, |i| i.kept.address = 4320),
        row(17, ControlOwned, of(&MODES, &KEEPING),
            |i| i.kept.control = 0x7F, |i| i.kept.control = 0xFF),
        row(18, NoErrorsFromMemory, of(&FROM_MEMORY, &KEEPING),
            |i| i.kept.errors = 1, |i| i.kept.errors = 0),
        row(20, NoEopFromMemory, of(&FROM_MEMORY, &WRITE_BACK),
            |i| i.kept.eop_seen = true, |i| i.kept.eop_seen = false),
        row(18, ErrorsBit7Zero, of(&[STREAM], &KEEPING),
            |i| i.kept.errors = 0x80, |i| i.kept.errors = 0x7F),
    ]
}

#[rustfmt::skip]
fn progress_rows() -> Vec<Row> {
    let without_length = |phases| {
        with(of(&[STREAM], phases), |i| (i.kept.length, i.kept.moved) = (0, 65_535))
    };
    let unmoved = || with(of(&[STREAM], &MOVE), |i| i.kept.moved = 0);
    let after_eop = || with(of(&[STREAM], &WRITE_BACK), |i| i.kept.eop_seen = true);
    vec![
        row(19, MoveMovedBelowL, of(&MODES, &MOVE), |i| i.kept.moved = 4, |i| i.kept.moved = 3),
        row(19, MoveMovedBelowL, of(&MODES, &MOVE), |i| i.kept.moved = 65_535, |i| i.kept.moved = 0),
        row(19, MoveMovedBelowL, without_length(&MOVE),
            |i| i.kept.moved = 65_535, |i| i.kept.moved = 65_534),
        row(20, MoveNoEop, of(&[STREAM], &MOVE),
            |i| i.kept.eop_seen = true, |i| i.kept.eop_seen = false),
        row(19, MoveNoErrorsBeforeFirstByte, unmoved(), |i| i.kept.errors = 1, |i| i.kept.errors = 0),
        row(19, WriteBackMovedOneToL, after_eop(), |i| i.kept.moved = 0, |i| i.kept.moved = 1),
        row(19, WriteBackMovedOneToL, after_eop(), |i| i.kept.moved = 5, |i| i.kept.moved = 4),
        row(20, WriteBackFinished, of(&MODES, &WRITE_BACK), |i| i.kept.moved = 3, |i| i.kept.moved = 4),
        row(20, WriteBackFinished, without_length(&WRITE_BACK),
            |i| i.kept.moved = 65_534, |i| i.kept.moved = 65_535),
    ]
}

/// Rules of the slot. A held one is broken in images that hold one, and an empty
/// one in images that do not.
#[rustfmt::skip]
fn slot_rows() -> Vec<Row> {
    use SlotKind::*;
    let holding = |edit| with(of(&MODES, &HOLDING), edit);
    let held = || holding(|i| hold(i, 4128, Descriptor));
    let misaligned = || holding(|i| hold(i, 4098, Misaligned));
    let outside = || holding(|i| hold(i, 4324, Outside));
    vec![
        row(23, HeldOnlyInFetchMoveWriteBack, of(&MODES, &NOT_HOLDING),
            |i| hold(i, i.pointer, Descriptor), |i| i.slot = Slot::default()),
        row(23, HeldOnlyInFetchMoveWriteBack, of(&MODES, &NOT_HOLDING),
            |i| hold(i, 2, Misaligned), |i| i.pointer = 2),
        row(23, HeldOnlyInFetchMoveWriteBack, of(&MODES, &NOT_HOLDING),
            |i| hold(i, 0, Outside), |i| i.pointer = 0),
        row(24, SlotZeroBitsZero, images(), |i| i.slot_zero = 1, |i| i.slot_zero = 0),
        row(24, SlotZeroBitsZero, held(), |i| i.slot_zero = 0x20, |i| i.slot_zero = 0),
        row(25, EmptySlotWithoutAddress, images(), |i| i.slot.address = i.pointer, |i| i.slot.address = 0),
        row(25, EmptySlotWithoutAddress, images(), |i| i.slot.address = 1, |i| i.slot.address = 0),
        row(25, HeldSlotAtPointer, held(), |i| i.slot.address = 4132, |i| i.slot.address = 4128),
        row(25, HeldSlotAtPointer, held(), |i| i.pointer = 4160, |i| i.pointer = 4128),
        row(25, HeldSlotAtPointer, misaligned(), |i| i.slot.address = 4099, |i| i.slot.address = 4098),
        row(25, HeldSlotAtPointer, outside(), |i| i.slot.address = 0, |i| i.slot.address = 4324),
        row(25, SlotKindOfItsAddress, with(held(), |i| i.slot.bytes = [0; 32]),
            |i| i.slot.kind = Misaligned, |i| i.slot.kind = Descriptor),
        row(25, SlotKindOfItsAddress, with(held(), |i| i.slot.bytes = [0; 32]),
            |i| i.slot.kind = Outside, |i| i.slot.kind = Descriptor),
        row(25, SlotKindOfItsAddress, misaligned(), |i| i.slot.kind = Descriptor, |i| i.slot.kind = Misaligned),
        row(25, SlotKindOfItsAddress, misaligned(), |i| i.slot.kind = Outside, |i| i.slot.kind = Misaligned),
        row(25, SlotKindOfItsAddress, outside(), |i| i.slot.kind = Descriptor, |i| i.slot.kind = Outside),
        row(25, SlotKindOfItsAddress, outside(), |i| i.slot.kind = Misaligned, |i| i.slot.kind = Outside),
        row(25, SlotKindOfItsAddress, held(), |i| hold(i, 4324, Descriptor), |i| hold(i, 4320, Descriptor)),
        row(25, SlotKindOfItsAddress, held(), |i| hold(i, 4092, Descriptor), |i| hold(i, 4096, Descriptor)),
        row(25, SlotKindOfItsAddress, held(), |i| hold(i, 4130, Descriptor), |i| hold(i, 4132, Descriptor)),
        row(25, SlotKindOfItsAddress, held(), |i| hold(i, 3, Outside), |i| hold(i, 4, Outside)),
        row(26, EmptySlotWithoutBytes, images(), |i| i.slot.bytes[0] = 1, |i| i.slot.bytes[0] = 0),
        row(26, EmptySlotWithoutBytes, images(), |i| i.slot.bytes[31] = 0x80, |i| i.slot.bytes[31] = 0),
        row(26, FaultSlotWithoutBytes, misaligned(), |i| i.slot.bytes[16] = 2, |i| i.slot.bytes[16] = 0),
        row(26, FaultSlotWithoutBytes, outside(), |i| i.slot.bytes[31] = 0x80, |i| i.slot.bytes[31] = 0),
    ]
}

fn rows() -> Vec<Row> {
    [
        head_rows(),
        phase_rows(),
        kept_rows(),
        progress_rows(),
        slot_rows(),
    ]
    .into_iter()
    .flatten()
    .collect()
}

/// The calls that read an image, on this one. None of them changes it when done:
/// the status write clears nothing and the run takes no step.
fn calls_on(image: &Image) -> [Call; 4] {
    let lent = || Lent::from(image.pack().to_vec());
    let window_length = image.window_length.min(65_537) as usize;
    [
        Call::ReadRegister {
            image: lent(),
            offset: offset::CONTROL,
            value: Lent::zeros(VALUE_SIZE),
        },
        Call::WriteRegister {
            image: lent(),
            offset: offset::STATUS,
            value: 0,
        },
        Call::Line {
            image: lent(),
            value: Lent::zeros(VALUE_SIZE),
        },
        Call::Run {
            image: lent(),
            window: Lent::zeros(window_length),
            beats: Lent::zeros(0),
            out: Lent::zeros(0),
            ledger: Lent::zeros(0),
            used: 0,
            budget: 0,
            report: Lent::zeros(REPORT_SIZE),
        },
    ]
}

/// "An image loads exactly when it keeps these rules, and saved again gives the
/// same bytes."
fn check_loads(party: &dyn Party, image: &Image) {
    for call in calls_on(image) {
        let answer = ask(party, &call);
        assert_eq!(answer.returned, 0, "{}: {image:?}", party.name());
        assert_eq!(answer.after.image(), call.image(), "{}", party.name());
    }
}

/// Refused with this field, "in C as 8 + 256 × field", everything keeps its value.
fn check_tells(party: &dyn Party, image: &Image, field: u32) {
    for call in calls_on(image) {
        let answer = ask(party, &call);
        let number = 8 + 256 * field;
        assert_eq!(answer.returned, number, "{}: {image:?}", party.name());
        assert!(answer.after == call, "{}", party.name());
    }
}

#[test]
fn each_rule_broken_alone_tells_its_field() {
    for party in parties() {
        for row in rows() {
            assert!(!row.images.is_empty(), "{:?} has no image", row.rule);
            for image in row.images {
                let (mut broken, mut repaired) = (image, image);
                (row.breaks)(&mut broken);
                (row.keeps)(&mut repaired);
                assert_eq!(Paper.broken_rules(&broken), [row.rule], "{broken:?}");
                assert_eq!(Paper.broken_rules(&repaired), [], "{repaired:?}");
                check_tells(party.as_ref(), &broken, row.field);
                check_loads(party.as_ref(), &repaired);
            }
        }
    }
}

/// The image that both rows begin with, after the edits of both.
fn broken_by_both(one: &Row, other: &Row) -> Option<Image> {
    let mut images = one.images.iter();
    let mut image = *images.find(|&image| other.images.contains(image))?;
    (one.breaks)(&mut image);
    (other.breaks)(&mut image);
    Some(image)
}

/// "the lowest field that breaks a rule": of every two fields, the lower.
#[test]
fn two_rules_broken_at_once_tell_the_lower_field() {
    let rows = rows();
    for party in parties() {
        let mut met = BTreeSet::new();
        for one in &rows {
            for other in rows.iter().filter(|other| other.field > one.field) {
                if let Some(image) = broken_by_both(one, other) {
                    met.insert((one.field, other.field));
                    check_tells(party.as_ref(), &image, one.field);
                }
            }
        }
        // Every two of the 22 fields that can be told.
        assert_eq!(met.len(), 22 * 21 / 2);
    }
}

/// An image of ones breaks a rule of every field that can be told. Put right field
/// by field, it tells one after the other. Armed, pending, pointer, base and run
/// number, of which no rule is, stay as they are.
#[test]
fn many_rules_broken_at_once_tell_the_lowest_field() {
    let repairs: [(u32, Edit); 22] = [
        (1, |i| i.edition = 2),
        (2, |i| i.mode = 2),
        (3, |i| i.phase = 0),
        (6, |i| i.fault = 0),
        (7, |i| i.status = 0),
        (8, |i| i.count = 0),
        (9, |i| i.control = 1 << 16),
        (12, |i| i.window_length = 1),
        (13, |i| i.kept.address = 0),
        (14, |i| i.kept.source = 0),
        (15, |i| i.kept.destination = 0),
        (16, |i| i.kept.length = 0),
        (17, |i| i.kept.control = 0),
        (18, |i| i.kept.errors = 0),
        (19, |i| i.kept.moved = 0),
        (20, |i| i.kept.eop_seen = false),
        (21, |i| i.zero = 0),
        (22, |i| i.fault_address = 0),
        (23, |i| i.slot.kind = SlotKind::Empty),
        (24, |i| i.slot_zero = 0),
        (25, |i| i.slot.address = 0),
        (26, |i| i.slot.bytes = [0; DESCRIPTOR_SIZE]),
    ];
    for party in parties() {
        let mut image = Image::unpack(&[0xFF; IMAGE_SIZE]);
        for (field, repair) in repairs {
            check_tells(party.as_ref(), &image, field);
            repair(&mut image);
        }
        check_loads(party.as_ref(), &image);
    }
}

#[test]
fn each_rule_has_a_row() {
    let rows = rows();
    for rule in ImageRule::ALL {
        let found = rows.iter().any(|row| row.rule == rule);
        assert_eq!(found, rule.can_break_alone(), "{rule:?}");
    }
}

/// The rule that cannot be broken alone: length 0 in mode 0 or 1 leaves no number
/// of bytes moved that keeps the other rules. Its field is the lower one.
#[test]
fn no_length_is_told_whatever_was_moved() {
    for (phase, other) in [
        (Phase::Move, MoveMovedBelowL),
        (Phase::WriteBack, WriteBackMovedOneToL),
    ] {
        for (mut image, moved) in of(&FROM_MEMORY, &[phase]).into_iter().zip(0..) {
            image.kept.length = 0;
            image.kept.moved = moved;
            let broken = Paper.broken_rules(&image);
            assert!(broken.contains(&LengthNotZeroFromMemory) && broken.contains(&other));
            for party in parties() {
                check_tells(party.as_ref(), &image, 16);
            }
        }
    }
}

/// What looks odd and yet keeps every rule.
#[test]
fn odd_images_load() {
    let odd: [(Image, Edit); 13] = [
        (image(STREAM, Phase::Rest), |i| i.pointer = 3),
        (image(STREAM, Phase::Rest), |i| i.count = 254),
        (image(STREAM, Phase::Rest), |i| i.status = 0x0F),
        (image(STREAM, Phase::Move), |i| i.control = 0),
        (image(STREAM, Phase::Move), |i| i.kept.destination = 0),
        (image(STREAM, Phase::Move), |i| i.kept.errors = 0x7F),
        (image(STREAM, Phase::WriteBack), |i| i.kept.eop_seen = true),
        (image(STREAM, Phase::Faulted), |i| {
            (i.fault, i.fault_address) = (10, 4096)
        }),
        (image(STREAM, Phase::Faulted), |i| i.fault_address = 0),
        (image(STREAM, Phase::Fetch), |i| i.run_number = u32::MAX),
        (image(STREAM, Phase::Fetch), |i| {
            hold(i, 4128, SlotKind::Descriptor);
            i.slot.bytes = [0; DESCRIPTOR_SIZE]
        }),
        (image(STREAM, Phase::Move), |i| {
            hold(i, 4096, SlotKind::Descriptor);
            i.control = 0
        }),
        (image(STREAM, Phase::WriteBack), |i| {
            hold(i, 4320, SlotKind::Descriptor);
            i.slot.bytes = [0xFF; DESCRIPTOR_SIZE]
        }),
    ];
    for (mut image, edit) in odd {
        edit(&mut image);
        for party in parties() {
            check_loads(party.as_ref(), &image);
        }
    }
}

/// A machine in Move with a bad address ahead, in which each byte is another.
fn moving() -> Machine {
    let window = Window {
        base: 0x1000_0000,
        length: 0x0000_0130,
    };
    Machine {
        status: 0x13,
        control: 0x0001_2360,
        pointer: 0x0405_0607,
        count: 0x21,
        pending: true,
        phase: Phase::Move,
        kept: Kept {
            address: 0x1000_0020,
            source: 0x2122_2324,
            destination: 0x3132_3334,
            length: 0x4142,
            control: 0xC5,
            errors: 0x51,
            moved: 0x0102,
            eop_seen: false,
        },
        slot: Slot {
            kind: SlotKind::Misaligned,
            address: 0x0405_0607,
            ..Slot::default()
        },
        run_number: 0x5152_5354,
        ..Machine::fresh(STREAM, window)
    }
}

/// The layout by hand: "edition 4, mode 2, phase 3 .., armed 1, pending 1,
/// fault 5, ..", bits most significant first.
#[test]
fn the_layout_is_the_papers() {
    let mut bytes = [0; IMAGE_SIZE];
    bytes[..49].copy_from_slice(&[
        0x29, 0x60, 0x13, 0x21, 0x00, 0x01, 0x23, 0x60, 0x04, 0x05, 0x06, 0x07, 0x10, 0x00, 0x00,
        0x00, 0x00, 0x00, 0x01, 0x30, 0x10, 0x00, 0x00, 0x20, 0x21, 0x22, 0x23, 0x24, 0x31, 0x32,
        0x33, 0x34, 0x41, 0x42, 0xC5, 0x51, 0x01, 0x02, 0x00, 0x00, 0x00, 0x00, 0x00, 0x00, 0x80,
        0x04, 0x05, 0x06, 0x07,
    ]);
    bytes[81..].copy_from_slice(&[0x51, 0x52, 0x53, 0x54]);
    assert_eq!(Paper.save(&moving()), bytes);
    assert_eq!(Paper.load(&bytes), Ok(moving()));
}

/// "slot kind 2 (empty, descriptor, fault 10, fault 11), zero 6, slot address 32,
/// slot bytes 256", and these as they stand in memory.
#[test]
fn the_slot_has_its_places() {
    for (kind, first) in SlotKind::ALL.into_iter().zip([0x00, 0x40, 0x80, 0xC0]) {
        let mut held = image(STREAM, Phase::Fetch);
        hold(&mut held, 0x1122_3344, kind);
        assert_eq!(held.pack()[44..49], [first, 0x11, 0x22, 0x33, 0x44]);
        held.slot_zero = 0x3F;
        assert_eq!(held.pack()[44], first | 0x3F);
        held.slot.bytes = std::array::from_fn(|place| place as u8);
        assert_eq!(held.pack()[49..52], [0, 1, 2]);
        assert_eq!(held.pack()[78..81], [29, 30, 31]);
        assert_eq!(Image::unpack(&held.pack()), held);
    }
}

/// The fields that are zero in the layout above.
#[test]
fn eop_seen_and_the_fault_have_their_places() {
    let mut done = image(STREAM, Phase::WriteBack);
    done.kept.eop_seen = true;
    assert_eq!(done.pack()[38..40], [0x80, 0x00]);
    let mut faulted = image(Mode::MemoryToMemory, Phase::Faulted);
    (faulted.fault, faulted.fault_address) = (14, 0xDEAD_BEEF);
    assert_eq!(faulted.pack()[..2], [0x23, 0x0E]);
    assert_eq!(faulted.pack()[40..44], [0xDE, 0xAD, 0xBE, 0xEF]);
    for image in [done, faulted] {
        assert_eq!(Image::unpack(&image.pack()), image);
    }
}
