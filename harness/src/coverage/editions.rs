//! What random moves have reached, and what they must reach.

use super::refusals::FIELDS;
use super::{phases_of, Numbered, Reachable};
use crate::call::{Call, Function};
use crate::compare::Answer;
use crate::model::{
    Image, ImageRule, Images, Mode, Paper, Phase, SlotKind, IMAGE_SIZE, OLD_IMAGE_SIZE,
};
use std::collections::BTreeSet;

const EDITIONS: [u8; 2] = [1, 2];
/// The last field of edition 1.
const OLD_FIELDS: u8 = 22;

/// One thing that must have been reached.
#[derive(Clone, Copy, Debug, PartialEq, Eq, PartialOrd, Ord)]
pub enum Reached {
    Numbered(Numbered),
    /// 8 was given with this field, of an image of this edition.
    Told(u8, u8),
    /// A core of this mode and phase was moved from edition to edition.
    Moved(u8, u8, Mode, Phase),
    /// 15 was given for this slot, in this phase.
    Held(SlotKind, Phase),
    /// Such a slot stayed in edition 2.
    Stayed(SlotKind, Phase),
    /// A run number was dropped that was not 0, and the largest one.
    Dropped {
        most: bool,
    },
}

fn edition(size: usize) -> Option<u8> {
    match size {
        OLD_IMAGE_SIZE => Some(1),
        IMAGE_SIZE => Some(2),
        _ => None,
    }
}

/// The numbers of an image of a size that is an edition's.
fn seen(from: &[u8]) -> Option<(u8, Image)> {
    let edition = edition(from.len())?;
    let mut bytes = [0; IMAGE_SIZE];
    bytes[..from.len()].copy_from_slice(from);
    Some((edition, Image::unpack(&bytes)))
}

/// The fields of `from` that break a rule of its edition, the lowest first.
fn broken_fields(from: &[u8]) -> Vec<usize> {
    let Some((edition, image)) = seen(from) else {
        return Vec::new();
    };
    let others = Image {
        edition: 2,
        ..image
    };
    let rules = Paper.broken_rules(&others).into_iter();
    let mut fields: BTreeSet<u8> = rules.map(ImageRule::field).collect();
    if image.edition != edition {
        fields.insert(1);
    }
    fields.into_iter().map(usize::from).collect()
}

/// The numbers of all refusals that apply, in their order; 8 with its field.
fn numbers_applying(from: &[u8], to: &[u8]) -> Vec<u32> {
    let mut applying = Vec::new();
    if edition(from.len()).is_none() || edition(to.len()).is_none() {
        applying.push(7);
    }
    let broken = broken_fields(from);
    applying.extend(broken.first().map(|&field| 8 + 256 * field as u32));
    let holds = seen(from).is_some_and(|(_, image)| image.slot.kind != SlotKind::Empty);
    if holds && edition(to.len()) == Some(1) {
        applying.push(15);
    }
    applying
}

/// The two slices of a move.
fn slices(call: &Call) -> (&[u8], &[u8]) {
    match call {
        Call::MoveImage { from, to } => (from, to),
        _ => panic!("no move:\n{call}"),
    }
}

impl Reachable for Reached {
    fn required() -> Vec<Reached> {
        [numbers(), told(), moved(), slots()].concat()
    }

    fn applying(call: &Call) -> Vec<u32> {
        let (from, to) = slices(call);
        numbers_applying(from, to)
    }

    fn shown(call: &Call, answer: &Answer, reach: &mut dyn FnMut(Reached)) {
        let (from, to) = slices(call);
        let broken = broken_fields(from);
        Numbered::shown(call, answer, &broken, Reached::Numbered, reach);
        let (Some((old, image)), Some(new)) = (seen(from), edition(to.len())) else {
            return;
        };
        match answer.returned {
            0 => done(old, new, &image).into_iter().for_each(reach),
            15 => reach(Reached::Held(image.slot.kind, phase_of(&image))),
            number => reach(Reached::Told(old, (number >> 8) as u8)),
        }
    }
}

fn phase_of(image: &Image) -> Phase {
    Phase::of_number(image.phase)
}

fn done(old: u8, new: u8, image: &Image) -> Vec<Reached> {
    let phase = phase_of(image);
    let mut reached = vec![Reached::Moved(old, new, Mode::of_number(image.mode), phase)];
    if image.slot.kind != SlotKind::Empty {
        reached.push(Reached::Stayed(image.slot.kind, phase));
    }
    if new < old && image.run_number != 0 {
        let most = image.run_number == u32::MAX;
        reached.push(Reached::Dropped { most });
    }
    reached
}

/// Each field alone, with another behind it, and each refusal.
fn numbers() -> Vec<Reached> {
    let mut numbered = Numbered::of_call(Function::MoveImage, &[7, 8, 15], &[(7, 8), (8, 15)]);
    numbered.push(Numbered::FieldOfSome);
    numbered.extend(
        FIELDS
            .into_iter()
            .map(|field| Numbered::Field(usize::from(field))),
    );
    numbered.into_iter().map(Reached::Numbered).collect()
}

fn told() -> Vec<Reached> {
    let mut points = Vec::new();
    for edition in EDITIONS {
        let mut fields = FIELDS.to_vec();
        fields.retain(|&field| edition == 2 || field <= OLD_FIELDS);
        points.extend(
            fields
                .into_iter()
                .map(|field| Reached::Told(edition, field)),
        );
    }
    points
}

fn moved() -> Vec<Reached> {
    let mut points = Vec::new();
    for mode in Mode::ALL {
        for phase in phases_of(mode) {
            for old in EDITIONS {
                points.extend(EDITIONS.map(|new| Reached::Moved(old, new, mode, phase)));
            }
        }
    }
    points
}

fn slots() -> Vec<Reached> {
    let mut points = [true, false].map(|most| Reached::Dropped { most }).to_vec();
    for phase in [Phase::Fetch, Phase::Move, Phase::WriteBack] {
        for kind in SlotKind::ALL {
            if kind != SlotKind::Empty {
                points.extend([Reached::Held(kind, phase), Reached::Stayed(kind, phase)]);
            }
        }
    }
    points
}
