//! Which refusals apply to a call, found without the model's calls: each by the
//! words of the table of refusals.

use super::{LedgerFlaw, Point};
use crate::call::{Call, Function, Lent};
use crate::model::{
    Image, ImageRule, Images, Paper, Refusal, Window, Windows, DESCRIPTOR_ANSWER_SIZE,
    DESCRIPTOR_SIZE, IMAGE_SIZE, REPORT_SIZE, VALUE_SIZE,
};
use std::collections::BTreeSet;

/// The refusals that each call can give, first that applies, and those pairs of
/// them that can apply together.
type CallRefusals = (Function, &'static [Refusal], &'static [(Refusal, Refusal)]);
use Refusal::*;
#[rustfmt::skip]
const REFUSALS: [CallRefusals; 7] = [
    (Function::Create, &[BadSize, BadMode, BadWindow],
     &[(BadSize, BadMode), (BadSize, BadWindow), (BadMode, BadWindow)]),
    (Function::ReadRegister, &[BadSize, BadImage, NoRegister],
     &[(BadSize, BadImage), (BadSize, NoRegister), (BadImage, NoRegister)]),
    (Function::WriteRegister, &[BadSize, BadImage, NoRegister],
     &[(BadSize, NoRegister), (BadImage, NoRegister)]),
    (Function::Line, &[BadSize, BadImage],
     &[(BadSize, BadImage)]),
    (Function::Run, &[BadSize, BadImage, OddStream, BadLedger, OtherWindow],
     &[(BadSize, BadImage), (BadSize, OddStream), (BadSize, BadLedger), (BadSize, OtherWindow),
       (BadImage, OddStream), (BadImage, BadLedger), (OddStream, BadLedger),
       (OddStream, OtherWindow), (BadLedger, OtherWindow)]),
    (Function::BuildDescriptor, &[BadWindow, Misaligned, Outside],
     &[(BadWindow, Misaligned), (BadWindow, Outside), (Misaligned, Outside)]),
    (Function::ReadDescriptor, &[BadSize, BadWindow, Misaligned, Outside],
     &[(BadSize, BadWindow), (BadSize, Misaligned), (BadSize, Outside), (BadWindow, Misaligned),
       (BadWindow, Outside), (Misaligned, Outside)]),
];

/// The fields of an image against which some rule counts. No rule counts against
/// armed, pending, pointer, base and run number, which are 4, 5, 10, 11 and 27.
pub(super) const FIELDS: [u8; 22] = [
    1, 2, 3, 6, 7, 8, 9, 12, 13, 14, 15, 16, 17, 18, 19, 20, 21, 22, 23, 24, 25, 26,
];

/// "8 carries it, in C as 8 + 256 × field."
fn bad_image_number(field: &u8) -> u32 {
    8 + 256 * u32::from(*field)
}

/// The numbers under which a refusal comes back.
fn numbers(refusal: Refusal) -> Vec<u32> {
    match refusal {
        BadImage => FIELDS.iter().map(bad_image_number).collect(),
        _ => vec![refusal as u32],
    }
}

/// Of every two fields the lower is told.
fn pairs_of_fields() -> Vec<Point> {
    let mut points = Vec::new();
    for low in FIELDS {
        let higher = FIELDS.into_iter().filter(|&field| field > low);
        points.extend(higher.map(|high| Point::ToldLower(low, high)));
    }
    points
}

pub(super) fn required() -> Vec<Point> {
    let mut points = pairs_of_fields();
    for (function, refusals, pairs) in REFUSALS {
        points.push(Point::Returned(function, 0));
        let numbers = refusals.iter().flat_map(|&refusal| numbers(refusal));
        points.extend(numbers.map(|number| Point::Returned(function, number)));
        let pairs = pairs.iter();
        points.extend(pairs.map(|&(first, second)| Point::Outranked(function, first, second)));
    }
    points
}

/// Every refusal that applies to the call, in the paper's order.
pub fn applying(call: &Call) -> Vec<Refusal> {
    let mut applying = Refusal::ORDER.to_vec();
    applying.retain(|&refusal| match refusal {
        BadSize => has_bad_size(call),
        BadImage => has_bad_image(call),
        // Of a move alone, which its own coverage looks at.
        SlotHeld => false,
        OddStream => has_odd_stream(call),
        BadLedger => LedgerFlaw::of(call).is_some(),
        BadMode => matches!(call, Call::Create { mode, .. } if *mode > 2),
        BadWindow => given_window(call).is_some_and(|window| !Paper.is_window(window)),
        OtherWindow => has_other_window(call),
        NoRegister => given_offset(call).is_some_and(|offset| ![0, 4, 8].contains(&offset)),
        Misaligned => given_address(call).is_some_and(|address| address % 4 != 0),
        Outside => is_outside(call),
    });
    applying
}

/// Their numbers; 8 with its field.
pub fn numbers_applying(call: &Call) -> Vec<u32> {
    let number = |refusal: Refusal| match refusal {
        BadImage => broken_fields(call).first().map_or(0, bad_image_number),
        other => other as u32,
    };
    applying(call).into_iter().map(number).collect()
}

fn has_bad_size(call: &Call) -> bool {
    let image_is_bad = call.image().is_some_and(|image| image.len() != IMAGE_SIZE);
    image_is_bad
        || match call {
            Call::ReadRegister { value, .. } | Call::Line { value, .. } => {
                value.len() != VALUE_SIZE
            }
            Call::Run { report, .. } => report.len() != REPORT_SIZE,
            Call::ReadDescriptor { answer, .. } => answer.len() != DESCRIPTOR_ANSWER_SIZE,
            _ => false,
        }
}

/// The image that the call reads: create only writes one.
fn image_read(call: &Call) -> Option<Image> {
    let bytes: &Lent = match call {
        Call::Create { .. } => return None,
        _ => call.image()?,
    };
    let bytes: &[u8; IMAGE_SIZE] = (&**bytes).try_into().ok()?;
    Some(Image::unpack(bytes))
}

/// The rules that the image read by the call breaks.
pub(super) fn broken_rules(call: &Call) -> Vec<ImageRule> {
    let broken = |image| Paper.broken_rules(&image);
    image_read(call).map(broken).unwrap_or_default()
}

/// The fields that they count against, the lowest first.
pub(super) fn broken_fields(call: &Call) -> BTreeSet<u8> {
    let rules = broken_rules(call).into_iter();
    rules.map(ImageRule::field).collect()
}

fn has_bad_image(call: &Call) -> bool {
    !broken_rules(call).is_empty()
}

fn has_odd_stream(call: &Call) -> bool {
    matches!(call, Call::Run { beats, out, .. } if beats.len() % 2 == 1 || out.len() % 2 == 1)
}

/// A broken image has no machine whose window could be another.
fn has_other_window(call: &Call) -> bool {
    let (Call::Run { window, .. }, Some(image)) = (call, image_read(call)) else {
        return false;
    };
    !has_bad_image(call) && window.len() as u64 != u64::from(image.window_length)
}

/// The window whose limits the call looks at.
fn given_window(call: &Call) -> Option<Window> {
    match call {
        &Call::Create { base, length, .. } => Some(Window { base, length }),
        Call::BuildDescriptor { window, base, .. } | Call::ReadDescriptor { window, base, .. } => {
            Some(Window {
                base: *base,
                length: window.len() as u64,
            })
        }
        _ => None,
    }
}

fn given_offset(call: &Call) -> Option<u32> {
    match call {
        Call::ReadRegister { offset, .. } | Call::WriteRegister { offset, .. } => Some(*offset),
        _ => None,
    }
}

fn given_address(call: &Call) -> Option<u32> {
    match call {
        Call::BuildDescriptor { address, .. } | Call::ReadDescriptor { address, .. } => {
            Some(*address)
        }
        _ => None,
    }
}

fn is_outside(call: &Call) -> bool {
    let (Some(window), Some(address)) = (given_window(call), given_address(call)) else {
        return false;
    };
    let first = u128::from(address);
    let base = u128::from(window.base);
    first < base || first + DESCRIPTOR_SIZE as u128 > base + u128::from(window.length)
}
