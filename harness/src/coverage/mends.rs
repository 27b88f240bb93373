//! What random mends of a chain have reached, and what they must reach. What applies
//! to a call, and what it must leave, is found here by the walk of the check's
//! coverage, without the model.

use super::chains::{bases, of_overlap, overlaps, Asked, Base, Limit, Overlap, Position, Walk};
use super::counts::number;
use super::{Numbered, Reachable, BOTH};
use crate::call::{Call, Function};
use crate::compare::Answer;
use crate::model::MEND_SIZE;

const CONTROL_AT: u64 = 31;
const OWNED: u8 = 0x80;

/// The bits beside OWNED in the byte that was changed.
#[derive(Clone, Copy, Debug, PartialEq, Eq, PartialOrd, Ord)]
pub enum Bits {
    None,
    Some,
    All,
}

/// One thing that must have been reached.
#[derive(Clone, Copy, Debug, PartialEq, Eq, PartialOrd, Ord)]
pub enum Reached {
    Numbered(Numbered),
    /// 3 was given for this limit alone.
    NoWindow(Limit),
    /// A sound chain of so many owned descriptors was left, and of more.
    Left(usize),
    LeftMany,
    /// A chain with this verdict at this position was mended.
    Mended(u64, Position),
    /// 23 was given of this verdict.
    NothingToKeep(u64),
    Bits(Bits),
    /// What is overlapped was mended, in such a way.
    Overlap(Overlap),
    /// A chain was mended, or left, in such a window.
    Base(Base, bool),
}

/// The byte that must be changed: its place, and the address of its descriptor.
fn changed(asked: &Asked, walk: &Walk) -> Option<(usize, u64)> {
    let [.., before, _] = walk.met[..] else {
        return None;
    };
    let place = (before + CONTROL_AT - asked.base) as usize;
    (walk.wrong.verdict() != 0).then_some((place, before))
}

/// What a mend that was done must leave, and tell: the address and both bytes.
fn check_left(call: &Call, after: &Call, changed: Option<(usize, u64)>) {
    let (
        Call::MendChain { window, .. },
        Call::MendChain {
            window: left,
            answer,
            ..
        },
    ) = (call, after)
    else {
        panic!("another call came back:\n{after}");
    };
    let mut due = window.to_vec();
    let mut told = [0; 4];
    if let Some((place, address)) = changed {
        due[place] &= !OWNED;
        told = [1, address, u64::from(window[place]), u64::from(due[place])];
    }
    assert!(**left == due, "left of\n{call}");
    let found = [(0, 2), (2, 4), (6, 1), (7, 1)].map(|(at, size)| number(answer, at, size));
    assert_eq!(found, told, "told of\n{call}");
}

fn done(call: &Call, after: &Call) -> Vec<Reached> {
    let asked = Asked::of(call);
    let walk = asked.walk();
    let (verdict, position) = (walk.wrong.verdict(), walk.met.len() - 1);
    let changed = changed(&asked, &walk);
    check_left(call, after, changed);
    let mut shown: Vec<Reached> = bases(&asked)
        .into_iter()
        .map(|base| Reached::Base(base, verdict != 0))
        .collect();
    let Some((place, _)) = changed else {
        shown.push(match position {
            0..=2 | 2_047 => Reached::Left(position),
            _ => Reached::LeftMany,
        });
        return shown;
    };
    shown.push(Reached::Mended(verdict, Position::of(position)));
    shown.push(Reached::Bits(match asked.memory[place] & !OWNED {
        0 => Bits::None,
        0x7F => Bits::All,
        _ => Bits::Some,
    }));
    if verdict == 3 {
        shown.extend(of_overlap(&walk.met).into_iter().map(Reached::Overlap));
    }
    shown
}

impl Reachable for Reached {
    fn required() -> Vec<Reached> {
        let pairs = [(7, 3), (7, 23)];
        let numbers = Numbered::of_call(Function::MendChain, &[7, 3, 23], &pairs);
        let mut points: Vec<Reached> = numbers.into_iter().map(Reached::Numbered).collect();
        points.extend(Limit::ALL.map(Reached::NoWindow));
        points.extend([0, 1, 2, 2_047].map(Reached::Left));
        points.extend([1, 2].map(Reached::NothingToKeep));
        points.extend([Bits::None, Bits::Some, Bits::All].map(Reached::Bits));
        points.push(Reached::LeftMany);
        for verdict in 1..4 {
            let behind = &Position::ALL[1..];
            points.extend(behind.iter().map(|&at| Reached::Mended(verdict, at)));
        }
        for mended in BOTH {
            points.extend(Base::ALL.map(|base| Reached::Base(base, mended)));
        }
        points.extend(overlaps().into_iter().map(Reached::Overlap));
        points
    }

    fn applying(call: &Call) -> Vec<u32> {
        let Call::MendChain { answer, .. } = call else {
            return Vec::new();
        };
        let asked = Asked::of(call);
        let mut applying = Vec::new();
        applying.extend((answer.len() != MEND_SIZE).then_some(7));
        if !asked.limits().is_empty() {
            applying.push(3);
            return applying;
        }
        let walk = asked.walk();
        let nothing = walk.wrong.verdict() != 0 && walk.met.len() == 1;
        applying.extend(nothing.then_some(23));
        applying
    }

    fn shown(call: &Call, answer: &Answer, reach: &mut dyn FnMut(Reached)) {
        Numbered::shown(call, answer, &[], Reached::Numbered, reach);
        let shown = match answer.returned {
            0 => done(call, &answer.after),
            3 => Vec::from_iter(Asked::of(call).limit_alone().map(Reached::NoWindow)),
            23 => vec![Reached::NothingToKeep(
                Asked::of(call).walk().wrong.verdict(),
            )],
            _ => Vec::new(),
        };
        shown.into_iter().for_each(reach);
    }
}
