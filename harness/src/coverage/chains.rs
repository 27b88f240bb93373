//! What random checks of a chain have reached, and what they must reach. What
//! applies to a call, and what it must tell, is found here without the model, with
//! a mark for each byte of the window.

use super::counts::number;
use super::{Numbered, Reachable, BOTH};
use crate::call::{Call, Function};
use crate::compare::Answer;
use crate::model::CHECK_SIZE;

const SIZE: u64 = 32;
const TWO_TO_32: u64 = 1 << 32;
const LONG_LOOP: usize = 1_000;

/// The three causes, in the order in which they are named.
#[derive(Clone, Copy, Debug, Default, PartialEq, Eq, PartialOrd, Ord)]
pub struct Wrong {
    pub misaligned: bool,
    pub outside: bool,
    pub overlaps: bool,
}

impl Wrong {
    fn all() -> Vec<Wrong> {
        let bit = |bits: u64, place: u64| bits >> place & 1 == 1;
        let of = |bits| Wrong {
            misaligned: bit(bits, 0),
            outside: bit(bits, 1),
            overlaps: bit(bits, 2),
        };
        (1..8).map(of).collect()
    }

    /// The verdict that names the first of them, or 0.
    pub(super) fn verdict(self) -> u64 {
        let causes = [self.misaligned, self.outside, self.overlaps];
        let first = causes.iter().position(|&cause| cause);
        first.map_or(0, |place| place as u64 + 1)
    }
}

/// Which descriptor of the chain it is.
#[derive(Clone, Copy, Debug, PartialEq, Eq, PartialOrd, Ord)]
pub enum Position {
    First,
    Second,
    Between,
    At2047,
    At2048,
}

impl Position {
    pub(super) const ALL: [Position; 5] = [
        Position::First,
        Position::Second,
        Position::Between,
        Position::At2047,
        Position::At2048,
    ];

    pub(super) fn of(position: usize) -> Position {
        match position {
            0 => Position::First,
            1 => Position::Second,
            2_047 => Position::At2047,
            2_048 => Position::At2048,
            _ => Position::Between,
        }
    }
}

/// How the overlapping descriptor stands to one before it.
#[derive(Clone, Copy, Debug, PartialEq, Eq, PartialOrd, Ord)]
pub enum Overlap {
    /// So many words below it, or above.
    Below(u64),
    Above(u64),
    /// At its address: a loop of one, of two, of more and of very many.
    Itself,
    LoopOfTwo,
    Loop,
    LongLoop,
    /// With the first, the one just before, and one between these.
    First,
    Before,
    Between,
    /// With two at once, and neither is at its address.
    Two,
}

/// Where the 32 bytes are that are not in the window.
#[derive(Clone, Copy, Debug, PartialEq, Eq, PartialOrd, Ord)]
pub enum Outside {
    /// Some of them before it, or behind it.
    PartBelow,
    PartAbove,
    /// All of them, next to it.
    NextBelow,
    NextAbove,
    Far,
    /// Some are not on the bus.
    PastTheBus,
    /// The window is shorter than a descriptor, or empty.
    ShortWindow,
    NoWindow,
}

/// What a sound chain was.
#[derive(Clone, Copy, Debug, PartialEq, Eq, PartialOrd, Ord)]
pub enum Sound {
    /// It has so many owned descriptors, and more than two.
    Owned(usize),
    Many,
    /// A descriptor has the window's first byte, or the last one.
    FirstByte,
    LastByte,
    /// Two stand side by side, or with less than a descriptor between.
    SideBySide,
    Near,
    /// A descriptor stands below the one before it.
    Back,
    /// The end would lead back into the chain.
    EndLinks,
    /// The other bits of the end's control byte are all set; none of an owned one's.
    EndBits,
    OwnedAlone,
    /// An owned one has no bytes to transfer.
    NoLength,
}

/// Where the window stands.
#[derive(Clone, Copy, Debug, PartialEq, Eq, PartialOrd, Ord)]
pub enum Base {
    Zero,
    /// So far from a multiple of 4.
    Odd(u64),
    ToTheTop,
}

impl Base {
    pub(super) const ALL: [Base; 5] = [
        Base::Zero,
        Base::Odd(1),
        Base::Odd(2),
        Base::Odd(3),
        Base::ToTheTop,
    ];
}

/// The limit of a window that is broken.
#[derive(Clone, Copy, Debug, PartialEq, Eq, PartialOrd, Ord)]
pub enum Limit {
    Length,
    Base,
    Sum,
}

impl Limit {
    pub(super) const ALL: [Limit; 3] = [Limit::Length, Limit::Base, Limit::Sum];
}

/// One thing that must have been reached.
#[derive(Clone, Copy, Debug, PartialEq, Eq, PartialOrd, Ord)]
pub enum Reached {
    Numbered(Numbered),
    /// 3 was given for this limit alone.
    NoWindow(Limit),
    Sound(Sound),
    /// A chain was walked, sound or not, in such a window.
    Base(Base, bool),
    /// This verdict was told at this position.
    Told(u64, Position),
    /// .. of what is owned there, or not; where that can be read.
    Owned(u64, bool),
    /// These were wrong there at once.
    Wrong(Wrong),
    Overlap(Overlap),
    Outside(Outside),
}

/// A check or a mend, and what its bytes are.
pub(super) struct Asked<'call> {
    pub memory: &'call [u8],
    pub base: u64,
    pointer: u64,
}

/// What a walk along the chain has met: the addresses, up to the end or the defect,
/// and what is wrong with the last.
pub(super) struct Walk {
    pub met: Vec<u64>,
    pub wrong: Wrong,
}

impl<'call> Asked<'call> {
    pub fn of(call: &'call Call) -> Asked<'call> {
        let (Call::CheckChain {
            window,
            base,
            pointer,
            ..
        }
        | Call::MendChain {
            window,
            base,
            pointer,
            ..
        }) = call
        else {
            panic!("no call on a chain:\n{call}");
        };
        Asked {
            memory: window,
            base: *base,
            pointer: u64::from(*pointer),
        }
    }

    /// The limits that are broken.
    pub fn limits(&self) -> Vec<Limit> {
        let length = self.memory.len() as u64;
        let sum = u128::from(self.base) + u128::from(length);
        let mut broken = Vec::new();
        broken.extend((length > 65_536).then_some(Limit::Length));
        broken.extend((self.base >= TWO_TO_32).then_some(Limit::Base));
        broken.extend((sum > u128::from(TWO_TO_32)).then_some(Limit::Sum));
        broken
    }

    /// The limit that is broken, where it is the only one.
    pub fn limit_alone(&self) -> Option<Limit> {
        match self.limits()[..] {
            [alone] => Some(alone),
            _ => None,
        }
    }

    fn end(&self) -> u64 {
        self.base + self.memory.len() as u64
    }

    /// The byte at a bus address, where the window has it.
    fn byte(&self, address: u64) -> Option<u8> {
        let place = address.checked_sub(self.base)?;
        self.memory.get(place as usize).copied()
    }

    fn is_owned(&self, address: u64) -> Option<bool> {
        self.byte(address + 31).map(|control| control >= 128)
    }

    /// Where the descriptor there leads to, least significant byte first.
    fn next(&self, address: u64) -> u64 {
        let bytes = (16..20).rev().filter_map(|at| self.byte(address + at));
        bytes.fold(0, |number, byte| number << 8 | u64::from(byte))
    }

    /// What is wrong at an address, where the bytes of those before are marked.
    fn wrong(&self, marks: &[bool], address: u64) -> Wrong {
        let inside = |at: u64| (self.base..self.end()).contains(&at);
        let marked = |at: u64| inside(at) && marks[(at - self.base) as usize];
        let mut bytes = address..address + SIZE;
        Wrong {
            misaligned: !address.is_multiple_of(4),
            outside: !bytes.clone().all(inside),
            overlaps: bytes.any(marked),
        }
    }

    pub fn walk(&self) -> Walk {
        let mut marks = vec![false; self.memory.len()];
        let mut met = vec![self.pointer];
        loop {
            let address = met[met.len() - 1];
            let wrong = self.wrong(&marks, address);
            if wrong.verdict() != 0 || self.is_owned(address) == Some(false) {
                return Walk { met, wrong };
            }
            let place = (address - self.base) as usize;
            marks[place..place + SIZE as usize].fill(true);
            met.push(self.next(address));
        }
    }
}

pub(super) fn bases(asked: &Asked) -> Vec<Base> {
    let odd = asked.base % 4;
    let mut shown = Vec::new();
    let mut note = |met: bool, case: Base| shown.extend(met.then_some(case));
    note(asked.base == 0, Base::Zero);
    note(odd != 0, Base::Odd(odd));
    note(asked.end() == TWO_TO_32, Base::ToTheTop);
    shown
}

fn of_sound(asked: &Asked, met: &[u64]) -> Vec<Reached> {
    let owned = &met[..met.len() - 1];
    let end = met[owned.len()];
    let apart: Vec<u64> = met.windows(2).map(|two| two[0].abs_diff(two[1])).collect();
    let control = |address: u64| asked.byte(address + 31).unwrap_or(0);
    let length = |address: &u64| [24, 25].map(|at| asked.byte(address + at));
    let mut shown = Vec::new();
    let mut note = |met: bool, case: Sound| shown.extend(met.then_some(Reached::Sound(case)));
    match owned.len() {
        count @ (0..=2 | 2_046 | 2_047) => note(true, Sound::Owned(count)),
        _ => note(true, Sound::Many),
    }
    note(met.contains(&asked.base), Sound::FirstByte);
    note(
        asked.end() >= SIZE && met.contains(&(asked.end() - SIZE)),
        Sound::LastByte,
    );
    note(apart.contains(&SIZE), Sound::SideBySide);
    note(
        apart
            .iter()
            .any(|&bytes| (SIZE + 1..2 * SIZE).contains(&bytes)),
        Sound::Near,
    );
    note(
        met.is_sorted_by(|low, high| low > high) && met.len() > 2,
        Sound::Back,
    );
    note(met.contains(&asked.next(end)), Sound::EndLinks);
    note(control(end) == 0x7F, Sound::EndBits);
    note(
        owned.iter().any(|&address| control(address) == 0x80),
        Sound::OwnedAlone,
    );
    note(
        owned.iter().any(|address| length(address) == [Some(0); 2]),
        Sound::NoLength,
    );
    shown
}

pub(super) fn of_overlap(met: &[u64]) -> Vec<Overlap> {
    let (address, earlier) = (met[met.len() - 1], &met[..met.len() - 1]);
    let last = earlier.len() - 1;
    let mut shown = Vec::new();
    let mut others = 0;
    for (place, &other) in earlier.iter().enumerate() {
        if address.abs_diff(other) >= SIZE {
            continue;
        }
        others += usize::from(address != other);
        shown.push(match (address < other, address.abs_diff(other) / 4) {
            (_, 0) => loop_of(earlier.len() - place),
            (true, words) => Overlap::Below(words),
            (false, words) => Overlap::Above(words),
        });
        shown.extend((place == 0 && last > 0).then_some(Overlap::First));
        shown.extend((place == last && last > 0).then_some(Overlap::Before));
        shown.extend((0 < place && place < last).then_some(Overlap::Between));
    }
    shown.extend((others == 2).then_some(Overlap::Two));
    shown
}

fn loop_of(descriptors: usize) -> Overlap {
    match descriptors {
        1 => Overlap::Itself,
        2 => Overlap::LoopOfTwo,
        LONG_LOOP.. => Overlap::LongLoop,
        _ => Overlap::Loop,
    }
}

fn of_outside(asked: &Asked, address: u64) -> Vec<Outside> {
    let (base, end) = (asked.base, asked.end());
    let length = end - base;
    let mut shown = Vec::new();
    let mut note = |met: bool, case: Outside| shown.extend(met.then_some(case));
    note(length == 0, Outside::NoWindow);
    note((1..SIZE).contains(&length), Outside::ShortWindow);
    note(address + SIZE > TWO_TO_32, Outside::PastTheBus);
    if length >= SIZE {
        note(address < base && address + SIZE > base, Outside::PartBelow);
        note(address < end && address + SIZE > end, Outside::PartAbove);
        note(address + SIZE == base, Outside::NextBelow);
        note(address == end, Outside::NextAbove);
        note(
            address + 1_000 < base || address > end + 1_000,
            Outside::Far,
        );
    }
    shown
}

/// What a defect shows. The words of an overlap are told of multiples of 4 alone.
fn of_defect(asked: &Asked, walk: &Walk) -> Vec<Reached> {
    let (verdict, position) = (walk.wrong.verdict(), walk.met.len() - 1);
    let address = walk.met[position];
    let mut shown = vec![
        Reached::Told(verdict, Position::of(position)),
        Reached::Wrong(walk.wrong),
    ];
    let owned = asked.is_owned(address);
    shown.extend(owned.map(|owned| Reached::Owned(verdict, owned)));
    match verdict {
        2 => shown.extend(of_outside(asked, address).into_iter().map(Reached::Outside)),
        3 => shown.extend(of_overlap(&walk.met).into_iter().map(Reached::Overlap)),
        _ => {}
    }
    shown
}

/// What a check that was done shows; its answer must be what the bytes say.
fn done(call: &Call, after: &Call) -> Vec<Reached> {
    let asked = Asked::of(call);
    let walk = asked.walk();
    let verdict = walk.wrong.verdict();
    let position = walk.met.len() - 1;
    let Call::CheckChain { answer, .. } = after else {
        panic!("another call came back:\n{after}");
    };
    let told = [(0, 2), (2, 4), (6, 4)].map(|(at, size)| number(answer, at, size));
    let due = [verdict, position as u64, walk.met[position]];
    assert_eq!(told, due, "told of\n{call}");
    let mut shown: Vec<Reached> = bases(&asked)
        .into_iter()
        .map(|base| Reached::Base(base, verdict == 0))
        .collect();
    shown.extend(match verdict {
        0 => of_sound(&asked, &walk.met),
        _ => of_defect(&asked, &walk),
    });
    shown
}

fn numbers() -> Vec<Reached> {
    let numbers = Numbered::of_call(Function::CheckChain, &[7, 3], &[(7, 3)]);
    let limits = Limit::ALL.map(Reached::NoWindow);
    let numbers = numbers.into_iter().map(Reached::Numbered);
    numbers.chain(limits).collect()
}

fn sound() -> Vec<Reached> {
    let mut cases = [0, 1, 2, 2_046, 2_047].map(Sound::Owned).to_vec();
    cases.extend([
        Sound::Many,
        Sound::FirstByte,
        Sound::LastByte,
        Sound::SideBySide,
        Sound::Near,
        Sound::Back,
        Sound::EndLinks,
        Sound::EndBits,
        Sound::OwnedAlone,
        Sound::NoLength,
    ]);
    cases.into_iter().map(Reached::Sound).collect()
}

pub(super) fn overlaps() -> Vec<Overlap> {
    let mut cases = vec![
        Overlap::Itself,
        Overlap::LoopOfTwo,
        Overlap::Loop,
        Overlap::LongLoop,
        Overlap::First,
        Overlap::Before,
        Overlap::Between,
        Overlap::Two,
    ];
    cases.extend((1..8).flat_map(|words| [Overlap::Below(words), Overlap::Above(words)]));
    cases
}

fn outside() -> Vec<Reached> {
    use Outside::*;
    let cases = [
        PartBelow,
        PartAbove,
        NextBelow,
        NextAbove,
        Far,
        PastTheBus,
        ShortWindow,
        NoWindow,
    ];
    cases.map(Reached::Outside).to_vec()
}

/// Every cause at every position, of what is owned there and what is not. The first
/// descriptor has none before it.
fn told() -> Vec<Reached> {
    let mut points: Vec<Reached> = Wrong::all().into_iter().map(Reached::Wrong).collect();
    for verdict in 1..4 {
        points.extend(Position::ALL.map(|position| Reached::Told(verdict, position)));
        points.extend(BOTH.map(|owned| Reached::Owned(verdict, owned)));
    }
    points.retain(|point| *point != Reached::Told(3, Position::First));
    for sound in BOTH {
        points.extend(Base::ALL.map(|base| Reached::Base(base, sound)));
    }
    points
}

impl Reachable for Reached {
    fn required() -> Vec<Reached> {
        let mut points = [numbers(), sound(), outside(), told()].concat();
        points.extend(overlaps().into_iter().map(Reached::Overlap));
        points
    }

    fn applying(call: &Call) -> Vec<u32> {
        let Call::CheckChain { answer, .. } = call else {
            return Vec::new();
        };
        let mut applying = Vec::new();
        applying.extend((answer.len() != CHECK_SIZE).then_some(7));
        applying.extend((!Asked::of(call).limits().is_empty()).then_some(3));
        applying
    }

    fn shown(call: &Call, answer: &Answer, reach: &mut dyn FnMut(Reached)) {
        Numbered::shown(call, answer, &[], Reached::Numbered, reach);
        let shown = match answer.returned {
            0 => done(call, &answer.after),
            3 => Vec::from_iter(Asked::of(call).limit_alone().map(Reached::NoWindow)),
            _ => Vec::new(),
        };
        shown.into_iter().for_each(reach);
    }
}
