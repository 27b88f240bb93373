//! A host of what stands beside a core: it carries the bytes of one such thing from
//! call to call, and starts anew after a while.

use super::{Hosts, Rng};
use crate::call::{Call, Lent};

const CALLS_WITH_ONE_THING: u64 = 30;

/// The bytes that a host carries from call to call, and its next choices.
pub struct HostOf<const SIZE: usize> {
    pub(super) rng: Rng,
    pub(super) bytes: [u8; SIZE],
    calls_left: u64,
}

/// The calls on a thing of so many bytes.
pub trait Beside<const SIZE: usize> {
    /// How often the bytes lent break a rule.
    const BROKEN_IN_100: u64;

    fn good_create(&mut self) -> Call;
    fn good_bytes(&mut self) -> [u8; SIZE];
    fn broken_bytes(&mut self) -> [u8; SIZE];
    fn any_call(&mut self) -> Call;

    /// The bytes that a call on such a thing is lent.
    fn lent_to(call: &Call) -> Option<&Lent>;
}

impl<const SIZE: usize> HostOf<SIZE> {
    pub fn new(seed: u64) -> Self {
        HostOf {
            rng: Rng::new(seed),
            bytes: [0; SIZE],
            calls_left: 0,
        }
    }
}

impl<const SIZE: usize> HostOf<SIZE>
where
    Self: Beside<SIZE>,
{
    /// The carried bytes, or now and then such as break a rule or are of another
    /// size.
    pub(super) fn lent(&mut self) -> Lent {
        let mut bytes = if self.rng.chance(Self::BROKEN_IN_100) {
            self.broken_bytes().to_vec()
        } else {
            self.bytes.to_vec()
        };
        bytes.resize(self.rng.size(SIZE), 0);
        Lent::from(bytes)
    }
}

impl<const SIZE: usize> Hosts for HostOf<SIZE>
where
    Self: Beside<SIZE>,
{
    /// The first on a new thing is always a good create.
    fn next_call(&mut self) -> Call {
        if self.calls_left == 0 {
            self.calls_left = 1 + self.rng.below(CALLS_WITH_ONE_THING);
            return self.good_create();
        }
        self.calls_left -= 1;
        if self.rng.chance(30) {
            self.bytes = self.good_bytes();
        }
        self.any_call()
    }

    fn carry(&mut self, after: &Call) {
        let lent = Self::lent_to(after);
        if let Some(bytes) = lent.and_then(|lent| (**lent).try_into().ok()) {
            self.bytes = bytes;
        }
    }
}
