//! Random chains that are checked: sound ones, and ones that are damaged at one
//! place or at several.
//!
//! The choices lean towards what is easily missed: the first descriptor, the one at
//! the end and what an owned one there would lead to; chains that fill the largest
//! window; a word too far to either side; a link back to any descriptor before; an
//! address with which two or three things are wrong at once; a base that is no
//! multiple of 4, and one next to the top of the bus.

use super::{Hosts, Rng, TWO_TO_32};
use crate::call::{Call, Lent};
use crate::model::{descriptor_control, CHECK_SIZE, DESCRIPTOR_SIZE};

const SIZE: u64 = DESCRIPTOR_SIZE as u64;
const LONGEST_WINDOW: u64 = 65_536;
const NEXT_AT: usize = 16;
const CONTROL_AT: usize = 31;

/// A window with a chain in it.
struct Laid {
    base: u64,
    memory: Vec<u8>,
    pointer: u32,
    /// The descriptors in the order of the chain; the last is not owned.
    addresses: Vec<u64>,
}

impl Laid {
    fn end(&self) -> u64 {
        self.base + self.memory.len() as u64
    }

    fn place(&self, position: usize) -> usize {
        (self.addresses[position] - self.base) as usize
    }

    fn own(&mut self, position: usize) {
        let control = self.place(position) + CONTROL_AT;
        self.memory[control] |= descriptor_control::OWNED_BY_HW;
    }

    /// Leads to an address at this position: by the pointer, or by the link of the
    /// descriptor before, which is owned then.
    fn lead(&mut self, position: usize, address: u64) {
        let address = address as u32;
        let Some(before) = position.checked_sub(1) else {
            self.pointer = address;
            return;
        };
        self.own(before);
        let next = self.place(before) + NEXT_AT;
        self.memory[next..next + 4].copy_from_slice(&address.to_le_bytes());
    }
}

pub struct ChainHost {
    pub(super) rng: Rng,
}

impl Hosts for ChainHost {
    fn next_call(&mut self) -> Call {
        let (window, base, pointer) = self.lent();
        Call::CheckChain {
            window,
            base,
            pointer,
            answer: Lent::from(self.rng.to_write_over(CHECK_SIZE)),
        }
    }

    /// Nothing is left but the answer.
    fn carry(&mut self, _after: &Call) {}
}

impl ChainHost {
    pub fn new(seed: u64) -> ChainHost {
        ChainHost {
            rng: Rng::new(seed),
        }
    }

    /// A window, a base and a pointer to lend.
    pub(super) fn lent(&mut self) -> (Lent, u64, u32) {
        let laid = self.laid();
        let base = self.lent_base(&laid);
        (Lent::from(laid.memory), base, laid.pointer)
    }

    /// A chain, mostly damaged; or a window in which there is none.
    fn laid(&mut self) -> Laid {
        if self.rng.chance(6) {
            return self.no_chain();
        }
        let mut laid = self.sound();
        for _ in 0..self.rng.pick(&[0, 1, 1, 1, 2]) {
            self.damage(&mut laid);
        }
        laid
    }

    /// Any bytes, fewer than a descriptor has or some more, now and then one more than
    /// a window has, and any pointer.
    fn no_chain(&mut self) -> Laid {
        let length = match self.rng.below(50) {
            0 => LONGEST_WINDOW + 1,
            _ => self.rng.pick(&[0, 1, 31, 32, 33, 64, 200]),
        };
        let base = self.base(length);
        let memory = self.rng.bytes(length as usize);
        let near = (base + self.rng.below(length + 64)).saturating_sub(32);
        Laid {
            base,
            memory,
            pointer: near as u32,
            addresses: Vec::new(),
        }
    }

    fn base(&mut self, length: u64) -> u64 {
        let highest = TWO_TO_32 - length.max(1);
        let near = self.rng.below(8);
        match self.rng.below(9) {
            0 => 0,
            1 => near,
            2..=3 => 4096,
            4 => 4096 + near,
            5 => highest,
            6 => highest - near,
            7 => highest & !3,
            _ => self.rng.below(highest + 1),
        }
    }

    /// How many descriptors, the one at the end among them. The largest number only
    /// has room where the base is a multiple of 4.
    fn count(&mut self) -> u64 {
        let any = 4 + self.rng.below(20);
        match self.rng.below(400) {
            0..=1 => 2_048,
            2 => 2_047,
            3..=5 => 100 + self.rng.below(1_500),
            _ => self.rng.pick(&[1, 1, 2, 2, 3, 3, 4, any]),
        }
    }

    /// A sound chain: side by side or with words between, in the order of memory,
    /// against it or in none.
    fn sound(&mut self) -> Laid {
        let count = self.count();
        let widest = if count > 100 {
            0
        } else {
            self.rng.pick(&[0, 0, 1, 8])
        };
        let [before, behind] = [(); 2].map(|()| self.margin(count));
        let mut places = Vec::new();
        let mut place = 4 * before;
        for _ in 0..count {
            places.push(place);
            place += SIZE + 4 * self.rng.below(widest + 1);
        }
        let length = places[places.len() - 1] + SIZE + behind;
        let base = self.base_for(length);
        let first = base.next_multiple_of(4);
        self.put_in_order(&mut places);
        let addresses = places.iter().map(|place| first + place).collect();
        self.linked(base, length + (first - base), addresses)
    }

    /// Words before the first descriptor, or bytes behind the last.
    fn margin(&mut self, count: u64) -> u64 {
        if count > 2_000 {
            return 0;
        }
        self.rng.pick(&[0, 0, 1, 3, 8, 9, 40])
    }

    /// A base with which so many bytes behind it have room, also where the first
    /// multiple of 4 is up to 3 bytes above it. The longest have room at one.
    fn base_for(&mut self, length: u64) -> u64 {
        let longest = length + 3 > LONGEST_WINDOW;
        let base = self.base(length + 3);
        if longest {
            base & !3
        } else {
            base
        }
    }

    fn put_in_order(&mut self, places: &mut [u64]) {
        match self.rng.below(4) {
            0 => places.reverse(),
            1 => {
                for last in (1..places.len()).rev() {
                    places.swap(last, self.rng.below(last as u64 + 1) as usize);
                }
            }
            _ => {}
        }
    }

    /// Lays descriptors at these addresses. What a check does not look at is any
    /// bytes, or zeros.
    fn linked(&mut self, base: u64, length: u64, addresses: Vec<u64>) -> Laid {
        let zeros = self.rng.chance(30);
        let length = length as usize;
        let memory = if zeros {
            vec![0; length]
        } else {
            self.rng.bytes(length)
        };
        let mut laid = Laid {
            base,
            memory,
            pointer: addresses[0] as u32,
            addresses,
        };
        for position in 1..laid.addresses.len() {
            laid.lead(position, laid.addresses[position]);
        }
        let end = laid.place(laid.addresses.len() - 1);
        laid.memory[end + CONTROL_AT] &= !descriptor_control::OWNED_BY_HW;
        if self.rng.chance(30) {
            let back = self.rng.pick(&laid.addresses) as u32;
            laid.memory[end + NEXT_AT..end + NEXT_AT + 4].copy_from_slice(&back.to_le_bytes());
        }
        laid
    }

    /// Leads elsewhere at one position: the first, the second, any, the end's, or the
    /// one behind the end, which is owned then.
    fn damage(&mut self, laid: &mut Laid) {
        let count = laid.addresses.len();
        let any = self.rng.below(count as u64 + 1) as usize;
        let position = self.rng.pick(&[0, 1, any, any, count - 1, count]);
        let address = self.elsewhere(laid, position);
        laid.lead(position, address);
    }

    /// An address that will hardly do at this position.
    fn elsewhere(&mut self, laid: &Laid, position: usize) -> u64 {
        let right = laid.addresses[position.min(laid.addresses.len() - 1)];
        let address = match self.rng.below(10) {
            0 => right,
            1..=3 => self.outside(laid),
            _ => self.beside(&laid.addresses[..position.max(1)]),
        };
        if self.rng.chance(25) {
            return address + 1 + self.rng.below(3);
        }
        address
    }

    /// A multiple of 4 at which 32 bytes are not in the window.
    fn outside(&mut self, laid: &Laid) -> u64 {
        let words = 4 * self.rng.below(9);
        let below = laid.base.saturating_sub(words) & !3;
        let above = (laid.end().next_multiple_of(4)).saturating_sub(words);
        let far = self.rng.below(TWO_TO_32) & !3;
        self.rng
            .pick(&[below, below, above, above, far, 0, TWO_TO_32 - 4])
    }

    /// The address of one of these descriptors, or one so near that both overlap. The
    /// lowest and the highest often stand at the ends of the window.
    fn beside(&mut self, earlier: &[u64]) -> u64 {
        let any = self.rng.pick(earlier);
        let lowest = earlier.iter().copied().min().unwrap_or(any);
        let highest = earlier.iter().copied().max().unwrap_or(any);
        let last = earlier[earlier.len() - 1];
        let chosen = self
            .rng
            .pick(&[any, any, last, earlier[0], lowest, highest]);
        let words = 4 * self.rng.below(9);
        match self.rng.below(3) {
            0 => chosen,
            1 => chosen.saturating_sub(words),
            _ => chosen + words,
        }
    }

    /// The base of the window, or now and then one with which it is none.
    fn lent_base(&mut self, laid: &Laid) -> u64 {
        if self.rng.chance(96) {
            return laid.base;
        }
        let beyond = TWO_TO_32 - laid.memory.len() as u64 + 1;
        let wide = self.rng.number();
        self.rng
            .pick(&[TWO_TO_32, beyond, beyond - 1, laid.base + TWO_TO_32, wide])
    }
}
