//! Chains that are checked: random ones put to the model and to the library, and
//! chains worked out by hand from the eighth request.

use harness::bulk::Bulk;
use harness::call::{libraries_or_model, parties, Call, Lent, Party};
use harness::compare::{check_done, check_refused};
use harness::coverage::chains::Reached;
use harness::coverage::compare_and_cover;
use harness::firmware::Firmware;
use harness::gen::{ChainHost, Rng};
use harness::model::{control, offset, Descriptor, CHECK_SIZE};

const CALLS: u64 = 200_000;
const SEED: u64 = 8;

#[test]
fn random_checks_agree_and_reach_everything() {
    for (party, seed) in libraries_or_model().iter().zip(SEED..) {
        let mut host = ChainHost::new(seed);
        compare_and_cover::<Reached>(&mut host, party.as_ref(), seed, CALLS);
    }
}

/// The checks that are put to the library first.
#[test]
fn the_bulk_model_agrees_on_the_same_random_checks() {
    compare_and_cover::<Reached>(&mut ChainHost::new(SEED), &Bulk, SEED, CALLS);
}

/// A window, and the address and link of each owned descriptor in it. All else is
/// zero, so that a descriptor anywhere else is not owned.
struct Window {
    base: u64,
    memory: Vec<u8>,
}

impl Window {
    fn new(base: u64, length: usize, owned: &[(u64, u32)]) -> Window {
        let mut memory = vec![0; length];
        for &(address, next) in owned {
            let place = (address - base) as usize;
            memory[place + 16..place + 20].copy_from_slice(&next.to_le_bytes());
            memory[place + 31] = 0x80;
        }
        Window { base, memory }
    }

    fn check(&self, pointer: u32) -> Call {
        Call::CheckChain {
            window: Lent::from(self.memory.as_slice()),
            base: self.base,
            pointer,
            answer: Lent::from(vec![0xEE; CHECK_SIZE]),
        }
    }

    /// Verdict, k or position, address.
    fn told(&self, party: &dyn Party, pointer: u32) -> (u16, u32, u32) {
        let Call::CheckChain { answer, .. } = check_done(party, &self.check(pointer)) else {
            unreachable!("a call stays what it is");
        };
        let word = |at: usize| {
            u32::from_be_bytes([answer[at], answer[at + 1], answer[at + 2], answer[at + 3]])
        };
        (u16::from_be_bytes([answer[0], answer[1]]), word(2), word(6))
    }
}

/// Two owned descriptors at 0x1000 and 0x1040, and the end at 0x1020; the window is
/// 0x1000 to 0x1060.
const TWO: [(u64, u32); 2] = [(0x1000, 0x1040), (0x1040, 0x1020)];

#[test]
fn sound_chains_by_hand() {
    for party in parties() {
        let party = party.as_ref();
        let two = Window::new(0x1000, 96, &TWO);
        assert_eq!(two.told(party, 0x1000), (0, 2, 0x1020));
        assert_eq!(two.told(party, 0x1040), (0, 1, 0x1020));
        assert_eq!(two.told(party, 0x1020), (0, 0, 0x1020));
        let top = Window::new(0xFFFF_FFC0, 64, &[(0xFFFF_FFC0, 0xFFFF_FFE0)]);
        assert_eq!(top.told(party, 0xFFFF_FFC0), (0, 1, 0xFFFF_FFE0));
        let odd = Window::new(1, 67, &[(4, 0x24)]);
        assert_eq!(odd.told(party, 4), (0, 1, 0x24));
    }
}

/// What the second descriptor of the two leads to, and what is told of it.
const DEFECTS: [(u32, u16); 16] = [
    (0x1021, 1),
    (0x1022, 1),
    (0x1023, 1),
    (0x1041, 1),
    (0x0FE2, 1),
    (0xFFFF_FFFF, 1),
    (0x0FFC, 2),
    (0x0FE0, 2),
    (0x1044, 2),
    (0x1060, 2),
    (0x0000, 2),
    (0xFFFF_FFFC, 2),
    (0x1000, 3),
    (0x1040, 3),
    (0x101C, 3),
    (0x1024, 3),
];

#[test]
fn defects_by_hand() {
    for party in parties() {
        for (next, verdict) in DEFECTS {
            let window = Window::new(0x1000, 96, &[TWO[0], (0x1040, next)]);
            let told = window.told(party.as_ref(), 0x1000);
            assert_eq!(told, (verdict, 2, next), "{next:#x}");
            if verdict < 3 {
                assert_eq!(window.told(party.as_ref(), next), (verdict, 0, next));
            }
        }
    }
}

/// A descriptor that leads to itself, a loop of two, and one that leads by a word
/// into itself; and at the top of the bus, where an address behind it is none.
#[test]
fn loops_by_hand() {
    for party in parties() {
        let party = party.as_ref();
        let one = Window::new(64, 64, &[(64, 64)]);
        assert_eq!(one.told(party, 64), (3, 1, 64));
        let two = Window::new(64, 64, &[(64, 96), (96, 64)]);
        assert_eq!(two.told(party, 64), (3, 2, 64));
        assert_eq!(two.told(party, 96), (3, 2, 96));
        let into = Window::new(64, 64, &[(64, 92)]);
        assert_eq!(into.told(party, 64), (3, 1, 92));
        let top = Window::new(0xFFFF_FFE0, 32, &[(0xFFFF_FFE0, 0xFFFF_FFE0)]);
        assert_eq!(top.told(party, 0xFFFF_FFE0), (3, 1, 0xFFFF_FFE0));
    }
}

/// So many descriptors side by side in the largest window, each leading to the next
/// and the last one to `next`.
fn in_a_row(owned: u32, next: u32) -> Window {
    let link = |number: u32| {
        let behind = 0x2_0000 + 32 * (number + 1);
        let next = if number + 1 == owned { next } else { behind };
        (u64::from(behind - 32), next)
    };
    let owned: Vec<(u64, u32)> = (0..owned).map(link).collect();
    Window::new(0x2_0000, 65_536, &owned)
}

/// 2,048 descriptors fill the window: 2,047 and the end, or one more with any defect.
/// How many are owned, what the last of them leads to, and the verdict there.
const LONGEST: [(u32, u32, u16); 7] = [
    (2_047, 0x2_FFE0, 0),
    (2_047, 0x2_FFC0, 3),
    (2_047, 0x2_FFE4, 2),
    (2_047, 0x2_FFE1, 1),
    (2_048, 0x2_0000, 3),
    (2_048, 0x3_0000, 2),
    (2_048, 0x2_0002, 1),
];

#[test]
fn the_longest_chains_by_hand() {
    for party in parties() {
        for (owned, next, verdict) in LONGEST {
            let told = in_a_row(owned, next).told(party.as_ref(), 0x2_0000);
            assert_eq!(told, (verdict, owned, next));
        }
    }
}

/// "3 for a bad window", behind 7.
#[test]
fn the_refusals_of_a_check_come_in_their_order() {
    for party in parties() {
        for (base, length) in [
            (1 << 32, 0),
            ((1 << 32) - 63, 64),
            (0, 65_537),
            (u64::MAX, 96),
            ((1 << 32) + 0x1000, 96),
        ] {
            let mut call = Window {
                base,
                memory: vec![0; length],
            }
            .check(0);
            check_refused(party.as_ref(), &call, 3);
            let Call::CheckChain { answer, .. } = &mut call else {
                unreachable!("it is a check");
            };
            *answer = Lent::zeros(9);
            check_refused(party.as_ref(), &call, 7);
        }
        for size in [0, 8, 9, 11, 20] {
            let call = Call::CheckChain {
                window: Lent::zeros(32),
                base: 0,
                pointer: 0,
                answer: Lent::from(vec![0xEE; size]),
            };
            check_refused(party.as_ref(), &call, 7);
        }
    }
}

const BASE: u32 = 0x4000;

/// A core over a chain that is laid at random, with a byte for each descriptor to
/// land behind the chain.
fn random_chain<'party>(party: &'party dyn Party, rng: &mut Rng) -> (Firmware<'party>, Vec<u32>) {
    let count = 1 + rng.below(20) as u32;
    let mut places: Vec<u32> = (0..count).map(|place| BASE + 36 * place).collect();
    for last in (1..places.len()).rev() {
        places.swap(last, rng.below(last as u64 + 1) as usize);
    }
    let mut core = Firmware::new(party, 2, BASE, 36 * count as usize + 32);
    for (number, &address) in (0..).zip(&places) {
        let fields = Descriptor {
            destination: BASE + 36 * count + number,
            next: places.get(number as usize + 1).copied().unwrap_or(BASE),
            length: 1,
            control: if number + 1 < count { 0x80 } else { 0x7F },
            ..Descriptor::default()
        };
        core.build(address, &fields);
    }
    (core, places)
}

/// What is sound runs to its end: k records, k done marks, and the pointer at the end.
#[test]
fn a_sound_chain_runs_to_its_end() {
    let mut rng = Rng::new(SEED);
    for party in parties() {
        for _ in 0..100 {
            let (mut core, places) = random_chain(party.as_ref(), &mut rng);
            let window = Window {
                base: u64::from(BASE),
                memory: core.memory.clone(),
            };
            let (verdict, owned, end) = window.told(party.as_ref(), places[0]);
            assert_eq!((verdict, owned as usize), (0, places.len() - 1));
            core.write(offset::NEXT_DESCRIPTOR_POINTER, places[0]);
            core.write(offset::CONTROL, control::RUN);
            core.lend_records(owned as usize + 1);
            let ran = core.run(&[0x55; 30], 0, u32::MAX);
            assert_eq!((ran.reason, ran.taken, ran.used), (1, owned, owned));
            assert_eq!(core.read(offset::NEXT_DESCRIPTOR_POINTER), end);
            let done = |address: &&u32| core.descriptor(**address).actual == 1;
            assert_eq!(places.iter().filter(done).count(), owned as usize);
        }
    }
}
