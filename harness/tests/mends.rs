//! Chains that are mended: random ones put to the model and to the library, chains
//! worked out by hand from the thirteenth request, and what it says of all of them.

use harness::bulk::Bulk;
use harness::call::{libraries_or_model, parties, Call, Lent, Party};
use harness::compare::{ask, check_done, check_refused};
use harness::coverage::compare_and_cover;
use harness::coverage::mends::Reached;
use harness::firmware::Firmware;
use harness::gen::{Hosts, MendHost, Rng};
use harness::model::{control, offset, Descriptor, CHECK_SIZE, MEND_SIZE};

const CALLS: u64 = 150_000;
const SEED: u64 = 13;

#[test]
fn random_mends_agree_and_reach_everything() {
    for (party, seed) in libraries_or_model().iter().zip(SEED..) {
        let mut host = MendHost::new(seed);
        compare_and_cover::<Reached>(&mut host, party.as_ref(), seed, CALLS);
    }
}

/// The mends that are put to the library first.
#[test]
fn the_bulk_model_agrees_on_the_same_random_mends() {
    compare_and_cover::<Reached>(&mut MendHost::new(SEED), &Bulk, SEED, CALLS);
}

/// A dump: where it stands, its bytes, and where its chain begins.
#[derive(Clone, PartialEq)]
struct Dump {
    base: u64,
    memory: Vec<u8>,
    pointer: u32,
}

fn numbers(bytes: &[u8]) -> u32 {
    bytes
        .iter()
        .fold(0, |number, &byte| number << 8 | u32::from(byte))
}

impl Dump {
    /// The dump of a mend.
    fn of(call: &Call) -> Dump {
        let Call::MendChain {
            window,
            base,
            pointer,
            ..
        } = call
        else {
            panic!("no mend:\n{call}");
        };
        Dump {
            base: *base,
            memory: window.to_vec(),
            pointer: *pointer,
        }
    }

    fn mend(&self) -> Call {
        self.mend_into(MEND_SIZE)
    }

    /// A mend with an answer of so many bytes.
    fn mend_into(&self, size: usize) -> Call {
        Call::MendChain {
            window: Lent::from(self.memory.as_slice()),
            base: self.base,
            pointer: self.pointer,
            answer: Lent::from(vec![0xEE; size]),
        }
    }

    fn check(&self) -> Call {
        Call::CheckChain {
            window: Lent::from(self.memory.as_slice()),
            base: self.base,
            pointer: self.pointer,
            answer: Lent::from(vec![0xEE; CHECK_SIZE]),
        }
    }

    /// The verdict of a check, k or position, and the address.
    fn checked(&self, party: &dyn Party) -> (u32, u32, u32) {
        let Call::CheckChain { answer, .. } = check_done(party, &self.check()) else {
            unreachable!("a call stays what it is");
        };
        (
            numbers(&answer[..2]),
            numbers(&answer[2..6]),
            numbers(&answer[6..]),
        )
    }

    /// The number that a mend must return, by what the check says.
    fn number_due(&self, party: &dyn Party) -> u32 {
        let refused = ask(party, &self.check()).returned;
        if refused != 0 {
            return refused;
        }
        match self.checked(party) {
            (1.., 0, _) => 23,
            _ => 0,
        }
    }

    /// What a mend leaves, and the eight bytes that it tells.
    fn mended(&self, party: &dyn Party) -> (Dump, [u8; MEND_SIZE]) {
        let after = check_done(party, &self.mend());
        let Call::MendChain { answer, .. } = &after else {
            unreachable!("a call stays what it is");
        };
        let told = (**answer).try_into().expect("the answer has its size");
        (Dump::of(&after), told)
    }
}

/// Three owned descriptors in the window 0x1000 to 0x1080, with these control bytes:
/// the first leads to the third, the third to the second, the second to `next`.
fn three(next: u32) -> Dump {
    let mut memory = vec![0; 128];
    for (place, next, control) in [(0, 0x1040, 0x80), (64, 0x1020, 0xFF), (32, next, 0xD5)] {
        memory[place + 16..place + 20].copy_from_slice(&u32::to_le_bytes(next));
        memory[place + 31] = control;
    }
    Dump {
        base: 0x1000,
        memory,
        pointer: 0x1000,
    }
}

/// The byte that is changed, what it becomes, and what is told.
#[test]
fn mends_by_hand() {
    for party in parties() {
        let party = party.as_ref();
        for next in [0x1062, 0x1064, 0x1000, 0x105C, 0x0FFC, 0xFFFF_FFFF] {
            let (left, told) = three(next).mended(party);
            let mut due = three(next);
            due.memory[63] = 0x55;
            assert!(left == due, "{next:#x}");
            assert_eq!(told, [0, 1, 0, 0, 0x10, 0x20, 0xD5, 0x55]);
            assert_eq!(left.checked(party), (0, 2, 0x1020));
        }
        let sound = three(0x1060);
        let (left, told) = sound.mended(party);
        assert!(left == sound);
        assert_eq!(told, [0; MEND_SIZE]);
    }
}

/// A defect at position 1: the first descriptor becomes the end, and k is 0.
#[test]
fn the_first_alone_is_kept_by_hand() {
    for party in parties() {
        let party = party.as_ref();
        let mut dump = three(0x1060);
        dump.memory[16] = 0x02;
        let (left, told) = dump.mended(party);
        assert_eq!(told, [0, 1, 0, 0, 0x10, 0x00, 0x80, 0x00]);
        dump.memory[31] = 0;
        assert!(left == dump);
        assert_eq!(left.checked(party), (0, 0, 0x1000));
    }
}

/// A base and a length that are no window: each by one limit, and by far.
const NO_WINDOWS: [(u64, usize); 5] = [
    (1 << 32, 0),
    ((1 << 32) - 63, 64),
    (0, 65_537),
    ((1 << 32) + 0x1000, 96),
    (u64::MAX, 96),
];

/// "23 NothingToKeep when the defect is the first descriptor", behind 7 and 3.
#[test]
fn the_refusals_of_a_mend_come_in_their_order() {
    for party in parties() {
        let party = party.as_ref();
        for pointer in [0x1001, 0x0FFC, 0x1064, 0x1080, 0, u32::MAX] {
            let mut dump = three(0x1000);
            dump.pointer = pointer;
            check_refused(party, &dump.mend(), 23);
            check_refused(party, &dump.mend_into(10), 7);
            dump.base = 1 << 32;
            check_refused(party, &dump.mend(), 3);
            check_refused(party, &dump.mend_into(10), 7);
        }
        for (base, length) in NO_WINDOWS {
            let (memory, pointer) = (vec![0; length], 0);
            let dump = Dump {
                base,
                memory,
                pointer,
            };
            check_refused(party, &dump.mend(), 3);
        }
        for size in [0, 7, 9, 10, 16] {
            check_refused(party, &three(0x1000).mend_into(size), 7);
        }
    }
}

/// "Nothing else in the dump changes, the mended chain is sound, and a sound chain is
/// untouched." Mended again, nothing changes. How many were mended.
fn check_mend(party: &dyn Party, dump: &Dump) -> u32 {
    let (verdict, position, _) = dump.checked(party);
    let (left, told) = dump.mended(party);
    let (again, nothing) = left.mended(party);
    assert!(again == left && nothing == [0; MEND_SIZE]);
    if verdict == 0 {
        assert!(left == *dump && told == [0; MEND_SIZE]);
        return 0;
    }
    assert_eq!(told[..2], [0, 1]);
    assert_eq!(left.checked(party), (0, position - 1, numbers(&told[2..6])));
    let changed = |&place: &usize| left.memory[place] != dump.memory[place];
    let places: Vec<usize> = (0..left.memory.len()).filter(changed).collect();
    let [place] = places[..] else {
        panic!("{} bytes changed", places.len());
    };
    assert_eq!(left.memory[place] ^ dump.memory[place], 0x80);
    assert_eq!([dump.memory[place], left.memory[place]], told[6..]);
    1
}

#[test]
fn what_is_mended_is_sound_and_stays() {
    for party in parties() {
        let party = party.as_ref();
        let mut host = MendHost::new(SEED);
        let mut mended = 0;
        for _ in 0..5_000 {
            let dump = Dump::of(&host.next_call());
            match dump.number_due(party) {
                0 => mended += check_mend(party, &dump),
                number => check_refused(party, &dump.mend(), number),
            }
        }
        assert!(mended > 1_000, "only {mended} were mended");
    }
}

/// A core over a chain of one-byte descriptors, one of which leads elsewhere.
fn damaged_chain<'party>(party: &'party dyn Party, rng: &mut Rng) -> Firmware<'party> {
    let count = 2 + rng.below(12) as u32;
    let mut core = Firmware::new(party, 2, 0x4000, 32 * count as usize + 64);
    let damaged = rng.below(u64::from(count)) as u32;
    let elsewhere = rng.pick(&[0x4000, 0x4002, 0, 0x4000 + 32 * damaged + 28]);
    for number in 0..count {
        let address = 0x4000 + 32 * number;
        let fields = Descriptor {
            destination: 0x4000 + 32 * (count + 1) + number,
            next: if number == damaged {
                elsewhere
            } else {
                address + 32
            },
            length: 1,
            control: 0x80,
            ..Descriptor::default()
        };
        core.build(address, &fields);
    }
    core
}

/// What a mend has left runs to its end: as many are done as the check says.
#[test]
fn a_mended_chain_runs_to_its_end() {
    let mut rng = Rng::new(SEED);
    for party in parties() {
        let party = party.as_ref();
        for _ in 0..100 {
            let mut core = damaged_chain(party, &mut rng);
            let dump = Dump {
                base: 0x4000,
                memory: core.memory.clone(),
                pointer: 0x4000,
            };
            let (verdict, position, _) = dump.checked(party);
            assert!(verdict != 0 && position > 0);
            let (left, _) = dump.mended(party);
            core.memory = left.memory;
            core.write(offset::NEXT_DESCRIPTOR_POINTER, 0x4000);
            core.write(offset::CONTROL, control::RUN);
            core.lend_records(20);
            let ran = core.run(&[0x55; 30], 0, u32::MAX);
            assert_eq!((ran.reason, ran.used), (1, position - 1));
        }
    }
}
