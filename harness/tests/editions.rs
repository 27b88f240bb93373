//! Images moved from edition to edition: random moves put to the model and to the
//! library, and bytes worked out by hand from the request.

use harness::call::{libraries_or_model, parties, Call, Lent, Party};
use harness::compare::{check_done, check_refused};
use harness::coverage::compare_and_cover;
use harness::coverage::editions::Reached;
use harness::gen::EditionHost;
use harness::model::{IMAGE_SIZE, OLD_IMAGE_SIZE, VALUE_SIZE};

const CALLS: u64 = 400_000;
const SEED: u64 = 5;

#[test]
fn random_moves_agree_and_reach_everything() {
    for (party, seed) in libraries_or_model().iter().zip(SEED..) {
        let mut host = EditionHost::new(seed);
        compare_and_cover::<Reached>(&mut host, party.as_ref(), seed, CALLS);
    }
}

fn move_to(from: &[u8], size: usize) -> Call {
    Call::MoveImage {
        from: Lent::from(from),
        to: Lent::from(vec![0xEE; size]),
    }
}

/// The move must be done; what it leaves.
fn moved(party: &dyn Party, from: &[u8], size: usize) -> Vec<u8> {
    match check_done(party, &move_to(from, size)) {
        Call::MoveImage { to, .. } => to.to_vec(),
        _ => unreachable!("a call stays what it is"),
    }
}

/// Edition 1, mode 1, WriteBack, armed, nothing pending, fault 0; status
/// DESCRIPTOR_COMPLETED and BUSY; count 254; control SW_RESET, MAX 255, IE_MAX, RUN;
/// pointer 0x8000_0021; window 0x8000_0000, 64; descriptor at 0x8000_0004, source
/// 0xFFFF_FFFF, destination 0x0102_0304, length 1, control 0x99, errors 0, moved 1.
#[rustfmt::skip]
const OLD: [u8; OLD_IMAGE_SIZE] = [
    0x15, 0xC0, 0x14, 0xFE, 0x00, 0x01, 0xFF, 0xA0, 0x80, 0x00, 0x00, 0x21,
    0x80, 0x00, 0x00, 0x00, 0x00, 0x00, 0x00, 0x40, 0x80, 0x00, 0x00, 0x04,
    0xFF, 0xFF, 0xFF, 0xFF, 0x01, 0x02, 0x03, 0x04, 0x00, 0x01, 0x99, 0x00,
    0x00, 0x01, 0x00, 0x00, 0x00, 0x00, 0x00, 0x00,
];

/// The same in edition 2: 2 in the first four bits, and 41 bytes of zero.
fn new() -> [u8; IMAGE_SIZE] {
    let mut bytes = [0; IMAGE_SIZE];
    bytes[..OLD_IMAGE_SIZE].copy_from_slice(&OLD);
    bytes[0] = 0x25;
    bytes
}

#[test]
fn forward_and_back_by_hand() {
    for party in parties() {
        let party = party.as_ref();
        assert_eq!(moved(party, &OLD, IMAGE_SIZE), new());
        assert_eq!(moved(party, &OLD, OLD_IMAGE_SIZE), OLD);
        assert_eq!(moved(party, &new(), OLD_IMAGE_SIZE), OLD);
        assert_eq!(moved(party, &new(), IMAGE_SIZE), new());
    }
}

/// "the run number is dropped", and 0 when it comes forward again.
#[test]
fn the_run_number_is_dropped() {
    for party in parties() {
        let party = party.as_ref();
        let mut dated = new();
        dated[81..].copy_from_slice(&[0xFF, 0xFE, 0xFD, 0xFC]);
        assert_eq!(moved(party, &dated, IMAGE_SIZE), dated);
        assert_eq!(moved(party, &dated, OLD_IMAGE_SIZE), OLD);
        assert_eq!(moved(party, &OLD, IMAGE_SIZE), new());
    }
}

/// The next descriptor, at 0x8000_0021, is misaligned: held as kind 2. In edition 2
/// the image stays as it is; back it is 15, behind 8.
#[test]
fn a_held_slot_stays() {
    for party in parties() {
        let party = party.as_ref();
        let mut held = new();
        held[44..49].copy_from_slice(&[0x80, 0x80, 0x00, 0x00, 0x21]);
        assert_eq!(moved(party, &held, IMAGE_SIZE), held);
        check_refused(party, &move_to(&held, OLD_IMAGE_SIZE), 15);
        held[44] = 0xC0;
        check_refused(party, &move_to(&held, OLD_IMAGE_SIZE), 8 + 256 * 25);
        check_refused(party, &move_to(&held, IMAGE_SIZE), 8 + 256 * 25);
        held[3] = 0xFF;
        check_refused(party, &move_to(&held, OLD_IMAGE_SIZE), 8 + 256 * 8);
    }
}

/// A byte of edition 1, what it becomes, and the field told.
const BROKEN: [(usize, u8, u32); 12] = [
    (0, 0x25, 1),
    (0, 0x05, 1),
    (0, 0x1D, 2),
    (1, 0xC1, 6),
    (2, 0x04, 7),
    (3, 0xFF, 8),
    (5, 0x00, 9),
    (17, 0x02, 12),
    (23, 0x28, 13),
    (34, 0x19, 17),
    (38, 0x80, 20),
    (43, 0x01, 22),
];

#[test]
fn the_field_that_spoiled_an_old_image() {
    for party in parties() {
        for (place, byte, field) in BROKEN {
            let mut spoilt = OLD;
            spoilt[place] = byte;
            for size in [OLD_IMAGE_SIZE, IMAGE_SIZE] {
                check_refused(party.as_ref(), &move_to(&spoilt, size), 8 + 256 * field);
            }
        }
    }
}

/// 7 where either is no edition's size, whatever else is wrong.
#[test]
fn wrong_sizes_are_refused() {
    for party in parties() {
        for size in [0, 1, 43, 45, 84, 86, 93, 95, 170] {
            let bytes = vec![0xFF; size];
            for right in [OLD_IMAGE_SIZE, IMAGE_SIZE] {
                check_refused(party.as_ref(), &move_to(&bytes, right), 7);
                check_refused(party.as_ref(), &move_to(&vec![0xFF; right], size), 7);
            }
        }
    }
}

/// What came forward is a core to every other call: its line is down here.
#[test]
fn what_is_forward_is_read() {
    for party in parties() {
        let line = Call::Line {
            image: Lent::from(moved(party.as_ref(), &OLD, IMAGE_SIZE)),
            value: Lent::from(vec![0xEE; VALUE_SIZE]),
        };
        let Call::Line { value, .. } = check_done(party.as_ref(), &line) else {
            unreachable!("a call stays what it is");
        };
        assert_eq!(*value, [0; VALUE_SIZE]);
    }
}
