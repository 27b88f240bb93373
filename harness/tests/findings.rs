//! What a ledger tells: random questions put to the model and to the library, and
//! cases worked out by hand from the sixth request.

use harness::call::{libraries_or_model, parties, Call, Lent, Party};
use harness::compare::{ask, check_refused};
use harness::coverage::compare_and_cover;
use harness::coverage::findings::Reached;
use harness::firmware::Firmware;
use harness::gen::FindingHost;
use harness::model::{control, descriptor_control, offset, Descriptor, FINDING_SIZE, RECORD_SIZE};

const CALLS: u64 = 300_000;
const SEED: u64 = 61;

const MOST: u32 = 4_294_967_295;

#[test]
fn random_questions_agree_and_reach_everything() {
    for (party, seed) in libraries_or_model().iter().zip(SEED..) {
        let mut host = FindingHost::new(seed);
        compare_and_cover::<Reached>(&mut host, party.as_ref(), seed, CALLS);
    }
}

/// A record, with any bytes behind the count.
fn record(run: u32, address: u32, actual: u16) -> [u8; RECORD_SIZE] {
    let mut bytes = [0xFF; RECORD_SIZE];
    bytes[..4].copy_from_slice(&run.to_be_bytes());
    bytes[4..8].copy_from_slice(&address.to_be_bytes());
    bytes[8..10].copy_from_slice(&actual.to_be_bytes());
    bytes
}

fn question(ledger: &[u8], used: u32, run: u32, address: u32) -> Call {
    Call::FindRecord {
        ledger: Lent::from(ledger),
        used,
        run,
        address,
        answer: Lent::from(vec![0xEE; FINDING_SIZE]),
    }
}

/// The four bytes that a question is answered with.
fn told(party: &dyn Party, call: &Call) -> [u8; FINDING_SIZE] {
    let answer = ask(party, call);
    assert_eq!(answer.returned, 0, "{} on\n{call}", party.name());
    let Call::FindRecord { answer, .. } = &answer.after else {
        panic!("another call came back");
    };
    (**answer).try_into().expect("the answer has its size")
}

/// "Answer whether a descriptor was written back in a given run, and its latest
/// byte count there."
#[test]
fn the_latest_of_a_run_is_told() {
    let ledger = [
        record(1, 4096, 10),
        record(1, 4128, 20),
        record(2, 4096, 30),
        record(1, 4096, 0x1234),
        record(0, 4096, 0),
    ]
    .concat();
    for party in parties() {
        let told =
            |used, run, address| told(party.as_ref(), &question(&ledger, used, run, address));
        assert_eq!(told(5, 1, 4096), [0, 1, 0x12, 0x34]);
        assert_eq!(told(4, 1, 4096), [0, 1, 0x12, 0x34]);
        assert_eq!(told(3, 1, 4096), [0, 1, 0, 10]);
        assert_eq!(told(5, 1, 4128), [0, 1, 0, 20]);
        assert_eq!(told(5, 2, 4096), [0, 1, 0, 30]);
        assert_eq!(told(2, 2, 4096), [0; 4]);
        assert_eq!(told(5, 2, 4128), [0; 4]);
        assert_eq!(told(5, 0, 4096), [0, 1, 0, 0]);
        assert_eq!(told(4, 0, 4096), [0; 4]);
        assert_eq!(told(0, 1, 4096), [0; 4]);
        assert_eq!(told(5, 4096, 1), [0; 4]);
        assert_eq!(told(5, MOST - 1, 4096), [0; 4]);
    }
}

/// "18 RunUnknown when the run asked for is 4,294,967,295, after 19", and 7 first.
#[test]
fn the_refusals_of_a_question_come_in_their_order() {
    let ledger = record(MOST, 8, 9);
    for party in parties() {
        let mut call = question(&ledger, 2, MOST, 8);
        let Call::FindRecord { answer, .. } = &mut call else {
            unreachable!("it is a question");
        };
        *answer = Lent::zeros(5);
        check_refused(party.as_ref(), &call, 7);
        check_refused(party.as_ref(), &question(&ledger, 2, MOST, 8), 19);
        check_refused(party.as_ref(), &question(&ledger[..11], 0, MOST, 8), 19);
        check_refused(party.as_ref(), &question(&ledger, 1, MOST, 8), 18);
        check_refused(party.as_ref(), &question(&[], 0, MOST, 8), 18);
        let before = question(&ledger, 1, MOST - 1, 8);
        assert_eq!(told(party.as_ref(), &before), [0; 4]);
    }
}

/// Every descriptor of a chain is found behind a run, with what it was given, and no
/// other address is.
#[test]
fn what_a_run_leaves_is_found() {
    const BASE: u32 = 0x2000;
    for party in parties() {
        let mut core = Firmware::new(party.as_ref(), 2, BASE, 512);
        for number in 0..3 {
            let fields = Descriptor {
                destination: BASE + 256 + 8 * number,
                next: BASE + 32 * (number + 1),
                length: 2 + number as u16,
                control: descriptor_control::OWNED_BY_HW,
                ..Descriptor::default()
            };
            core.build(BASE + 32 * number, &fields);
        }
        core.write(offset::NEXT_DESCRIPTOR_POINTER, BASE);
        core.write(offset::CONTROL, control::RUN);
        core.lend_records(3);
        let used = core.run(&[0; 9], 0, 100).used;
        assert_eq!(used, 3);
        let ledger = core.records().concat();
        let run = u32::from_be_bytes([ledger[0], ledger[1], ledger[2], ledger[3]]);
        for number in 0..4 {
            let call = question(&ledger, used, run, BASE + 32 * number);
            let count = if number < 3 {
                [1, 0, 2 + number as u8]
            } else {
                [0; 3]
            };
            let [_, rest @ ..] = told(party.as_ref(), &call);
            assert_eq!(rest, count, "{}", party.name());
        }
    }
}
