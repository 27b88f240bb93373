//! The eleven known runs of the paper, by the model and by the library, each made
//! with room for just the records that it makes.
//!
//! "Base 4096, length 256, mode 2, descriptor D at 4096: destination 4224, next
//! 4128, length 4, control 0x80; all other bytes zero. Pointer 4096, control 0x20,
//! budget 100, beats 0x0011 0x0022 0x0033 0x0044, unless said."

use harness::call::{parties, Party};
use harness::firmware::{Firmware, Ran};
use harness::model::{offset, Descriptor, Reason, RECORD_SIZE};
use harness::samples::record;

const BASE: u32 = 4096;
const LENGTH: usize = 256;
const D: u32 = 4096;

/// What is given to a run.
#[derive(Clone, Copy)]
struct Given {
    mode: u32,
    descriptor: Descriptor,
    /// Bytes laid at the descriptor's source.
    data: &'static [u8],
    pointer: u32,
    control: u32,
    budget: u32,
    beats: &'static [u16],
    room: usize,
}

const GIVEN: Given = Given {
    mode: 2,
    descriptor: Descriptor {
        source: 0,
        destination: 4224,
        next: 4128,
        length: 4,
        actual: 0,
        status: 0,
        control: 0x80,
    },
    data: &[],
    pointer: D,
    control: 0x20,
    budget: 100,
    beats: &[0x0011, 0x0022, 0x0033, 0x0044],
    room: 0,
};

/// What must come of it.
#[derive(Clone, Copy, Debug, PartialEq, Eq)]
struct Expected {
    reason: Reason,
    steps: u32,
    taken: u32,
    made: &'static [u16],
    status: u32,
    pointer: u32,
    /// D's last four bytes.
    last_four: [u8; 4],
    /// Fault code and address, both 0 where there is none.
    fault: (u8, u32),
    /// The bytes at D's destination, as far as the window reaches.
    landed: &'static [u8],
    /// The ledger.
    records: &'static [Record],
}

type Record = [u8; RECORD_SIZE];

/// The record of a D that has moved its four bytes.
const FOUR_MOVED: Record = record(1, D, [0, 4, 0, 0]);

const RUN_1: Expected = Expected {
    reason: Reason::Ended,
    steps: 8,
    taken: 4,
    made: &[],
    status: 0x1C,
    pointer: 4128,
    last_four: [4, 0, 0, 0],
    fault: (0, 0),
    landed: &[0x11, 0x22, 0x33, 0x44],
    records: &[FOUR_MOVED],
};

/// Nothing but Rest, one Fetch and its end or fault.
const NOTHING_MOVED: Expected = Expected {
    steps: 2,
    taken: 0,
    last_four: [0, 0, 0, 0x80],
    landed: &[0, 0, 0, 0],
    records: &[],
    ..RUN_1
};

const FAULTED_IN_FETCH: Expected = Expected {
    reason: Reason::Faulted,
    status: 0,
    ..NOTHING_MOVED
};

/// A run of mode 1 from the bytes AA BB.
const STREAMED: Given = Given {
    mode: 1,
    descriptor: Descriptor {
        source: 4224,
        length: 2,
        control: 0x85,
        ..GIVEN.descriptor
    },
    data: &[0xAA, 0xBB],
    beats: &[],
    room: 2,
    ..GIVEN
};

/// D leads to itself and is parked.
const PARKED: Given = Given {
    descriptor: Descriptor {
        next: 4096,
        ..GIVEN.descriptor
    },
    control: 0x20020,
    beats: &[0x11, 0x22, 0x33, 0x44, 0x55, 0x66, 0x77, 0x88],
    ..GIVEN
};

const RUN_6: Expected = Expected {
    reason: Reason::NeedsInput,
    steps: 14,
    taken: 8,
    status: 0x14,
    pointer: 4096,
    last_four: [4, 0, 0, 0x80],
    landed: &[0x55, 0x66, 0x77, 0x88],
    records: &[FOUR_MOVED, FOUR_MOVED],
    ..RUN_1
};

const RUNS: [(&str, Given, Expected); 15] = [
    ("1", GIVEN, RUN_1),
    (
        "2: second beat 0x0122",
        Given {
            beats: &[0x0011, 0x0122, 0x0033, 0x0044],
            ..GIVEN
        },
        Expected {
            steps: 6,
            taken: 2,
            status: 0x1E,
            last_four: [2, 0, 0, 0],
            landed: &[0x11, 0x22, 0, 0],
            records: &[record(1, D, [0, 2, 0, 1])],
            ..RUN_1
        },
    ),
    (
        "3: pointer 4128",
        Given {
            pointer: 4128,
            ..GIVEN
        },
        Expected {
            status: 0x18,
            ..NOTHING_MOVED
        },
    ),
    (
        "4: three beats",
        Given {
            beats: &[0x0011, 0x0022, 0x0033],
            ..GIVEN
        },
        Expected {
            reason: Reason::NeedsInput,
            steps: 5,
            taken: 3,
            status: 0x10,
            last_four: [0, 0, 0, 0x80],
            landed: &[0x11, 0x22, 0x33, 0],
            records: &[],
            ..RUN_1
        },
    ),
    (
        "5: third beat 0x0633, control 0x60",
        Given {
            beats: &[0x0011, 0x0022, 0x0633, 0x0044],
            control: 0x60,
            ..GIVEN
        },
        Expected {
            reason: Reason::Halted,
            steps: 7,
            status: 0x05,
            last_four: [4, 0, 3, 0],
            records: &[record(1, D, [0, 4, 3, 0])],
            ..RUN_1
        },
    ),
    ("6: D next 4096, control 0x20020, 8 beats", PARKED, RUN_6),
    (
        "7: destination 4350",
        Given {
            descriptor: Descriptor {
                destination: 4350,
                ..GIVEN.descriptor
            },
            ..GIVEN
        },
        Expected {
            steps: 5,
            taken: 2,
            fault: (14, 4352),
            landed: &[0x11, 0x22],
            ..FAULTED_IN_FETCH
        },
    ),
    (
        "8: pointer 4098",
        Given {
            pointer: 4098,
            ..GIVEN
        },
        Expected {
            fault: (10, 4098),
            pointer: 4098,
            ..FAULTED_IN_FETCH
        },
    ),
    (
        "8: pointer 4324",
        Given {
            pointer: 4324,
            ..GIVEN
        },
        Expected {
            fault: (11, 4324),
            pointer: 4324,
            ..FAULTED_IN_FETCH
        },
    ),
    (
        "8: pointer 4320 is inside",
        Given {
            pointer: 4320,
            ..GIVEN
        },
        Expected {
            status: 0x18,
            pointer: 4320,
            ..NOTHING_MOVED
        },
    ),
    (
        "9: mode 0, length 0",
        Given {
            mode: 0,
            descriptor: Descriptor {
                length: 0,
                ..GIVEN.descriptor
            },
            ..GIVEN
        },
        Expected {
            fault: (12, 4096),
            pointer: 4096,
            ..FAULTED_IN_FETCH
        },
    ),
    (
        "10: mode 1",
        STREAMED,
        Expected {
            steps: 6,
            taken: 0,
            made: &[0x02AA, 0x01BB],
            last_four: [2, 0, 0, 0x05],
            landed: &[0xAA, 0xBB, 0, 0],
            records: &[record(1, D, [0, 2, 0, 0])],
            ..RUN_1
        },
    ),
    (
        "10: length 1",
        Given {
            descriptor: Descriptor {
                length: 1,
                ..STREAMED.descriptor
            },
            ..STREAMED
        },
        Expected {
            steps: 5,
            taken: 0,
            made: &[0x03AA],
            last_four: [1, 0, 0, 0x05],
            landed: &[0xAA, 0xBB, 0, 0],
            records: &[record(1, D, [0, 1, 0, 0])],
            ..RUN_1
        },
    ),
    ("11: budget 8", Given { budget: 8, ..GIVEN }, RUN_1),
    (
        "11: budget 7",
        Given { budget: 7, ..GIVEN },
        Expected {
            reason: Reason::Budget,
            steps: 7,
            status: 0x14,
            ..RUN_1
        },
    ),
];

/// A core that stands before its run, with room for so many records.
fn started<'party>(party: &'party dyn Party, given: &Given, records: usize) -> Firmware<'party> {
    let mut core = Firmware::new(party, given.mode, BASE, LENGTH);
    core.build(D, &given.descriptor);
    if !given.data.is_empty() {
        core.put(given.descriptor.source, given.data);
    }
    core.write(offset::NEXT_DESCRIPTOR_POINTER, given.pointer);
    core.write(offset::CONTROL, given.control);
    core.lend_records(records);
    core
}

/// Checks every figure of what a run has told and left.
fn check(name: &str, core: &Firmware, ran: &Ran, given: &Given, expected: &Expected) {
    let found = (
        (ran.reason, ran.steps, ran.taken, ran.made.as_slice()),
        core.read(offset::STATUS),
        core.read(offset::NEXT_DESCRIPTOR_POINTER),
        core.bytes(D + 28, 4),
        core.fault(),
        core.bytes(given.descriptor.destination, expected.landed.len()),
        core.records(),
    );
    let wanted = (
        (
            expected.reason as u16,
            expected.steps,
            expected.taken,
            expected.made,
        ),
        expected.status,
        expected.pointer,
        expected.last_four.as_slice(),
        expected.fault,
        expected.landed,
        expected.records,
    );
    assert_eq!(found, wanted, "run {name}");
    assert_eq!(core.read(offset::CONTROL), given.control);
}

#[test]
fn known_runs_have_the_figures_of_the_paper() {
    for party in parties() {
        for (name, given, expected) in &RUNS {
            let mut core = started(party.as_ref(), given, expected.records.len());
            let ran = core.run(given.beats, given.room, given.budget);
            let name = format!("{name} by the {}", party.name());
            check(&name, &core, &ran, given, expected);
        }
    }
}

/// Known run 6 with room for one record: before the second is written back, it
/// stops with LedgerFull, after Rest, two Fetches, eight bytes and one WriteBack.
/// Lent more room, it goes on to the end that it has with room for both.
#[test]
fn a_full_ledger_stops_known_run_6_until_more_is_lent() {
    let full = Expected {
        reason: Reason::LedgerFull,
        steps: 12,
        records: &[FOUR_MOVED],
        ..RUN_6
    };
    let gone_on = Expected {
        steps: 2,
        taken: 0,
        ..RUN_6
    };
    for party in parties() {
        let mut core = started(party.as_ref(), &PARKED, 1);
        let ran = core.run(PARKED.beats, 0, PARKED.budget);
        check("6, full", &core, &ran, &PARKED, &full);
        let again = core.run(&[], 0, PARKED.budget);
        let no_step = Expected {
            steps: 0,
            taken: 0,
            ..full
        };
        check("6, still full", &core, &again, &PARKED, &no_step);
        core.lend_records(1);
        let ran = core.run(&[], 0, PARKED.budget);
        check("6, gone on", &core, &ran, &PARKED, &gone_on);
    }
}
