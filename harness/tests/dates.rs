//! Which run a record is dated with where several calls lead to it: sessions worked
//! out by hand from "run number 32" and "Records are appended on the WriteBack
//! step", by the model and by the library; and that they notice other dates.

use harness::call::{parties, Party};
use harness::firmware::Firmware;
use harness::model::{
    offset, Calls, Chains, Controllers, Descriptor, Descriptors, Editions, Findings, Images,
    Ledgers, Machine, Mends, Mode, Paper, Registers, Slots, Steps, Timers, Windows,
    DESCRIPTOR_SIZE, RECORD_SIZE,
};
use std::cell::Cell;
use std::ops::Range;
use Act::{Again, Control, Number, Take};

/// What is done with a core. It has three descriptors of one byte each, one after
/// the other, and behind them one that is not owned. So it takes a step out of
/// Rest, a Fetch, a Move and a WriteBack for each, and a Fetch that ends the chain.
enum Act {
    /// Writes control.
    Control(u32),
    /// Hands all descriptors over again, and points to the first.
    Again,
    /// Takes so many steps, or fewer where the core stops.
    Take(u32),
    /// The image tells this run number from here on.
    Number(u32),
}

struct Session {
    name: &'static str,
    acts: &'static [Act],
    /// The record of which descriptor, from 0, is of which run.
    dates: &'static [(u32, u32)],
}

const BASE: u32 = 4096;
const LENGTH: usize = 256;
const DESCRIPTORS: u32 = 3;
const RECORDS: usize = 9;
const RUN: u32 = 0x20;
const RESET: u32 = 1 << 16;
const RUN_NUMBER: Range<usize> = 81..85;

/// Steps to where the first descriptor is in Move, in WriteBack and written back,
/// and to the end.
const IN_MOVE: u32 = 2;
const IN_WRITE_BACK: u32 = 3;
const IN_NEXT_FETCH: u32 = 4;
const ALL: u32 = 100;

const OFF_AND_ON_IN_MOVE: &str = "RUN off and on in Move";
const OFF_AND_ON_IN_WRITE_BACK: &str = "RUN off and on in WriteBack";
const RESET_BETWEEN: &str = "a reset between two runs";

#[rustfmt::skip]
const SESSIONS: [Session; 14] = [
    Session { name: "one run",
        acts: &[Control(RUN), Take(ALL)],
        dates: &[(0, 1), (1, 1), (2, 1)] },
    Session { name: "the same descriptors in two runs",
        acts: &[Control(RUN), Take(ALL), Control(0), Again, Control(RUN), Take(ALL)],
        dates: &[(0, 1), (1, 1), (2, 1), (0, 2), (1, 2), (2, 2)] },
    Session { name: OFF_AND_ON_IN_MOVE,
        acts: &[Control(RUN), Take(IN_MOVE), Control(0), Control(RUN), Take(ALL)],
        dates: &[(0, 2), (1, 2), (2, 2)] },
    Session { name: OFF_AND_ON_IN_WRITE_BACK,
        acts: &[Control(RUN), Take(IN_WRITE_BACK), Control(0), Control(RUN), Take(ALL)],
        dates: &[(0, 2), (1, 2), (2, 2)] },
    Session { name: "RUN off and on in the Fetch behind it",
        acts: &[Control(RUN), Take(IN_NEXT_FETCH), Control(0), Control(RUN), Take(ALL)],
        dates: &[(0, 1), (1, 2), (2, 2)] },
    Session { name: "RUN off and on in both",
        acts: &[Control(RUN), Take(IN_MOVE), Control(0), Control(RUN), Take(1), Control(0),
                Control(RUN), Take(1), Control(0), Control(RUN), Take(ALL)],
        dates: &[(0, 3), (1, 4), (2, 4)] },
    Session { name: "RUN off in Move, and on in Rest",
        acts: &[Control(RUN), Take(IN_MOVE), Control(0), Take(ALL), Control(RUN), Take(ALL)],
        dates: &[(0, 1), (1, 2), (2, 2)] },
    Session { name: "RUN written again as it is",
        acts: &[Control(RUN), Take(IN_MOVE), Control(RUN), Take(ALL)],
        dates: &[(0, 1), (1, 1), (2, 1)] },
    Session { name: "RUN on in the write that arms",
        acts: &[Control(RUN), Take(IN_MOVE), Control(0), Control(RUN | RESET), Take(ALL)],
        dates: &[(0, 2), (1, 2), (2, 2)] },
    Session { name: RESET_BETWEEN,
        acts: &[Control(RUN), Take(ALL), Control(RESET), Control(RESET), Again, Control(RUN),
                Take(ALL)],
        dates: &[(0, 1), (1, 1), (2, 1), (0, 2), (1, 2), (2, 2)] },
    Session { name: "a reset in WriteBack: no record, and the next is of the next run",
        acts: &[Control(RUN), Take(IN_WRITE_BACK), Control(RUN | RESET), Control(RUN | RESET),
                Again, Control(RUN), Take(IN_NEXT_FETCH)],
        dates: &[(0, 2)] },
    Session { name: "the largest number, twice",
        acts: &[Number(u32::MAX - 1), Control(RUN), Take(ALL), Control(0), Again, Control(RUN),
                Take(IN_NEXT_FETCH)],
        dates: &[(0, u32::MAX), (1, u32::MAX), (2, u32::MAX), (0, u32::MAX)] },
    Session { name: "a core that came from edition 1 in Move",
        acts: &[Control(RUN), Take(IN_MOVE), Number(0), Take(ALL)],
        dates: &[(0, 0), (1, 0), (2, 0)] },
    Session { name: "until RUN rises in it",
        acts: &[Control(RUN), Take(IN_MOVE), Number(0), Take(2), Control(0), Control(RUN),
                Take(ALL)],
        dates: &[(0, 0), (1, 1), (2, 1)] },
];

fn address(descriptor: u32) -> u32 {
    BASE + descriptor * DESCRIPTOR_SIZE as u32
}

fn hand_over(core: &mut Firmware) {
    for descriptor in 0..DESCRIPTORS {
        let fields = Descriptor {
            source: BASE + 200,
            destination: BASE + 128 + descriptor,
            next: address(descriptor + 1),
            length: 1,
            control: 0x80,
            ..Descriptor::default()
        };
        core.build(address(descriptor), &fields);
    }
    core.write(offset::NEXT_DESCRIPTOR_POINTER, BASE);
}

fn act(core: &mut Firmware, act: &Act) {
    match act {
        Control(value) => core.write(offset::CONTROL, *value),
        Again => hand_over(core),
        Take(steps) => {
            core.run(&[0x11; RECORDS], RECORDS, *steps);
        }
        Number(number) => core.image[RUN_NUMBER].copy_from_slice(&number.to_be_bytes()),
    }
}

/// The descriptor that a record tells, from 0, and its run.
fn date(record: &[u8; RECORD_SIZE]) -> (u32, u32) {
    let number = |at: usize| {
        let bytes = record[at..at + 4].try_into();
        u32::from_be_bytes(bytes.expect("four bytes"))
    };
    ((number(4) - BASE) / DESCRIPTOR_SIZE as u32, number(0))
}

fn is_as_due(party: &dyn Party, mode: Mode, session: &Session) -> bool {
    let mut core = Firmware::new(party, mode as u32, BASE, LENGTH);
    core.lend_records(RECORDS);
    hand_over(&mut core);
    REMEMBERED.set(0);
    session.acts.iter().for_each(|next| act(&mut core, next));
    core.records()
        .iter()
        .map(date)
        .eq(session.dates.iter().copied())
}

/// The sessions that this party dates otherwise, in some mode.
fn dated_otherwise(party: &dyn Party) -> Vec<&'static str> {
    let sessions = SESSIONS.iter().filter(|session| {
        let as_due = |mode| is_as_due(party, mode, session);
        !Mode::ALL.into_iter().all(as_due)
    });
    sessions.map(|session| session.name).collect()
}

#[test]
fn a_record_is_of_the_run_of_its_write_back() {
    for party in parties() {
        let none: [&str; 0] = [];
        assert_eq!(dated_otherwise(party.as_ref()), none, "{}", party.name());
    }
}

thread_local! {
    /// What a wrong model remembers from call to call: an image has no place for it.
    static REMEMBERED: Cell<u32> = const { Cell::new(0) };
}

/// A model that dates by what it remembers.
#[derive(Clone, Copy, PartialEq)]
enum Wrong {
    /// The number that was there at the descriptor's Fetch.
    AtFetch,
    /// .. when the core left Rest.
    AtStart,
    /// How far the number has come since the last reset.
    SinceReset,
}

impl Wrong {
    fn remember(self, now: Wrong, machine: &Machine) {
        if self == now {
            REMEMBERED.set(machine.run_number);
        }
    }
}

impl Steps for Wrong {
    fn keep(self, machine: &mut Machine, read: &Descriptor) {
        self.remember(Wrong::AtFetch, machine);
        Paper.keep(machine, read);
    }

    fn leave_rest(self, machine: &mut Machine) {
        self.remember(Wrong::AtStart, machine);
        Paper.leave_rest(machine);
    }
}

impl Registers for Wrong {
    fn reset(self, machine: &mut Machine, value: u32) {
        self.remember(Wrong::SinceReset, machine);
        Paper.reset(machine, value);
    }
}

impl Ledgers for Wrong {
    fn date(self, machine: &Machine) -> u32 {
        match self {
            Wrong::AtFetch | Wrong::AtStart => REMEMBERED.get(),
            Wrong::SinceReset => machine.run_number - REMEMBERED.get(),
        }
    }
}

impl Windows for Wrong {}
impl Descriptors for Wrong {}
impl Slots for Wrong {}
impl Images for Wrong {}
impl Controllers for Wrong {}
impl Timers for Wrong {}
impl Findings for Wrong {}
impl Chains for Wrong {}
impl Mends for Wrong {}
impl Editions for Wrong {}
impl Calls for Wrong {}

/// Errors that no call shows by itself, since each remembers another.
#[test]
fn a_date_taken_elsewhere_is_noticed() {
    for (wrong, session) in [
        (Wrong::AtFetch, OFF_AND_ON_IN_MOVE),
        (Wrong::AtFetch, OFF_AND_ON_IN_WRITE_BACK),
        (Wrong::AtStart, OFF_AND_ON_IN_WRITE_BACK),
        (Wrong::SinceReset, RESET_BETWEEN),
    ] {
        assert!(dated_otherwise(&wrong).contains(&session), "{session}");
    }
}
