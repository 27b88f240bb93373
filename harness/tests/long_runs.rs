//! Long runs, by the model and by the library. Every figure is worked out from
//! the paper here, not taken from the model.

use harness::call::{parties, Call, Lent, Party, Told};
use harness::firmware::{Firmware, Ran};
use harness::model::{
    descriptor_control, offset, Descriptor, Mode, Phase, Reason, RECORD_SIZE, REPORT_SIZE,
};
use harness::samples::{self, record};

const FULL: usize = 65_536;
/// The highest base of a full window, so that its end is 2^32.
const TOP: u32 = 0xFFFF_0000;
const BASE: u32 = 0x0002_0000;
const RUN: u32 = 0x20;
const OWNED: u8 = descriptor_control::OWNED_BY_HW;

const MEMORY_TO_MEMORY: u32 = 0;
const MEMORY_TO_STREAM: u32 = 1;
const STREAM_TO_MEMORY: u32 = 2;

/// Beats without EOP and without errors, with data that tells its place.
fn plain_beats(count: usize) -> Vec<u16> {
    (0..count).map(|place| u16::from(data(place))).collect()
}

fn data(place: usize) -> u8 {
    (place * 7 + place / 256) as u8
}

/// Starts a core that has one descriptor, and so needs room for one record.
fn started(core: &mut Firmware, pointer: u32) {
    core.lend_records(1);
    core.write(offset::NEXT_DESCRIPTOR_POINTER, pointer);
    core.write(offset::CONTROL, RUN);
}

fn ended(steps: u32, taken: u32, used: u32) -> Ran {
    Ran {
        reason: Reason::Ended as u16,
        steps,
        taken,
        made: Vec::new(),
        used,
    }
}

/// Length 0 takes 65,535 beats, not one more: the last of them stays at the fixed
/// destination. Rest, Fetch, the bytes, WriteBack and the Fetch that ends.
#[test]
fn length_zero_takes_65_535_beats_without_eop() {
    let fields = Descriptor {
        destination: BASE + 64,
        next: BASE + 32,
        control: OWNED | descriptor_control::WRITE_FIXED_ADDRESS,
        ..Descriptor::default()
    };
    for party in parties() {
        let mut core = Firmware::new(party.as_ref(), STREAM_TO_MEMORY, BASE, 128);
        core.build(BASE, &fields);
        started(&mut core, BASE);
        let ran = core.run(&plain_beats(65_540), 0, u32::MAX);
        assert_eq!(ran, ended(65_539, 65_535, 1), "{}", party.name());
        assert_eq!(core.records(), [record(1, BASE, [0xFF, 0xFF, 0, 0])]);
        assert_eq!(core.bytes(BASE + 28, 4), [0xFF, 0xFF, 0, 0x04]);
        assert_eq!(core.bytes(BASE + 64, 2), [data(65_534), 0]);
        assert_eq!(core.read(offset::STATUS), 0x1C);
    }
}

/// The same in slices of the budget, each with only the beats that are left.
#[test]
fn slices_of_the_budget_come_to_the_same_end() {
    let fields = Descriptor {
        destination: BASE + 1,
        next: BASE,
        control: OWNED,
        ..Descriptor::default()
    };
    for party in parties() {
        let beats = plain_beats(65_535);
        let core = || {
            let mut core = Firmware::new(party.as_ref(), STREAM_TO_MEMORY, BASE, FULL);
            core.build(BASE, &fields);
            started(&mut core, BASE);
            core
        };
        let (mut whole, mut sliced) = (core(), core());
        let at_once = whole.run(&beats, 0, u32::MAX);
        let (mut steps, mut taken) = (0, 0);
        let reason = loop {
            let ran = sliced.run(&beats[taken..], 0, 9_973);
            steps += ran.steps;
            taken += ran.taken as usize;
            if ran.reason != Reason::Budget as u16 {
                break ran.reason;
            }
        };
        let told = (at_once.reason, at_once.steps, at_once.taken as usize);
        assert_eq!((reason, steps, taken), told, "{}", party.name());
        assert_same(&sliced, &whole);
    }
}

/// Two cores have come to the same end.
fn assert_same(core: &Firmware, other: &Firmware) {
    assert_eq!(core.image, other.image);
    assert!(core.memory == other.memory);
    assert!(core.records() == other.records());
}

/// The full window at the top of the bus, with this one descriptor at its begin, and
/// as many beats as one descriptor can take.
fn streamed<'a>(party: &'a dyn Party, fields: &Descriptor) -> (Firmware<'a>, Ran) {
    let mut core = Firmware::new(party, STREAM_TO_MEMORY, TOP, FULL);
    core.build(TOP, fields);
    started(&mut core, TOP);
    let ran = core.run(&plain_beats(65_535), 0, u32::MAX);
    (core, ran)
}

/// A stream over the full window but its first byte, and so over its own
/// descriptor: what is written back was kept, not read again. It goes over the
/// chain's end too, which was read ahead as it was.
#[test]
fn a_full_window_is_filled() {
    let fields = Descriptor {
        source: 0x1234_56C9,
        destination: TOP + 1,
        next: TOP + 32,
        control: OWNED | 0x28,
        ..Descriptor::default()
    };
    for party in parties() {
        let (core, ran) = streamed(party.as_ref(), &fields);
        assert_eq!(ran, ended(65_539, 65_535, 1), "{}", party.name());
        assert_eq!(core.records(), [record(1, TOP, [0xFF, 0xFF, 0, 0])]);
        let mut expected = vec![0xC9];
        expected.extend((0..FULL - 1).map(data));
        expected[28..32].copy_from_slice(&[0xFF, 0xFF, 0, 0x28]);
        assert!(core.memory == expected);
    }
}

/// The window is too short for the bytes: the fault is at its end, 2^32, which is
/// 0 modulo 2^32, and the beat that met it is not taken.
#[test]
fn a_long_descriptor_faults_at_the_end_of_the_bus() {
    let fields = Descriptor {
        destination: TOP + 32,
        control: OWNED,
        ..Descriptor::default()
    };
    for party in parties() {
        let (core, ran) = streamed(party.as_ref(), &fields);
        let found = (ran.reason, ran.steps, ran.taken, core.fault());
        let faulted = Reason::Faulted as u16;
        assert_eq!(
            found,
            (faulted, 65_507, 65_504, (14, 0)),
            "{}",
            party.name()
        );
        assert!(core.records().is_empty());
        assert_eq!(core.bytes(TOP + 28, 4), [0, 0, 0, 0x80]);
        assert_eq!(core.bytes(u32::MAX, 1), [data(65_503)]);
    }
}

const CHAIN: u32 = 2_047;

/// Every third descriptor ends at its fifth byte, by EOP.
fn ends_early(number: u32) -> bool {
    number.is_multiple_of(3)
}

fn bytes_of(number: u32) -> u8 {
    if ends_early(number) {
        5
    } else {
        32
    }
}

fn chain_beats() -> Vec<u16> {
    let mut beats = Vec::new();
    for number in 0..CHAIN {
        let mut part = plain_beats(usize::from(bytes_of(number)));
        if ends_early(number) {
            part[4] |= 0x0100;
        }
        beats.extend(part);
    }
    beats
}

/// A full window of 2,047 descriptors that share the last 32 bytes. The last one
/// leads to the first, which is done by then, so the chain ends.
fn started_chain(party: &dyn Party) -> Firmware<'_> {
    let mut core = Firmware::new(party, STREAM_TO_MEMORY, TOP, FULL);
    for number in 0..CHAIN {
        let fields = Descriptor {
            destination: TOP + 32 * CHAIN,
            next: TOP + 32 * ((number + 1) % CHAIN),
            length: 32,
            control: OWNED,
            ..Descriptor::default()
        };
        core.build(TOP + 32 * number, &fields);
    }
    core.write(offset::NEXT_DESCRIPTOR_POINTER, TOP);
    core.write(offset::CONTROL, RUN | 0xFF00);
    core
}

#[test]
fn a_chain_of_2047_descriptors_is_done() {
    let beats = chain_beats();
    for party in parties() {
        let mut core = started_chain(party.as_ref());
        core.lend_records(CHAIN as usize);
        let ran = core.run(&beats, 0, u32::MAX);
        let taken = beats.len() as u32;
        let expected = ended(2 + 2 * CHAIN + taken, taken, CHAIN);
        assert_eq!(ran, expected, "{}", party.name());
        for (number, found) in (0..CHAIN).zip(core.records()) {
            let address = TOP + 32 * number;
            let done = core.descriptor(address);
            let (bytes, eop) = (bytes_of(number), u8::from(ends_early(number)));
            let mark = (done.actual, done.status, done.control);
            assert_eq!(mark, (u16::from(bytes), 0, 0), "descriptor {number}");
            assert_eq!(*found, record(1, address, [0, bytes, 0, eop]));
        }
        // MAX_DESC_PROCESSED 255 was reached eight times.
        assert_eq!(u32::from(core.image[3]), CHAIN - 8 * 255);
        assert_eq!(core.read(offset::STATUS), 0x1E);
    }
}

/// The same chain, lent room for 100 records at a time: it stops at each full
/// ledger, 20 times, and comes to the same end.
#[test]
fn a_chain_goes_on_behind_each_full_ledger() {
    let beats = chain_beats();
    for party in parties() {
        let mut core = started_chain(party.as_ref());
        let mut whole = core.clone();
        whole.lend_records(CHAIN as usize);
        let at_once = whole.run(&beats, 0, u32::MAX);
        let (mut steps, mut taken, mut full) = (0, 0, 0);
        let last = loop {
            core.lend_records(100);
            let ran = core.run(&beats[taken..], 0, u32::MAX);
            steps += ran.steps;
            taken += ran.taken as usize;
            if ran.reason != Reason::LedgerFull as u16 {
                break ran;
            }
            full += 1;
            assert_eq!(ran.used, 100 * full, "{}", party.name());
        };
        assert_eq!((full, steps), (CHAIN / 100, at_once.steps));
        assert_eq!((last.reason, last.used), (at_once.reason, CHAIN));
        assert_same(&core, &whole);
    }
}

/// So many records are 8 bytes more than 4 GiB.
const RECORDS_OF_4_GIB: u32 = 357_913_942;

/// A record finds its place behind more bytes than 32 bits count, which take no
/// memory where nothing writes them. The bridge could not carry them.
#[test]
fn a_record_is_appended_beyond_4_gib() {
    let length = RECORD_SIZE * (RECORDS_OF_4_GIB as usize + 1);
    if cfg!(have_bridge) || Vec::<u8>::new().try_reserve_exact(length).is_err() {
        println!("not tried: {length} bytes cannot be lent here");
        return;
    }
    for party in parties() {
        let image = samples::image(Mode::StreamToMemory, Phase::WriteBack);
        let mut call = Call::Run {
            image: Lent::from(image.pack().to_vec()),
            window: Lent::zeros(samples::LENGTH),
            beats: Lent::zeros(0),
            out: Lent::zeros(0),
            ledger: Lent::zeros(length),
            used: RECORDS_OF_4_GIB,
            budget: 1,
            report: Lent::zeros(REPORT_SIZE),
        };
        assert_eq!(party.answer(&mut call), 0, "{}", party.name());
        let Call::Run { ledger, report, .. } = call else {
            unreachable!("a call stays what it is");
        };
        assert_eq!(Told::of(&report).used, RECORDS_OF_4_GIB + 1);
        assert_eq!(
            ledger[length - RECORD_SIZE..],
            record(0, 4096, [0, 4, 0, 0])
        );
        // Where 32 bits would have led.
        assert_eq!(ledger[..20], [0; 20]);
        assert!(ledger.canaries_live());
    }
}

/// Fills a window with the data that tells its place, from the first free byte.
fn fill(core: &mut Firmware) {
    for place in 32..core.memory.len() {
        core.memory[place] = data(place);
    }
}

/// Data that reads as a descriptor which is not owned: its control byte is at place
/// 75, and 75 times 7 is 2 times 256 and 13.
const NOT_OWNED: u32 = BASE + 44;

/// Half of the window is copied to the other half, by a descriptor that leads
/// there: the figures of a core with so many records lent.
fn copy_half(party: &dyn Party, next: u32, records: usize) -> (Ran, Vec<[u8; RECORD_SIZE]>) {
    let half = (FULL - 32) / 2;
    let fields = Descriptor {
        source: BASE + 32,
        destination: BASE + 32 + half as u32,
        next,
        length: half as u16,
        control: OWNED,
        ..Descriptor::default()
    };
    let mut core = Firmware::new(party, MEMORY_TO_MEMORY, BASE, FULL);
    core.build(BASE, &fields);
    fill(&mut core);
    started(&mut core, BASE);
    core.lend_records(records - 1);
    let ran = core.run(&[], 0, u32::MAX);
    let (source, copy) = core.memory[32..].split_at(half);
    assert!(source == copy && source[1] == data(33));
    (ran, core.records().to_vec())
}

#[test]
fn half_a_window_is_copied() {
    for party in parties() {
        let found = copy_half(party.as_ref(), NOT_OWNED, 1);
        let record = record(1, BASE, [0x7F, 0xF0, 0, 0]);
        let due = (ended(32_756, 0, 1), vec![record]);
        assert_eq!(found, due, "{}", party.name());
    }
}

/// "An unparked descriptor that links to itself now runs twice before Ended." A
/// step out of Rest, a Fetch, 32,752 bytes and a WriteBack each time, and a Fetch.
#[test]
fn half_a_window_is_copied_twice() {
    for party in parties() {
        let found = copy_half(party.as_ref(), BASE, 2);
        let record = record(1, BASE, [0x7F, 0xF0, 0, 0]);
        let due = (ended(65_510, 0, 2), vec![record; 2]);
        assert_eq!(found, due, "{}", party.name());
    }
}

/// A copy one byte on reads what it has just written: the first byte fills all. That
/// byte is 0xE0, and would be owned; what follows was read before.
#[test]
fn an_overlapping_copy_repeats_its_first_byte() {
    let length = FULL - 33;
    let fields = Descriptor {
        source: BASE + 32,
        destination: BASE + 33,
        next: NOT_OWNED,
        length: length as u16,
        control: OWNED,
        ..Descriptor::default()
    };
    for party in parties() {
        let mut core = Firmware::new(party.as_ref(), MEMORY_TO_MEMORY, BASE, FULL);
        core.build(BASE, &fields);
        fill(&mut core);
        started(&mut core, BASE);
        let ran = core.run(&[], 0, u32::MAX);
        assert_eq!(ran, ended(4 + length as u32, 0, 1), "{}", party.name());
        assert!(core.memory[32..].iter().all(|&byte| byte == data(32)));
    }
}

/// The longest descriptor of mode 1: SOP on its first beat, EOP on its last.
#[test]
fn a_full_window_is_streamed_out() {
    let fields = Descriptor {
        source: BASE,
        next: NOT_OWNED,
        length: 65_535,
        control: OWNED | descriptor_control::GENERATE_EOP | descriptor_control::WRITE_FIXED_ADDRESS,
        ..Descriptor::default()
    };
    for party in parties() {
        let mut core = Firmware::new(party.as_ref(), MEMORY_TO_STREAM, BASE, FULL);
        core.build(BASE, &fields);
        fill(&mut core);
        started(&mut core, BASE);
        let before = core.memory.clone();
        let ran = core.run(&[], 65_540, u32::MAX);
        let mut expected: Vec<u16> = before[..65_535].iter().map(|&b| u16::from(b)).collect();
        expected[0] |= 0x0200;
        expected[65_534] |= 0x0100;
        assert_eq!((ran.reason, ran.steps), (Reason::Ended as u16, 65_539));
        assert!(ran.made == expected, "{}", party.name());
        assert_eq!(core.records(), [record(1, BASE, [0xFF, 0xFF, 0, 0])]);
    }
}
