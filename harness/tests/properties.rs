//! What holds of every random call, and of random calls in a row, by the model and
//! by the library.

use harness::call::{parties, Call, Lent, Party, Told};
use harness::compare::{ask, drive, Answer};
use harness::firmware::{Firmware, Ran};
use harness::gen::Rng;
use harness::model::{
    control, descriptor_control, offset, Descriptor, Descriptors, Fault, Image, Images, Kept,
    Ledger, Machine, Paper, Ports, Reason, Steps, DESCRIPTOR_SIZE, IMAGE_SIZE, RECORD_SIZE,
};
use std::convert::Infallible;

const CALLS: u64 = 100_000;

/// Shows every random call with its answer.
fn for_calls(party: &dyn Party, seed: u64, mut show: impl FnMut(&Call, &Answer)) {
    let outcome: Result<(), Infallible> = drive(party, seed, CALLS, &mut |call, answer| {
        show(call, answer);
        Ok(())
    });
    let Ok(()) = outcome;
}

fn image_of(call: &Call) -> Option<[u8; IMAGE_SIZE]> {
    (&**call.image()?).try_into().ok()
}

/// "Every machine met in use, from a fresh or a loaded one, saves to an image that
/// loads back as it."
fn check_round_trip(machine: &Machine) {
    let bytes = Paper.save(machine);
    assert_eq!(Paper.load(&bytes), Ok(*machine), "{machine:?}");
}

/// Every machine met between the steps of a run, not only at its end.
#[test]
fn every_machine_reached_saves_and_loads() {
    let mut machines = 0;
    for_calls(&Paper, 101, |call, answer| {
        if answer.returned != 0 {
            return;
        }
        if let Some(Ok(machine)) = image_of(&answer.after).map(|image| Paper.load(&image)) {
            check_round_trip(&machine);
        }
        machines += check_between_steps(call);
    });
    assert!(machines > 80_000, "only {machines} machines");
}

/// Checks the machines between the steps of a run, and tells how many.
fn check_between_steps(call: &Call) -> u32 {
    let Call::Run {
        window,
        beats,
        out,
        ledger,
        used,
        ..
    } = call
    else {
        return 0;
    };
    let loaded = image_of(call).map(|image| Paper.load(&image));
    let Some(Ok(mut machine)) = loaded else {
        panic!("a run was done on\n{call}");
    };
    let (mut memory, mut out, mut ledger) = (window.to_vec(), out.to_vec(), ledger.to_vec());
    let ledger = Ledger::new(&mut ledger, *used);
    let mut ports = Ports::new(&mut memory, beats, &mut out, ledger);
    let mut machines = 0;
    while machines < 300 && Paper.step(&mut machine, &mut ports).is_ok() {
        machines += 1;
        check_round_trip(&machine);
    }
    machines
}

/// Whatever call is done, the image it leaves loads; whatever is refused changes
/// nothing.
#[test]
fn done_calls_leave_images_and_refused_calls_nothing() {
    for party in parties() {
        for_calls(party.as_ref(), 102, |call, answer| {
            if answer.returned != 0 {
                assert!(answer.after == *call, "changed by a refused\n{call}");
            } else if let Some(image) = image_of(&answer.after) {
                assert!(Paper.load(&image).is_ok(), "broken by\n{call}");
            }
        });
    }
}

/// "Records are appended .. and bytes past them stay": the used ones stay too. Each
/// appended one is of the run that the image tells.
#[test]
fn all_of_a_ledger_stays_but_the_records_appended() {
    for party in parties() {
        let mut appended = 0;
        for_calls(party.as_ref(), 108, |call, answer| {
            if answer.returned == 0 {
                appended += check_appended(party.as_ref(), call, &answer.after);
            }
        });
        assert!(appended > 4_000, "only {appended} records");
    }
}

/// Checks the ledger that a call has left, and tells the records appended to it.
fn check_appended(party: &dyn Party, call: &Call, after: &Call) -> u32 {
    let Call::Run { ledger, used, .. } = call else {
        return 0;
    };
    let Call::Run {
        ledger: left,
        report,
        ..
    } = after
    else {
        unreachable!("a call stays what it is");
    };
    let told = Told::of(report).used;
    let [begin, end] = [*used, told].map(|records| records as usize * RECORD_SIZE);
    let stays = left[..begin] == ledger[..begin] && left[end..] == ledger[end..];
    assert!(stays, "{} changed more in\n{call}", party.name());
    let run = image_of(call).map(|image| Image::unpack(&image).run_number);
    let dated = records_in(&left[begin..end]).all(|record| Some(run_of(record)) == run);
    assert!(dated, "{} dated otherwise in\n{call}", party.name());
    told - used
}

fn records_in(bytes: &[u8]) -> impl Iterator<Item = &[u8; RECORD_SIZE]> {
    bytes.as_chunks().0.iter()
}

fn run_of(record: &[u8; RECORD_SIZE]) -> u32 {
    u32::from_be_bytes([record[0], record[1], record[2], record[3]])
}

/// A run of a + b steps is a run of a steps and then one of b, with what the first
/// left of the streams and of the ledger.
#[test]
fn a_run_may_be_taken_in_two() {
    let mut rng = Rng::new(103);
    for party in parties() {
        for_calls(party.as_ref(), 104, |call, answer| {
            let Call::Run { budget, .. } = call else {
                return;
            };
            if answer.returned != 0 {
                return;
            }
            let first_budget = rng.below(u64::from(*budget).min(40) + 1) as u32;
            let halves = in_two(party.as_ref(), call, first_budget);
            assert!(answer.after == halves, "{} on\n{call}", party.name());
        });
    }
}

/// The same run in two calls, put together as if it had been one.
fn in_two(party: &dyn Party, call: &Call, first_budget: u32) -> Call {
    let &Call::Run { budget, used, .. } = call else {
        unreachable!("the call is a run");
    };
    let mut together = call.clone();
    let mut told = Parts { sums: [0; 3], used };
    for part in [first_budget, budget - first_budget] {
        let answer = ask(party, &rest_of(&together, &told, part));
        assert_eq!(answer.returned, 0, "a part was refused of\n{call}");
        add_part(&mut together, &answer.after, &mut told);
    }
    together
}

/// What the reports of the parts told: steps, beats taken and beats made in sum,
/// and the records used by now.
struct Parts {
    sums: [u32; 3],
    used: u32,
}

impl Parts {
    fn taken(&self) -> usize {
        self.sums[1] as usize
    }

    fn made(&self) -> usize {
        self.sums[2] as usize
    }
}

/// A run with what is left of the streams, and the number of records handed on.
fn rest_of(together: &Call, told: &Parts, part: u32) -> Call {
    let mut rest = together.clone();
    if let Call::Run {
        beats,
        out,
        used,
        budget,
        ..
    } = &mut rest
    {
        *beats = Lent::from(&beats[2 * told.taken()..]);
        *out = Lent::from(&out[2 * told.made()..]);
        *used = told.used;
        *budget = part;
    }
    rest
}

/// Adds what a part has left to what the parts before it have.
fn add_part(together: &mut Call, part: &Call, told: &mut Parts) {
    let (
        Call::Run {
            image,
            window,
            out,
            ledger,
            report,
            ..
        },
        Call::Run {
            image: image_after,
            window: window_after,
            out: out_after,
            ledger: ledger_after,
            report: report_after,
            ..
        },
    ) = (together, part)
    else {
        unreachable!("both are runs");
    };
    image.copy_from_slice(image_after);
    window.copy_from_slice(window_after);
    out[2 * told.made()..].copy_from_slice(out_after);
    ledger.copy_from_slice(ledger_after);
    report.copy_from_slice(report_after);
    let part = Told::of(report_after);
    told.used = part.used;
    for (place, number) in [part.steps, part.taken, part.made].into_iter().enumerate() {
        told.sums[place] += number;
        report[2 + 4 * place..][..4].copy_from_slice(&told.sums[place].to_be_bytes());
    }
}

/// "An image loads exactly when it keeps these rules, and saved again gives the
/// same bytes": any bytes at all.
#[test]
fn any_image_that_loads_saves_the_same() {
    let mut rng = Rng::new(105);
    let mut loaded = 0;
    for_calls(&Paper, 106, |call, _| {
        let Some(mut bytes) = image_of(call) else {
            return;
        };
        if rng.chance(50) {
            bytes[rng.below(IMAGE_SIZE as u64) as usize] ^= 1 << rng.below(8);
        }
        assert_eq!(Image::unpack(&bytes).pack(), bytes);
        if let Ok(machine) = Paper.load(&bytes) {
            loaded += 1;
            assert_eq!(Paper.save(&machine), bytes);
        }
    });
    assert!(loaded > 10_000, "only {loaded} loaded");
}

/// "Read after build gives the same fields; build after read gives the same bytes
/// exactly when reserved, actual and status bytes were zero."
#[test]
fn build_and_read_are_inverse() {
    let mut rng = Rng::new(107);
    for party in parties() {
        for zero_unnamed in [true, false].repeat(500) {
            let mut core = Firmware::new(party.as_ref(), 0, 4096, 96);
            core.memory = rng.bytes(96);
            if zero_unnamed {
                for unnamed in [4..8, 12..16, 20..24, 26..31] {
                    core.memory[32..][unnamed].fill(0);
                }
            }
            let before = core.memory.clone();
            let read = core.descriptor(4128);
            core.build(4128, &read);
            assert_eq!(core.memory == before, zero_unnamed, "{}", party.name());
            assert_eq!(core.memory[..32], before[..32]);
            assert_eq!(core.memory[64..], before[64..]);
            let built = Descriptor {
                actual: 0,
                status: 0,
                ..read
            };
            assert_eq!(core.descriptor(4128), built);
        }
    }
}

/// The layout by hand: little-endian, at the paper's places.
#[test]
fn the_descriptor_layout_is_the_papers() {
    let mut bytes = [0xFF; DESCRIPTOR_SIZE];
    let fields = Descriptor {
        source: 0x0403_0201,
        destination: 0x0C0B_0A09,
        next: 0x1413_1211,
        length: 0x1A19,
        control: 0x20,
        ..Descriptor::default()
    };
    Paper.build(&mut bytes, &fields);
    let expected = [
        1, 2, 3, 4, 0, 0, 0, 0, 9, 10, 11, 12, 0, 0, 0, 0, 17, 18, 19, 20, 0, 0, 0, 0, 25, 26, 0,
        0, 0, 0, 0, 32,
    ];
    assert_eq!(bytes, expected);
    bytes[28..31].copy_from_slice(&[0x1D, 0x1E, 0x1F]);
    let read = Paper.read_fields(&bytes);
    assert_eq!((read.actual, read.status), (0x1E1D, 0x1F));
}

const BASE: u32 = 4096;
const SLOTS: u32 = 8;
const WINDOW: usize = 512;

/// A core of mode 2, from fresh on, with an account of the beats it has taken and
/// of its runs.
struct Account<'party> {
    core: Firmware<'party>,
    taken: u32,
    /// The bytes of descriptors that a reset or fault 14 has dropped.
    abandoned: u32,
    /// How often RUN has gone from 0 to 1.
    runs: u32,
    /// Whether it last did so with a descriptor in hand.
    rose_in_hand: bool,
    met: Met,
}

/// How often a core has met what the account depends on.
#[derive(Debug, Default)]
struct Met {
    records: usize,
    full_ledgers: u32,
    resets: u32,
    faults: u32,
    /// Records of a run that began when their descriptor was in hand.
    redated: usize,
    /// .. of a run after a reset that dropped a descriptor.
    after_reset: usize,
}

impl Account<'_> {
    fn of_fresh(party: &dyn Party) -> Account<'_> {
        Account {
            core: Firmware::new(party, 2, BASE, WINDOW),
            taken: 0,
            abandoned: 0,
            runs: 0,
            rose_in_hand: false,
            met: Met::default(),
        }
    }

    /// Writes a register. A write of SW_RESET that finds it 1 drops what is in
    /// hand; any other that has RUN 1 where it was 0 begins a run.
    fn write(&mut self, offset: u32, value: u32) {
        let before = image_in(&self.core);
        let sets = |bit| offset == offset::CONTROL && value & bit != 0;
        self.core.write(offset, value);
        if sets(control::SW_RESET) && before.armed {
            self.abandoned += u32::from(before.kept.moved);
            self.met.resets += u32::from(before.kept.moved > 0);
            self.rose_in_hand = false;
        } else if sets(control::RUN) && before.control & control::RUN == 0 {
            self.runs += 1;
            self.rose_in_hand = before.kept != Kept::default();
        }
    }

    /// Writes SW_RESET twice, so that it is found 1.
    fn reset(&mut self) {
        self.write(offset::CONTROL, control::SW_RESET);
        self.write(offset::CONTROL, control::SW_RESET);
    }

    /// Begins anew at this descriptor, from wherever RUN can lead away.
    fn start(&mut self, pointer: u32, control: u32) {
        self.write(offset::CONTROL, 0);
        self.write(offset::NEXT_DESCRIPTOR_POINTER, pointer);
        self.write(offset::CONTROL, control);
    }

    /// Runs with these beats. Fault 14 drops what was in hand before it: the same
    /// run shows that when its last step, the fault, is left out.
    fn run(&mut self, beats: &[u16], budget: u32) {
        let mut before_fault = self.core.clone();
        let recorded = self.core.records().len();
        let Ran {
            reason,
            steps,
            taken,
            ..
        } = self.core.run(beats, 0, budget);
        self.taken += taken;
        self.met.full_ledgers += u32::from(reason == Reason::LedgerFull as u16);
        if steps > 0 && self.core.fault().0 == Fault::DESTINATION_OUTSIDE {
            before_fault.run(beats, 0, steps - 1);
            let dropped = image_in(&before_fault).kept.moved;
            self.abandoned += u32::from(dropped);
            self.met.faults += u32::from(dropped > 0);
        }
        self.check_dates(recorded);
    }

    /// The records behind so many are of this run.
    fn check_dates(&mut self, recorded: usize) {
        let new = &self.core.records()[recorded..];
        assert!(new.iter().all(|record| run_of(record) == self.runs));
        if new.is_empty() {
            return;
        }
        self.met.redated += usize::from(self.rose_in_hand);
        self.rose_in_hand = false;
        if self.met.resets > 0 {
            self.met.after_reset += new.len();
        }
    }

    /// "its bytes sum to the beats taken less those of descriptors not written
    /// back (in hand, or abandoned by a reset or fault)"
    fn check(&self, party: &str) {
        let actual = |record: &[u8; RECORD_SIZE]| u32::from(record[8]) << 8 | u32::from(record[9]);
        let recorded: u32 = self.core.records().iter().map(actual).sum();
        let in_hand = u32::from(image_in(&self.core).kept.moved);
        let parts = [recorded, in_hand, self.abandoned];
        assert_eq!(parts.iter().sum::<u32>(), self.taken, "{party}: {parts:?}");
    }
}

fn image_in(core: &Firmware) -> Image {
    let bytes = core.image.as_slice().try_into();
    Image::unpack(bytes.expect("an image has its size"))
}

/// Lays descriptors of any kind from the start of the window, and any bytes behind
/// them.
fn rewrite_window(core: &mut Firmware, rng: &mut Rng) {
    core.memory = rng.bytes(WINDOW);
    for slot in 0..SLOTS {
        let owned = descriptor_control::OWNED_BY_HW * u8::from(rng.chance(80));
        let fixed = descriptor_control::WRITE_FIXED_ADDRESS * u8::from(rng.chance(25));
        let near_the_end = BASE + WINDOW as u32 - rng.below(12) as u32;
        let inside = BASE + rng.below(WINDOW as u64 - 40) as u32;
        let fields = Descriptor {
            destination: rng.pick(&[inside, inside, inside, near_the_end]),
            next: slot_address(rng),
            length: rng.pick(&[0, 1, 2, 5, 9, 20]),
            control: owned | fixed,
            ..Descriptor::default()
        };
        core.build(BASE + slot * DESCRIPTOR_SIZE as u32, &fields);
    }
}

fn slot_address(rng: &mut Rng) -> u32 {
    BASE + rng.below(u64::from(SLOTS)) as u32 * DESCRIPTOR_SIZE as u32
}

/// Control with each of these bits now and then.
fn some_control(rng: &mut Rng) -> u32 {
    let bits = [
        (85, control::RUN),
        (25, control::SW_RESET),
        (30, control::PARK),
        (20, control::STOP_DMA_ER),
    ];
    let taken = bits.map(|(percent, bit)| bit * u32::from(rng.chance(percent)));
    taken.iter().sum()
}

/// Data, with EOP or errors now and then.
fn some_beats(rng: &mut Rng) -> Vec<u16> {
    let count = rng.below(40);
    let mut beat = |_| {
        let errors = (rng.number() as u16 & 0xFE00) * u16::from(rng.chance(5));
        errors | u16::from(rng.chance(8)) << 8 | rng.below(256) as u16
    };
    (0..count).map(&mut beat).collect()
}

/// One turn of a session: some writes or a run, now and then on another window.
fn take_turn(account: &mut Account, rng: &mut Rng) {
    if rng.chance(15) {
        rewrite_window(&mut account.core, rng);
    }
    match rng.below(20) {
        0 => account.write(offset::STATUS, rng.number() as u32),
        1..=2 => account.write(offset::CONTROL, some_control(rng)),
        3..=4 => account.reset(),
        5..=8 => account.start(slot_address(rng), some_control(rng)),
        _ => {
            account.core.lend_records(rng.pick(&[0, 0, 1, 2]));
            let budget = rng.pick(&[1, 5, 30, u32::MAX]);
            account.run(&some_beats(rng), budget);
        }
    }
}

/// The sum law: from fresh in mode 2, the ledger empty at first and each number
/// handed on, no beat is lost or told twice. Each record is of the run in which it
/// was made.
#[test]
fn the_ledger_sums_to_the_beats_taken() {
    for party in parties() {
        let mut rng = Rng::new(109);
        let mut met = Met::default();
        for _ in 0..1_000 {
            let mut account = Account::of_fresh(party.as_ref());
            rewrite_window(&mut account.core, &mut rng);
            for _ in 0..50 {
                take_turn(&mut account, &mut rng);
                account.check(party.name());
            }
            met.records += account.core.records().len();
            met.full_ledgers += account.met.full_ledgers;
            met.resets += account.met.resets;
            met.faults += account.met.faults;
            met.redated += account.met.redated;
            met.after_reset += account.met.after_reset;
        }
        let enough = met.records > 4_000 && met.full_ledgers > 500;
        assert!(enough && met.resets > 250 && met.faults > 250, "{met:?}");
        assert!(met.redated > 100 && met.after_reset > 500, "{met:?}");
    }
}
