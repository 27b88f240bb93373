//! How fast the library is over its C calls, against four others: the harness's
//! model, which takes step by step; its bulk model, which is written for speed;
//! the moves of a run alone, by loops written by hand, which is the limit; and a
//! plain copy of so many bytes.
//!
//! All are built for release and make the same calls on the same bytes in the same
//! run, in turns; a call's bytes are laid anew, and touched, before it is timed. A
//! time is the least of many, so that what else the machine does counts little.
//! The ratios are printed beside what is aimed at, with a word where that is
//! missed; nothing fails by it.

mod chains;
mod choices;
mod findings;
mod rows;
mod timers;

use harness::bulk::Bulk;
use harness::call::{libraries, Call, Lent, Party, Told};
use harness::firmware::{stream, Firmware};
use harness::limit::Limit;
use harness::model::{
    control, descriptor_control, offset, Descriptor, Paper, Reason, DESCRIPTOR_SIZE, RECORD_SIZE,
    REPORT_SIZE, VALUE_SIZE,
};
use rows::{heading, Rows};
use std::hint::black_box;
use std::process::ExitCode;
use std::time::{Duration, Instant};

const BASE: u32 = 0x1000;
const WINDOW: usize = 65_536;
/// Where bytes are read, in modes 0 and 1.
const SOURCE: u32 = BASE + 1_000;
const OWNED: u8 = descriptor_control::OWNED_BY_HW;
const READ_FIXED: u8 = OWNED | descriptor_control::READ_FIXED_ADDRESS;
const WRITE_FIXED: u8 = OWNED | descriptor_control::WRITE_FIXED_ADDRESS;

/// How long each row of a table is measured, and by how many rounds at the least.
const PATIENCE: Duration = Duration::from_millis(300);
const LEAST_ROUNDS: usize = 9;
/// A call that takes no step is too short to time: so many are made at once. It
/// may take so many times as long as the model's.
const CALLS_AT_ONCE: u32 = 1_000;
const AIM_OF_A_CALL: f64 = 1.2;

/// A run to time.
struct Case {
    name: &'static str,
    /// How many times as fast as the model the library is to be.
    aim: f64,
    /// .. and as the bulk model, where that is aimed at.
    bulk_aim: Option<f64>,
    call: Call,
    copy: PlainCopy,
}

/// So many bytes, as a plain loop copies them. A beat is two bytes, of which the
/// second is data.
struct PlainCopy {
    mode: u32,
    from: Vec<u8>,
    to: Vec<u8>,
}

impl PlainCopy {
    fn new(mode: u32, bytes: usize) -> PlainCopy {
        let [from, to] = [[1, 1], [1, 2], [2, 1]][mode as usize];
        PlainCopy {
            mode,
            from: vec![0x55; bytes * from],
            to: vec![0; bytes * to],
        }
    }

    fn time(&self) -> Duration {
        let (from, mut to) = (self.from.clone(), self.to.clone());
        let started = Instant::now();
        match self.mode {
            0 => copy::<1, 1>(&from, &mut to),
            1 => copy::<1, 2>(&from, &mut to),
            _ => copy::<2, 1>(&from, &mut to),
        }
        started.elapsed()
    }
}

/// The last of every `FROM` bytes goes to the last of every `TO`.
#[inline(never)]
fn copy<const FROM: usize, const TO: usize>(from: &[u8], to: &mut [u8]) {
    let bytes = from.chunks_exact(FROM);
    for (place, byte) in to.chunks_exact_mut(TO).zip(bytes) {
        place[TO - 1] = byte[FROM - 1];
    }
}

/// The least time of each, taken in turns, in seconds.
fn least<const COUNT: usize>(turns: [&dyn Fn() -> Duration; COUNT]) -> [f64; COUNT] {
    let mut times = [Duration::MAX; COUNT];
    let started = Instant::now();
    let mut rounds = 0;
    while rounds < LEAST_ROUNDS || started.elapsed() < PATIENCE {
        for (time, turn) in times.iter_mut().zip(turns) {
            *time = turn().min(*time);
        }
        rounds += 1;
    }
    times.map(|time| time.as_secs_f64())
}

/// The time in which a call is answered so many times, on bytes of its own.
fn timed(call: &Call, times: u32, answer: impl Fn(&mut Call)) -> Duration {
    let mut call = call.clone();
    let started = Instant::now();
    for _ in 0..times {
        answer(&mut call);
    }
    started.elapsed()
}

fn timed_party(party: &dyn Party, call: &Call, times: u32) -> Duration {
    timed(call, times, |call| {
        party.answer(call);
    })
}

/// The least times of library and model, in seconds a call.
fn least_of_both(library: &dyn Party, call: &Call, times: u32) -> [f64; 2] {
    let ours = || timed_party(library, call, times);
    let models = || timed_party(&Paper, call, times);
    least([&ours, &models]).map(|seconds| seconds / f64::from(times))
}

/// The bytes of a stream: no sample has its upper bit set, so that no place where
/// samples land looks like an owned descriptor.
fn samples(count: usize, mark: impl Fn(usize) -> u16) -> Vec<u16> {
    let sample = |number: usize| (number % 128) as u16 | mark(number);
    (0..count).map(sample).collect()
}

fn no_mark(_number: usize) -> u16 {
    0
}

/// What a run is lent beside its window: beats, and room for so many beats and
/// records.
struct Lending<'beats> {
    beats: &'beats [u16],
    room: usize,
    records: usize,
}

/// The run of a core that has been pointed at its first descriptor.
fn run(mut core: Firmware, first: u32, control: u32, lending: Lending) -> Call {
    core.write(offset::NEXT_DESCRIPTOR_POINTER, first);
    core.write(offset::CONTROL, control);
    Call::Run {
        image: Lent::from(core.image.as_slice()),
        window: Lent::from(core.memory.as_slice()),
        beats: Lent::from(stream(lending.beats)),
        out: Lent::zeros(2 * lending.room),
        ledger: Lent::zeros(RECORD_SIZE * lending.records),
        used: 0,
        budget: u32::MAX,
        report: Lent::zeros(REPORT_SIZE),
    }
}

/// One descriptor, at the window's end. It leads to the window's first bytes,
/// which are not owned.
fn one(mode: u32, fields: Descriptor, beats: &[u16], room: usize) -> Call {
    let mut core = Firmware::new(&Paper, mode, BASE, WINDOW);
    let place = BASE + (WINDOW - DESCRIPTOR_SIZE) as u32;
    core.build(
        place,
        &Descriptor {
            next: BASE,
            ..fields
        },
    );
    let lending = Lending {
        beats,
        room,
        records: 1,
    };
    run(core, place, control::RUN, lending)
}

/// Stream to memory by one descriptor of 65,535 bytes. They run over the
/// descriptor itself and over the chain's end, which is allowed: both were read
/// before.
fn fill(desc_control: u8, mark: impl Fn(usize) -> u16) -> Call {
    let fields = Descriptor {
        destination: BASE,
        length: 65_535,
        control: desc_control,
        ..Descriptor::default()
    };
    one(2, fields, &samples(65_535, mark), 0)
}

/// From memory, 30,000 bytes.
fn from_memory(mode: u32, desc_control: u8, destination: u32) -> Call {
    let fields = Descriptor {
        source: SOURCE,
        destination,
        length: 30_000,
        control: desc_control,
        ..Descriptor::default()
    };
    one(mode, fields, &[], 30_000)
}

const CHAIN: u32 = 1_000;

/// Stream to memory by 1,000 descriptors of 32 bytes.
fn chain(mark: impl Fn(usize) -> u16) -> Call {
    let mut core = Firmware::new(&Paper, 2, BASE, WINDOW);
    let size = DESCRIPTOR_SIZE as u32;
    for number in 0..CHAIN {
        let fields = Descriptor {
            destination: BASE + (CHAIN + 1) * size + 32 * number,
            next: BASE + size * (number + 1),
            length: 32,
            control: OWNED,
            ..Descriptor::default()
        };
        core.build(BASE + size * number, &fields);
    }
    let lending = Lending {
        beats: &samples(32 * CHAIN as usize, mark),
        room: 0,
        records: CHAIN as usize,
    };
    run(core, BASE, control::RUN, lending)
}

const ENDLESS_LENGTH: u16 = 200;

/// Stream to memory by one descriptor of 200 bytes that is parked and leads to
/// itself, in a window of this length.
fn endless(window: usize, beats: usize) -> Call {
    let mut core = Firmware::new(&Paper, 2, BASE, window);
    let fields = Descriptor {
        destination: BASE + DESCRIPTOR_SIZE as u32,
        next: BASE,
        length: ENDLESS_LENGTH,
        control: OWNED,
        ..Descriptor::default()
    };
    core.build(BASE, &fields);
    let lending = Lending {
        beats: &samples(beats, no_mark),
        room: 0,
        records: beats / usize::from(ENDLESS_LENGTH),
    };
    run(core, BASE, control::RUN | control::PARK, lending)
}

#[rustfmt::skip]
fn cases() -> Vec<Case> {
    let eop_of_each = |number: usize| if number % 32 == 31 { 1 << 8 } else { 0 };
    let error_each_tenth = |number: usize| if number % 10 == 9 { 1 << 9 } else { 0 };
    let (next, far) = (SOURCE + 1, SOURCE + 31_000);
    let case = |name, aim, bulk_aim, call, mode, bytes| Case {
        name, aim, bulk_aim, call, copy: PlainCopy::new(mode, bytes),
    };
    vec![
        case("mode 2, one of 65,535",          5.0, Some(0.8), fill(OWNED, no_mark), 2, 65_535),
        case("mode 2, .. an error each tenth", 3.0, None, fill(OWNED, error_each_tenth), 2, 65_535),
        case("mode 2, .. WRITE_FIXED",         1.0, None, fill(WRITE_FIXED, no_mark), 2, 65_535),
        case("mode 2, 1,000 of 32",            2.0, Some(0.7), chain(no_mark), 2, 32_000),
        case("mode 2, .. an EOP in each",      2.0, None, chain(eop_of_each), 2, 32_000),
        case("mode 0, one of 30,000",          5.0, Some(0.7), from_memory(0, OWNED, far), 0, 30_000),
        case("mode 0, .. READ_FIXED",          1.0, None, from_memory(0, READ_FIXED, far), 0, 30_000),
        case("mode 0, .. WRITE_FIXED",         1.0, None, from_memory(0, WRITE_FIXED, far), 0, 30_000),
        case("mode 0, .. overlapping by one",  1.0, None, from_memory(0, OWNED, next), 0, 30_000),
        case("mode 1, one of 30,000",          5.0, Some(0.7), from_memory(1, OWNED, 0), 1, 30_000),
    ]
}

/// Makes the call by the library and by both models, and gives what it left; all
/// must have done the same.
fn agreed(library: &dyn Party, name: &str, call: &Call) -> Call {
    let [left, others @ ..] = [library, &Paper, &Bulk].map(|party| {
        let mut after = call.clone();
        assert_eq!(party.answer(&mut after), 0, "{name} was refused");
        after
    });
    let same = others.iter().all(|other| *other == left);
    assert!(same, "{name}: library and models differ");
    left
}

/// The steps of a run that went to its end.
fn steps_told(name: &str, ran: &Call) -> u32 {
    let Call::Run { report, .. } = ran else {
        panic!("{name} is no run");
    };
    let told = Told::of(report);
    let full = Reason::LedgerFull as u16;
    assert_ne!(told.reason, full, "{name}: too few records lent");
    told.steps
}

/// The least times of a run, in seconds.
struct Times {
    library: f64,
    model: f64,
    bulk: f64,
    limit: f64,
    copy: f64,
}

impl Times {
    fn of(library: &dyn Party, case: &Case, limit: &Limit) -> Times {
        let call = &case.call;
        let moves = |call: &mut Call| {
            black_box(limit.make(call));
        };
        let [library, model, bulk, limit, copy] = least([
            &|| timed_party(library, call, 1),
            &|| timed_party(&Paper, call, 1),
            &|| timed_party(&Bulk, call, 1),
            &|| timed(call, 1, moves),
            &|| case.copy.time(),
        ]);
        Times {
            library,
            model,
            bulk,
            limit,
            copy,
        }
    }
}

fn compare_runs(library: &dyn Party) {
    println!("Runs, in million steps a second, and how many times as fast as the others\n");
    println!(
        "{:<31}{:>6}{:>9}{:>7}{:>7}{:>9}{:>5}{:>8}{:>9}{:>8}{:>5}",
        "",
        "steps",
        "library",
        "model",
        "bulk",
        "x model",
        "aim",
        "x copy",
        "x limit",
        "x bulk",
        "aim"
    );
    for case in cases() {
        let ran = agreed(library, case.name, &case.call);
        let limit = Limit::of(&case.call);
        let same = limit.moves_as(&case.call, &ran);
        assert!(same, "{}: the limit moves otherwise", case.name);
        let steps = steps_told(case.name, &ran);
        let times = Times::of(library, &case, &limit);
        println!("{}", shown(&case, steps, &times));
    }
}

/// A run's row of the table.
fn shown(case: &Case, steps: u32, times: &Times) -> String {
    let millions = |seconds| f64::from(steps) / seconds / 1e6;
    let ratio = |other| other / times.library;
    let speeds = format!(
        "{steps:>6}{:>9.0}{:>7.0}{:>7.0}",
        millions(times.library),
        millions(times.model),
        millions(times.bulk)
    );
    let (model, bulk) = (ratio(times.model), ratio(times.bulk));
    let (copy, limit) = (ratio(times.copy), ratio(times.limit));
    let aim = case.aim;
    let bulk_aim = case
        .bulk_aim
        .map_or("-".to_owned(), |aim| format!("{aim:.1}"));
    let missed = missed(&[
        ("x model", model >= aim),
        ("x bulk", case.bulk_aim.is_none_or(|aim| bulk >= aim)),
    ]);
    let ratios = format!("{model:>9.2}{aim:>5.1}{copy:>8.3}{limit:>9.2}{bulk:>8.2}{bulk_aim:>5}");
    format!("{:<31}{speeds}{ratios}{missed}", case.name)
}

/// The words for the aims that are not reached.
fn missed(aims: &[(&str, bool)]) -> String {
    let names = aims.iter().filter(|(_, reached)| !reached);
    names.map(|(name, _)| format!("  {name} missed")).collect()
}

/// A core in Move with the next descriptor in its slot: its image has every field.
fn moving() -> Firmware<'static> {
    let mut core = Firmware::new(&Paper, 2, BASE, 256);
    let fields = Descriptor {
        destination: BASE + 128,
        next: BASE + 32,
        length: 64,
        control: OWNED,
        ..Descriptor::default()
    };
    core.build(BASE, &fields);
    core.build(fields.next, &fields);
    core.write(offset::NEXT_DESCRIPTOR_POINTER, BASE);
    core.write(offset::CONTROL, control::RUN);
    core.run(&samples(20, no_mark), 0, 100);
    core
}

/// Calls on such a core.
fn calls() -> [(&'static str, Call); 4] {
    let core = moving();
    let image = Lent::from(core.image.as_slice());
    let run = Call::Run {
        image: image.clone(),
        window: Lent::from(core.memory.as_slice()),
        beats: Lent::from(stream(&[0; 4])),
        out: Lent::zeros(0),
        ledger: Lent::zeros(0),
        used: 0,
        budget: 0,
        report: Lent::zeros(REPORT_SIZE),
    };
    let read = Call::ReadRegister {
        image: image.clone(),
        offset: offset::STATUS,
        value: Lent::zeros(VALUE_SIZE),
    };
    let line = Call::Line {
        image: image.clone(),
        value: Lent::zeros(VALUE_SIZE),
    };
    let write = Call::WriteRegister {
        image,
        offset: offset::CONTROL,
        value: control::RUN | control::IE_GLOBAL,
    };
    [
        ("run, budget 0", run),
        ("read register", read),
        ("write register", write),
        ("line", line),
    ]
}

/// The rows of calls that take no step.
const CALLS: Rows = Rows {
    aim: AIM_OF_A_CALL,
    at_once: CALLS_AT_ONCE,
    parts: 1e9,
};

fn compare_calls(library: &dyn Party) {
    heading(
        "Calls, in nanoseconds, and how many times as long as the model's",
        "",
    );
    CALLS.compare(library, calls());
}

/// The cost of a step does not depend on the stream's length or the window's.
fn show_growth(library: &dyn Party) {
    println!("\nA step, in nanoseconds, by the stream's length and the window's\n");
    println!("{:<31}{:>15}{:>18}", "", "library", "model");
    println!(
        "{:<31}{:>6}{:>9}{:>9}{:>9}",
        "beats", "256", "65,536", "256", "65,536"
    );
    for beats in [1_000, 10_000, 100_000, 1_000_000, 10_000_000] {
        let costs = [256, WINDOW].map(|window| {
            let call = endless(window, beats);
            let ran = agreed(library, "growth", &call);
            let steps = f64::from(steps_told("growth", &ran));
            least_of_both(library, &call, 1).map(|seconds| seconds * 1e9 / steps)
        });
        println!(
            "{beats:<31}{:>6.2}{:>9.2}{:>9.2}{:>9.2}",
            costs[0][0], costs[1][0], costs[0][1], costs[1][1]
        );
    }
}

fn main() -> ExitCode {
    let libraries = libraries();
    let Some(library) = libraries.last() else {
        eprintln!("libsgdma.a was not found: nothing to measure");
        return ExitCode::FAILURE;
    };
    compare_runs(library.as_ref());
    compare_calls(library.as_ref());
    choices::compare_choices(library.as_ref());
    timers::compare_timers(library.as_ref());
    findings::compare_findings(library.as_ref());
    chains::compare_chains(library.as_ref());
    show_growth(library.as_ref());
    ExitCode::SUCCESS
}
