//! The interval timer: random calls put to the model and to the library, and cases
//! worked out by hand from its request and the handbook's chapter 26.

use harness::call::{libraries_or_model, parties, Call, Lent, Party, TimerCall};
use harness::compare::{check_done, check_refused};
use harness::coverage::compare_and_cover;
use harness::coverage::timers::Reached;
use harness::gen::TimerHost;
use harness::model::{
    timer_control::{CONT, ITO, START, STOP},
    timer_offset::{CONTROL, PERIODH, PERIODL, SNAPH, SNAPL, STATUS},
    Timer, TIMER_SIZE, VALUE_SIZE,
};

const CALLS: u64 = 400_000;
const SEED: u64 = 26;

const MOST: u32 = 4_294_967_295;
/// Bits of status.
const TO: u32 = 1;
const RUN: u32 = 2;

#[test]
fn random_calls_agree_and_reach_everything() {
    for (party, seed) in libraries_or_model().iter().zip(SEED..) {
        let mut host = TimerHost::new(seed);
        compare_and_cover::<Reached>(&mut host, party.as_ref(), seed, CALLS);
    }
}

fn value() -> Lent {
    Lent::from(vec![0xEE; VALUE_SIZE])
}

/// A timer, and who answers the calls on it. Every call must be done.
struct Driven<'party> {
    party: &'party dyn Party,
    timer: Lent,
}

impl Driven<'_> {
    /// A new timer with this period, over bytes that were something else.
    fn new(party: &dyn Party, period: u32) -> Driven<'_> {
        let timer = Lent::from(vec![0xEE; TIMER_SIZE]);
        let mut driven = Driven {
            party,
            timer: timer.clone(),
        };
        driven.make(TimerCall::Create { timer, period });
        driven
    }

    /// A timer that is met as it is.
    fn met<'party>(party: &'party dyn Party, timer: &Timer) -> Driven<'party> {
        Driven {
            party,
            timer: Lent::from(timer.pack().as_slice()),
        }
    }

    /// Makes the call, keeps the timer, and gives the value where there is one.
    fn make(&mut self, call: TimerCall) -> u32 {
        let Call::Timer(after) = check_done(self.party, &call.into()) else {
            unreachable!("a call stays what it is");
        };
        self.timer = after.timer().clone();
        let value = after.value().map(|value| (**value).try_into());
        value.map_or(0, |bytes| u32::from_be_bytes(bytes.expect("four bytes")))
    }

    fn read(&mut self, offset: u32) -> u32 {
        let (timer, value) = (self.timer.clone(), value());
        self.make(TimerCall::Read {
            timer,
            offset,
            value,
        })
    }

    fn write(&mut self, offset: u32, value: u16) {
        let timer = self.timer.clone();
        self.make(TimerCall::Write {
            timer,
            offset,
            value,
        });
    }

    fn line(&mut self) -> u32 {
        let (timer, value) = (self.timer.clone(), value());
        self.make(TimerCall::Line { timer, value })
    }

    /// So many ticks: how many times the counter reached zero.
    fn run(&mut self, ticks: u32) -> u32 {
        let (timer, value) = (self.timer.clone(), value());
        self.make(TimerCall::Run {
            timer,
            ticks,
            value,
        })
    }

    /// The counter as a snapshot gives it, put together from its halves.
    fn counter(&mut self) -> u32 {
        self.write(SNAPL, 0x5A5A);
        self.read(SNAPH) << 16 | self.read(SNAPL)
    }
}

/// The 14 bytes, one by one: nothing is left of what stood there.
#[test]
fn the_bytes_of_a_timer() {
    for party in parties() {
        let mut driven = Driven::new(party.as_ref(), 0x0102_0304);
        let fresh = [1, 2, 3, 4, 1, 2, 3, 4, 0, 0, 0, 0, 0, 0];
        assert_eq!(*driven.timer, fresh, "{}", party.name());
        driven.write(SNAPH, 0);
        driven.write(CONTROL, CONT | START);
        driven.run(5);
        let five_on = [1, 2, 2, 0xFF, 1, 2, 3, 4, 1, 2, 3, 4, 0, 0x0A];
        assert_eq!(*driven.timer, five_on, "{}", party.name());
        driven.write(CONTROL, ITO | STOP);
        assert_eq!(driven.timer[12..], [0, 0x04], "{}", party.name());
        driven.write(PERIODL, 0);
        driven.write(PERIODH, 0);
        driven.write(CONTROL, ITO | CONT | START);
        driven.run(1);
        let all_flags = [0, 0, 0, 0, 0, 0, 0, 0, 1, 2, 3, 4, 0, 0x0F];
        assert_eq!(*driven.timer, all_flags, "{}", party.name());
    }
}

/// A timer that runs, and what so many ticks come to: the counter, whether it runs
/// on, and how many times the counter reached zero.
struct Row {
    period: u32,
    counter: u32,
    cont: bool,
    ticks: u32,
    left: u32,
    runs: bool,
    reached: u32,
}

/// "period, counter, continuous | ticks | counter, runs, reached"
#[rustfmt::skip]
const ROWS: [[u32; 7]; 36] = [
    // 3, 2, 1, 0, 3, 2, 1, 0, 3 ..
    [3, 3, 1,  0,  3, 1, 0],
    [3, 3, 1,  1,  2, 1, 0],
    [3, 3, 1,  2,  1, 1, 0],
    [3, 3, 1,  3,  0, 1, 1],
    [3, 3, 1,  4,  3, 1, 1],
    [3, 3, 1,  7,  0, 1, 2],
    [3, 3, 1,  8,  3, 1, 2],
    [3, 1, 1,  1,  0, 1, 1],
    [3, 1, 1,  5,  0, 1, 2],
    [3, 0, 1,  1,  3, 1, 0],
    [3, 0, 1,  4,  0, 1, 1],
    // .. and once: the tick that loads it stops it.
    [3, 3, 0,  2,  1, 1, 0],
    [3, 3, 0,  3,  0, 1, 1],
    [3, 3, 0,  4,  3, 0, 1],
    [3, 3, 0,  5,  3, 0, 1],
    [3, 2, 0,  MOST,  3, 0, 1],
    [3, 0, 0,  1,  3, 0, 0],
    [3, 0, 0,  9,  3, 0, 0],
    // Each tick loads 0, and so reaches zero.
    [0, 0, 1,  1,  0, 1, 1],
    [0, 0, 1,  5,  0, 1, 5],
    [0, 0, 1,  MOST,  0, 1, MOST],
    [0, 0, 0,  1,  0, 0, 1],
    [0, 0, 0,  MOST,  0, 0, 1],
    // Zero at each odd tick.
    [1, 1, 1,  2,  1, 1, 1],
    [1, 1, 1,  MOST,  0, 1, 2_147_483_648],
    // At ticks 9, 19 .. 4,294,967,289; six more after that.
    [9, 9, 1,  MOST,  4, 1, 429_496_729],
    [9, 4, 1,  MOST,  9, 1, 429_496_730],
    [9, 9, 0,  MOST,  9, 0, 1],
    // 65,536 ticks a turn: these are one short of 65,536 turns.
    [65_535, 65_535, 1,  MOST,  0, 1, 65_536],
    [65_535, 0, 1,  MOST,  1, 1, 65_535],
    // 2^32 ticks a turn.
    [MOST, MOST, 1,  MOST,  0, 1, 1],
    [MOST, MOST, 0,  MOST,  0, 1, 1],
    [MOST, MOST - 1, 1,  MOST,  MOST, 1, 1],
    [MOST, 0, 1,  MOST,  1, 1, 0],
    [MOST, 0, 0,  MOST,  MOST, 0, 0],
    [MOST - 1, MOST - 1, 1,  MOST,  MOST - 1, 1, 1],
];

fn row(numbers: [u32; 7]) -> Row {
    let [period, counter, cont, ticks, left, runs, reached] = numbers;
    Row {
        period,
        counter,
        cont: cont == 1,
        ticks,
        left,
        runs: runs == 1,
        reached,
    }
}

/// TO is set where the counter reached zero, and stays where it was set.
#[test]
fn ticks_by_hand() {
    for party in parties() {
        for (row, to) in ROWS
            .into_iter()
            .flat_map(|r| [false, true].map(|to| (row(r), to)))
        {
            let before = Timer {
                counter: row.counter,
                period: row.period,
                snapshot: 0x1234_5678,
                zero: 0,
                cont: row.cont,
                ito: true,
                run: true,
                to,
            };
            let mut driven = Driven::met(party.as_ref(), &before);
            assert_eq!(
                driven.run(row.ticks),
                row.reached,
                "{} of {before:?}",
                row.ticks
            );
            let due = Timer {
                counter: row.left,
                run: row.runs,
                to: to || row.reached > 0,
                ..before
            };
            assert_eq!(*driven.timer, due.pack(), "{} of {before:?}", row.ticks);
        }
    }
}

/// "a running continuous timer with stored period value P, not written to, reaches
/// zero every P + 1 ticks and sets TO each time": TO is cleared in between.
#[test]
fn zero_is_reached_every_period_plus_one() {
    for party in parties() {
        for period in [0, 1, 2, 9, 65_535, 65_536, 1 << 31, MOST - 1, MOST] {
            let mut driven = Driven::new(party.as_ref(), period);
            driven.write(CONTROL, CONT | START);
            let first = if period == 0 { 1 } else { period };
            assert_eq!(driven.run(first), 1);
            for _ in 0..3 {
                assert_eq!(driven.read(STATUS), RUN | TO);
                driven.write(STATUS, 0);
                assert_eq!(driven.run(period), 0, "too early, period {period}");
                assert_eq!(driven.read(STATUS), RUN);
                assert_eq!(driven.run(1), 1, "not then, period {period}");
                assert_eq!(driven.counter(), 0);
            }
        }
    }
}

/// A timer whose halves all differ, with these flags: TO, RUN, ITO and CONT.
fn with_flags(bits: u32) -> Timer {
    let [to, run, ito, cont] = [0, 1, 2, 3].map(|place| bits >> place & 1 == 1);
    Timer {
        counter: 0x0506_0708,
        period: 0x1122_3344,
        snapshot: 0xAABB_CCDD,
        zero: 0,
        cont,
        ito,
        run,
        to,
    }
}

#[test]
fn registers_read_what_they_hold() {
    for party in parties() {
        for bits in 0..16 {
            let timer = with_flags(bits);
            let mut driven = Driven::met(party.as_ref(), &timer);
            let read = [STATUS, CONTROL, PERIODL, PERIODH, SNAPL, SNAPH].map(|at| driven.read(at));
            let due = [bits & 3, bits >> 2 & 3, 0x3344, 0x1122, 0xCCDD, 0xAABB];
            assert_eq!(read, due, "{} on {timer:?}", party.name());
            assert_eq!(driven.line(), u32::from(timer.to && timer.ito));
            assert_eq!(*driven.timer, timer.pack(), "reading changes nothing");
        }
    }
}

/// What is written to control, with RUN before and after it. START and STOP
/// together mean STOP.
const COMMANDS: [(u16, bool, bool); 10] = [
    (0, false, false),
    (0, true, true),
    (START, false, true),
    (START, true, true),
    (STOP, false, false),
    (STOP, true, false),
    (START | STOP, false, false),
    (START | STOP, true, false),
    (0xFFF0, true, true),
    (0xFFF0 | START, false, true),
];

#[test]
fn commands_start_and_stop() {
    for party in parties() {
        for (command, run, runs) in COMMANDS {
            for flags in [0, ITO, CONT, ITO | CONT] {
                let before = Timer {
                    counter: 7,
                    period: 20,
                    snapshot: 3,
                    zero: 0,
                    cont: flags & CONT == 0,
                    ito: flags & ITO == 0,
                    run,
                    to: true,
                };
                let mut driven = Driven::met(party.as_ref(), &before);
                driven.write(CONTROL, command | flags);
                let due = Timer {
                    cont: flags & CONT != 0,
                    ito: flags & ITO != 0,
                    run: runs,
                    ..before
                };
                assert_eq!(*driven.timer, due.pack(), "{command} on {before:?}");
                assert_eq!(driven.read(CONTROL), u32::from(flags));
            }
        }
    }
}

/// What a write to any other register leaves of a timer.
fn written(before: Timer) -> [(u32, u16, Timer); 8] {
    let cleared = Timer {
        to: false,
        ..before
    };
    let taken = Timer {
        snapshot: 0x0506_0708,
        ..before
    };
    let with_period = |period| Timer {
        counter: period,
        period,
        run: false,
        ..before
    };
    [
        (STATUS, 0, cleared),
        (STATUS, 0xFFFF, cleared),
        (PERIODL, 0x9988, with_period(0x1122_9988)),
        (PERIODH, 0x9988, with_period(0x9988_3344)),
        (PERIODH, 0, with_period(0x3344)),
        (PERIODL, 0x3344, with_period(0x1122_3344)),
        (SNAPL, 0, taken),
        (SNAPH, 0xFFFF, taken),
    ]
}

#[test]
fn other_writes() {
    for party in parties() {
        for before in (0..16).map(with_flags) {
            for (offset, value, due) in written(before) {
                let mut driven = Driven::met(party.as_ref(), &before);
                driven.write(offset, value);
                assert_eq!(
                    *driven.timer,
                    due.pack(),
                    "{value} to {offset} of {before:?}"
                );
            }
        }
    }
}

/// A stopped timer goes on from where it is, and a snapshot stands until the next.
#[test]
fn stopped_and_started_again() {
    for party in parties() {
        let mut driven = Driven::new(party.as_ref(), 1_000);
        assert_eq!(driven.run(50), 0);
        assert_eq!(driven.counter(), 1_000);
        driven.write(CONTROL, START);
        driven.run(400);
        driven.write(CONTROL, STOP);
        driven.run(MOST);
        assert_eq!(driven.read(SNAPL), 1_000);
        assert_eq!(driven.counter(), 600);
        driven.write(CONTROL, START | ITO);
        assert_eq!((driven.run(599), driven.line()), (0, 0));
        assert_eq!((driven.run(1), driven.line()), (1, 1));
        assert_eq!(driven.read(STATUS), RUN | TO);
        driven.run(1);
        assert_eq!((driven.read(STATUS), driven.counter()), (TO, 1_000));
        driven.write(CONTROL, 0);
        assert_eq!((driven.line(), driven.read(STATUS)), (0, TO));
        driven.write(CONTROL, ITO);
        assert_eq!(driven.line(), 1);
        driven.write(STATUS, 1);
        assert_eq!((driven.line(), driven.read(STATUS)), (0, 0));
    }
}

fn elapsed(period: u32, earlier: u32, later: u32) -> TimerCall {
    let timer = Timer {
        counter: period.min(11),
        period,
        ..Timer::default()
    };
    TimerCall::Elapsed {
        timer: Lent::from(timer.pack().as_slice()),
        earlier,
        later,
        value: value(),
    }
}

/// "earlier minus later, modulo 2^32"
#[test]
fn ticks_between_two_snapshots() {
    let rows = [
        (1_000, 400, 600),
        (400, 1_000, 4_294_966_696),
        (5, MOST, 6),
        (0, MOST, 1),
        (MOST, 0, MOST),
        (7, 7, 0),
        (0x8000_0000, 0x7FFF_FFFF, 1),
    ];
    for party in parties() {
        for (earlier, later, due) in rows {
            let mut driven = Driven::new(party.as_ref(), MOST);
            assert_eq!(driven.make(elapsed(MOST, earlier, later)), due);
        }
        for period in [0, 1, 9, 65_535, 0xFFFF_0000, 1 << 31, MOST - 1] {
            check_refused(party.as_ref(), &elapsed(period, 9, 5).into(), 17);
        }
    }
}

/// A stall that is timed from one snapshot to the next, over zero.
#[test]
fn a_stall_is_timed() {
    for party in parties() {
        let mut driven = Driven::new(party.as_ref(), MOST);
        driven.write(CONTROL, CONT | START);
        driven.run(MOST - 100);
        let earlier = driven.counter();
        driven.run(5_000);
        let later = driven.counter();
        assert_eq!((earlier, later), (100, 4_294_962_396));
        assert_eq!(driven.make(elapsed(MOST, earlier, later)), 5_000);
    }
}

/// The six calls on these bytes, with this offset where one is asked for.
#[rustfmt::skip]
fn calls(timer: &Lent, offset: u32, value: &Lent) -> [TimerCall; 6] {
    let (timer, value) = (|| timer.clone(), || value.clone());
    [
        TimerCall::Create { timer: timer(), period: 5 },
        TimerCall::Read { timer: timer(), offset, value: value() },
        TimerCall::Write { timer: timer(), offset, value: 7 },
        TimerCall::Line { timer: timer(), value: value() },
        TimerCall::Run { timer: timer(), ticks: 3, value: value() },
        TimerCall::Elapsed { timer: timer(), earlier: 9, later: 4, value: value() },
    ]
}

/// Bytes of a timer with the period 0x0001_0203, the counter 9 and all flags set, of
/// which one is changed, and the field told; 0 where it is still a timer.
const BROKEN: [(usize, u8, u32); 9] = [
    (0, 1, 2),
    (3, 0xFF, 0),
    (1, 2, 2),
    (1, 1, 0),
    (5, 0, 0),
    (12, 0x80, 4),
    (12, 0x01, 4),
    (13, 0x1F, 4),
    (13, 0x8F, 4),
];

#[test]
fn the_field_that_spoiled_a_timer() {
    let good = [0, 0, 0, 9, 0, 1, 2, 3, 1, 2, 3, 4, 0, 0x0F];
    for party in parties() {
        for (place, byte, field) in BROKEN {
            let mut timer = Lent::from(good.as_slice());
            timer[place] = byte;
            check_told(party.as_ref(), &timer, field);
        }
        let both = [0, 0, 0, 9, 0, 0, 0, 8, 0, 0, 0, 0, 0, 0x10];
        check_told(party.as_ref(), &Lent::from(both.as_slice()), 2);
    }
}

/// This field is told of the bytes by every call that reads them, whatever else is
/// wrong; where none is broken, a call is done.
fn check_told(party: &dyn Party, timer: &Lent, field: u32) {
    let [create, read, write, line, run, elapsed] = calls(timer, 6, &value());
    check_done(party, &create.into());
    if field == 0 {
        check_done(party, &line.into());
        return;
    }
    for call in [read, write, line, run, elapsed] {
        check_refused(party, &call.into(), 8 + 256 * field);
    }
}

#[test]
fn registers_that_there_are_not() {
    for party in parties() {
        for offset in [6, 7, 8, 255, 256, 65_536, 1 << 31, MOST] {
            let timer = Driven::new(party.as_ref(), 8).timer;
            let [_, read, write, ..] = calls(&timer, offset, &value());
            check_refused(party.as_ref(), &read.into(), 16);
            check_refused(party.as_ref(), &write.into(), 16);
        }
    }
}

/// 7 where a slice is of another size, whatever else is wrong.
#[test]
fn wrong_sizes_are_refused() {
    let lent = |size| Lent::from(vec![0xFF; size]);
    let mut wrong = Vec::new();
    for size in [0, 1, 13, 15, 28] {
        wrong.extend(calls(&lent(size), 6, &value()));
    }
    for size in [0, 1, 3, 5, 8] {
        let all = calls(&lent(TIMER_SIZE), 6, &lent(size)).into_iter();
        wrong.extend(all.filter(|call| call.value().is_some()));
    }
    for party in parties() {
        for call in &wrong {
            check_refused(party.as_ref(), &call.clone().into(), 7);
        }
    }
}
