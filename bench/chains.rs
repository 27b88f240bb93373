//! A chain that is checked: the library against the walk of the bulk model, which has
//! a mark for each word of the window; and how the cost grows with the chain.

use super::{agreed, least, missed, timed_party};
use harness::bulk::Bulk;
use harness::call::{Call, Lent, Party};
use harness::model::{CHECK_SIZE, DESCRIPTOR_SIZE};

/// "at least 0.5 of the speed of the plain model's linear walk"
const AIM: f64 = 0.5;
/// "10 times 200 costs about as much as 2,000": so many times at the most.
const GROWTH_AIM: f64 = 1.2;
/// So many checks are timed at once.
const CHECKS_AT_ONCE: u32 = 20;
const BASE: u64 = 0x1000;
const WINDOW: usize = 65_536;
const ROOM: usize = WINDOW / DESCRIPTOR_SIZE;

/// The check of a chain in the largest window: of the first descriptors in this
/// order, all are owned but the last.
fn check(count: usize, order: fn(usize) -> usize) -> Call {
    let mut window = vec![0; WINDOW];
    let place = |number: usize| DESCRIPTOR_SIZE * order(number % ROOM);
    for number in 0..count - 1 {
        let at = place(number);
        let next = BASE as u32 + place(number + 1) as u32;
        window[at + 16..at + 20].copy_from_slice(&next.to_le_bytes());
        window[at + 31] = 0x80;
    }
    Call::CheckChain {
        window: Lent::from(window),
        base: BASE,
        pointer: BASE as u32 + place(0) as u32,
        answer: Lent::zeros(CHECK_SIZE),
    }
}

fn in_order(number: usize) -> usize {
    number
}

/// Every place once: the factor is odd, and the places are a power of 2.
fn in_no_order(number: usize) -> usize {
    number * 1_237 % ROOM
}

/// The least times of library and bulk model, in seconds a check.
fn times(library: &dyn Party, call: &Call) -> [f64; 2] {
    let ours = || timed_party(library, call, CHECKS_AT_ONCE);
    let bulk = || timed_party(&Bulk, call, CHECKS_AT_ONCE);
    least([&ours, &bulk]).map(|seconds| seconds / f64::from(CHECKS_AT_ONCE))
}

/// A chain to time.
struct Case {
    name: &'static str,
    /// How many descriptors it has, the one met again at its end among them.
    count: usize,
    order: fn(usize) -> usize,
    /// How many times as long as ten of 200 it may take, where that is aimed at.
    growth_aim: Option<f64>,
}

/// In no order, 200 are found in the nearest cache and 2,000 are not.
fn cases() -> [Case; 5] {
    let case = |name, count, order, growth_aim| Case {
        name,
        count,
        order,
        growth_aim,
    };
    [
        case("200 descriptors", 200, in_order, None),
        case("2,000 descriptors", 2_000, in_order, Some(GROWTH_AIM)),
        case("200 in no order", 200, in_no_order, None),
        case("2,000 in no order", 2_000, in_no_order, None),
        case("2,048 and back to the first", 2_049, in_order, None),
    ]
}

/// The row of a chain, beside the time of the last that had 200 descriptors.
fn shown(case: &Case, [ours, bulk]: [f64; 2], of_200: f64) -> String {
    let (ratio, growth) = (bulk / ours, ours / (10.0 * of_200));
    let aim = case
        .growth_aim
        .map_or("-".to_owned(), |aim| format!("{aim:.1}"));
    let grows = if case.count == 2_000 {
        format!("{growth:>13.2}{aim:>5}")
    } else {
        String::new()
    };
    let missed = missed(&[
        ("x bulk", ratio >= AIM),
        (
            "x 10 of 200",
            case.growth_aim.is_none_or(|aim| growth <= aim),
        ),
    ]);
    let (ours, bulk) = (ours * 1e6, bulk * 1e6);
    let name = case.name;
    format!("{name:<31}{ours:>15.2}{bulk:>7.2}{ratio:>16.2}{AIM:>5.1}{grows}{missed}")
}

pub fn compare_chains(library: &dyn Party) {
    println!("\nA chain checked, in microseconds, and how many times as fast as the bulk model\n");
    println!(
        "{:<31}{:>15}{:>7}{:>16}{:>5}{:>13}{:>5}",
        "", "library", "bulk", "x bulk", "aim", "x 10 of 200", "aim"
    );
    let mut of_200 = f64::NAN;
    for case in cases() {
        let call = check(case.count, case.order);
        agreed(library, case.name, &call);
        let times = times(library, &call);
        if case.count == 200 {
            of_200 = times[0];
        }
        println!("{}", shown(&case, times, of_200));
    }
}
