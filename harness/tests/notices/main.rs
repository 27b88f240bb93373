//! The harness notices: every deliberate error in the model is found by the same
//! comparison that is made with the library.

mod slips;

use harness::call::{Call, Party};
use harness::compare::{compare_call, compare_host, Mismatch};
use harness::gen::{
    ChainHost, ControllerHost, EditionHost, FindingHost, Host, Hosts, MendHost, TimerHost,
};
use harness::model::Paper;
use slips::Slip;
use std::collections::BTreeSet;
use std::panic::{catch_unwind, AssertUnwindSafe};

/// Within how many calls an error must be noticed.
const MOST_CALLS: u64 = 200_000;
const SEED: u64 = 5;

/// A party that may break down on what a rule should have kept from it.
struct Guarded<'slip>(&'slip dyn Party);

/// Returned where the party broke down; no call returns it.
const BROKE_DOWN: u32 = u32::MAX;

impl Party for Guarded<'_> {
    fn name(&self) -> &'static str {
        "slip"
    }

    fn answer(&self, call: &mut Call) -> u32 {
        catch_unwind(AssertUnwindSafe(|| self.0.answer(call))).unwrap_or(BROKE_DOWN)
    }
}

/// Where the slip is noticed in calls of this host.
fn noticed_by(host: &mut dyn Hosts, slip: &dyn Party) -> Option<Mismatch> {
    compare_host(host, &Paper, &Guarded(slip), MOST_CALLS, &mut |_, _| {}).err()
}

fn notice(slip: &dyn Party) -> Option<Mismatch> {
    noticed_by(&mut Host::new(SEED), slip)
}

#[test]
fn the_slips_are_many_and_different() {
    let mut slips = slips::all();
    slips.extend(slips::findings::slips());
    slips.extend(slips::controllers::slips());
    slips.extend(slips::timers::slips());
    slips.extend(slips::editions::slips());
    slips.extend(slips::chains::slips());
    slips.extend(slips::mends::slips());
    let different: BTreeSet<&String> = slips.iter().map(|(text, _)| text).collect();
    assert_eq!(different.len(), slips.len());
    assert!(slips.len() >= 600, "only {} slips", slips.len());
}

#[test]
fn every_slip_is_noticed() {
    are_noticed(slips::all(), notice);
}

#[test]
fn every_slip_of_finding_is_noticed() {
    let notice = |slip: &dyn Party| noticed_by(&mut FindingHost::new(SEED), slip);
    are_noticed(slips::findings::slips(), notice);
}

#[test]
fn every_slip_of_the_controller_is_noticed() {
    let notice = |slip: &dyn Party| noticed_by(&mut ControllerHost::new(SEED), slip);
    are_noticed(slips::controllers::slips(), notice);
}

#[test]
fn every_slip_of_the_timer_is_noticed() {
    let notice = |slip: &dyn Party| noticed_by(&mut TimerHost::new(SEED), slip);
    are_noticed(slips::timers::slips(), notice);
}

#[test]
fn every_slip_of_the_moves_is_noticed() {
    let notice = |slip: &dyn Party| noticed_by(&mut EditionHost::new(SEED), slip);
    are_noticed(slips::editions::slips(), notice);
}

#[test]
fn every_slip_of_the_check_is_noticed() {
    let notice = |slip: &dyn Party| noticed_by(&mut ChainHost::new(SEED), slip);
    are_noticed(slips::chains::slips(), notice);
}

#[test]
fn every_slip_of_the_mend_is_noticed() {
    let notice = |slip: &dyn Party| noticed_by(&mut MendHost::new(SEED), slip);
    are_noticed(slips::mends::slips(), notice);
}

/// Each is noticed and shown by the smallest case, which is one call, shows the
/// error again when it is made again, and reads as C.
fn are_noticed(slips: Vec<Slip>, notice: fn(&dyn Party) -> Option<Mismatch>) {
    let mut unnoticed = Vec::new();
    for (text, slip) in slips {
        let Some(mismatch) = notice(slip.as_ref()) else {
            unnoticed.push(text);
            continue;
        };
        let shown = mismatch.to_string();
        let [call] = mismatch.calls.as_slice() else {
            panic!("{text}: more than one call\n{shown}");
        };
        assert!(
            compare_call(&Paper, &Guarded(slip.as_ref()), call.clone()).is_err(),
            "{text}: not shown again by\n{shown}"
        );
        assert!(shown.contains("    sgdma_") && shown.contains(": model "));
        let broke_down = format!("slip {BROKE_DOWN:#x}");
        assert!(!shown.contains(&broke_down), "{text}: broke down");
    }
    assert!(unnoticed.is_empty(), "not noticed: {unnoticed:#?}");
}

fn slip_named(text: &str) -> Slip {
    let mut slips = slips::all();
    let place = slips.iter().position(|(name, _)| name == text);
    slips.swap_remove(place.expect("the slip is in the list"))
}

/// Little is left in a smallest case but what shows the error.
#[test]
fn the_smallest_case_is_small() {
    let (_, slip) = slip_named("BUSY is cleared at Ended");
    let mismatch = notice(slip.as_ref()).expect("the slip is noticed");
    let [Call::Run {
        window,
        beats,
        out,
        budget,
        ..
    }] = mismatch.calls.as_slice()
    else {
        panic!("not one run: {mismatch}");
    };
    // One unowned descriptor, and at most one more with a byte before it.
    assert!(window.len() <= 64 && *budget <= 5, "{mismatch}");
    assert!(beats.len() + out.len() <= 2, "{mismatch}");
    assert!(mismatch.differences[0].starts_with("image[2]: model 0x1"));
}

/// A party that changes bytes it was lent only to read.
struct WritesInput;

impl Party for WritesInput {
    fn name(&self) -> &'static str {
        "writer"
    }

    fn answer(&self, call: &mut Call) -> u32 {
        let returned = Paper.answer(call);
        if let Call::Run { beats, .. } = call {
            if let Some(last) = beats.last_mut() {
                *last ^= 1;
            }
        }
        returned
    }
}

#[test]
fn written_input_is_noticed() {
    let mismatch = notice(&WritesInput).expect("the change is noticed");
    assert!(mismatch.differences[0].starts_with("beats["));
}
