//! Random sequences of calls, each put to the model and to the library or the bulk
//! model, with a count of what they reached.
//!
//! `SGDMA_CALLS` gives another number of calls, and `SGDMA_SEED` another seed.

use harness::bulk::Bulk;
use harness::call::{libraries_or_model, Party};
use harness::coverage::{compare_and_cover, Point};
use harness::gen::Host;
use std::env;

const CALLS: u64 = 1_000_000;
/// No run may make fewer.
const FEWEST_CALLS: u64 = 200_000;
const SEED: u64 = 23;

fn from_environment(name: &str, otherwise: u64) -> u64 {
    env::var(name).map_or(otherwise, |text| {
        text.parse()
            .unwrap_or_else(|_| panic!("{name} is not a number: {text}"))
    })
}

fn agree_and_reach_everything(party: &dyn Party, seed: u64) {
    let calls = from_environment("SGDMA_CALLS", CALLS).max(FEWEST_CALLS);
    compare_and_cover::<Point>(&mut Host::new(seed), party, seed, calls);
}

#[test]
fn random_calls_agree_and_reach_everything() {
    let seed = from_environment("SGDMA_SEED", SEED);
    for (party, place) in libraries_or_model().iter().zip(0..) {
        agree_and_reach_everything(party.as_ref(), seed + place);
    }
}

/// The calls that are put to the library first.
#[test]
fn the_bulk_model_agrees_on_the_same_random_calls() {
    agree_and_reach_everything(&Bulk, from_environment("SGDMA_SEED", SEED));
}
