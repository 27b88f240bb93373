//! A ledger that is asked: the library against the model, which is a plain loop over
//! all the used records.

use super::rows::{heading, Rows};
use harness::call::{Call, Lent, Party};
use harness::model::{FINDING_SIZE, RECORD_SIZE};

/// The library may take so many times as long as the plain loop.
const AIM: f64 = 2.0;
const RECORDS: u32 = 100_000;
/// The records of one run.
const OF_A_RUN: u32 = 50;

/// A ledger of many runs, each over the same descriptors; or of one run over as many
/// descriptors as there are records.
fn ledger(of_a_run: u32) -> Vec<u8> {
    let mut bytes = Vec::with_capacity(RECORD_SIZE * RECORDS as usize);
    for place in 0..RECORDS {
        let (run, descriptor) = (place / of_a_run, place % of_a_run);
        bytes.extend((1 + run).to_be_bytes());
        bytes.extend((4096 + 32 * descriptor).to_be_bytes());
        bytes.extend([0, 4, 0, 1]);
    }
    bytes
}

fn question(of_a_run: u32, run: u32, address: u32) -> Call {
    Call::FindRecord {
        ledger: Lent::from(ledger(of_a_run)),
        used: RECORDS,
        run,
        address,
        answer: Lent::zeros(FINDING_SIZE),
    }
}

fn questions() -> [(&'static str, Call); 5] {
    [
        ("the first of one run", question(RECORDS, 1, 4096)),
        ("none, one run", question(RECORDS, 1, 4095)),
        ("the first of 2,000 runs", question(OF_A_RUN, 1, 4096)),
        ("none, that run is not there", question(OF_A_RUN, 0, 4096)),
        (
            "the last",
            question(OF_A_RUN, RECORDS / OF_A_RUN, 4096 + 32 * (OF_A_RUN - 1)),
        ),
    ]
}

pub fn compare_findings(library: &dyn Party) {
    heading(
        "A ledger of 100,000 records, asked, in microseconds, and how many times as long as the model",
        "",
    );
    let rows = Rows {
        aim: AIM,
        at_once: 1,
        parts: 1e6,
    };
    rows.compare(library, questions());
}
