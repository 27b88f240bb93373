//! Lent slices of wrong size, odd streams, ledgers that are none and empty slices.
//! The library is tried with NULL for an empty slice as well as without.

use harness::call::{parties, Argument, Call, Lent};
use harness::compare::{ask, check_refused};
use harness::model::{
    Image, Images, Machine, Mode, Paper, Phase, Window, DESCRIPTOR_ANSWER_SIZE, IMAGE_SIZE,
    REPORT_SIZE, VALUE_SIZE,
};
use harness::samples;

const BASE: u64 = 4096;
const OTHER_WINDOW: u32 = 4;
const BAD_SIZE: u32 = 7;
/// The edition is the first field.
const BAD_IMAGE_FOR_EDITION: u32 = 8 + 256;
const ODD_STREAM: u32 = 9;
const BAD_LEDGER: u32 = 19;

fn fresh_image(mode: Mode, length: usize) -> Lent {
    let window = Window {
        base: BASE,
        length: length as u64,
    };
    Lent::from(Paper.save(&Machine::fresh(mode, window)).to_vec())
}

fn run(mode: Mode, length: usize) -> Call {
    Call::Run {
        image: fresh_image(mode, length),
        window: Lent::zeros(length),
        beats: Lent::zeros(4),
        out: Lent::zeros(4),
        ledger: Lent::zeros(24),
        used: 1,
        budget: 10,
        report: Lent::zeros(REPORT_SIZE),
    }
}

/// A good call of each function, on a window of this length.
fn good_calls(length: usize) -> Vec<Call> {
    let image = || fresh_image(Mode::StreamToMemory, length);
    let mut calls = vec![
        Call::Create {
            image: image(),
            mode: 1,
            base: BASE,
            length: length as u64,
        },
        Call::ReadRegister {
            image: image(),
            offset: 8,
            value: Lent::zeros(VALUE_SIZE),
        },
        Call::WriteRegister {
            image: image(),
            offset: 8,
            value: 4096,
        },
        Call::Line {
            image: image(),
            value: Lent::zeros(VALUE_SIZE),
        },
        run(Mode::StreamToMemory, length),
    ];
    if length >= 32 {
        calls.extend(descriptor_calls(length));
    }
    calls
}

fn descriptor_calls(length: usize) -> [Call; 2] {
    [
        Call::BuildDescriptor {
            window: Lent::zeros(length),
            base: BASE,
            address: 4096,
            source: 1,
            destination: 2,
            next: 3,
            length: 4,
            control: 5,
        },
        Call::ReadDescriptor {
            window: Lent::zeros(length),
            base: BASE,
            address: 4096,
            answer: Lent::zeros(DESCRIPTOR_ANSWER_SIZE),
        },
    ]
}

/// The size that a slice of this name must have.
fn due(name: &str) -> Option<usize> {
    match name {
        "image" => Some(IMAGE_SIZE),
        "value" => Some(VALUE_SIZE),
        "report" => Some(REPORT_SIZE),
        "answer" => Some(DESCRIPTOR_ANSWER_SIZE),
        _ => None,
    }
}

fn resized(call: &Call, place: usize, size: usize) -> Call {
    let mut resized = call.clone();
    if let Argument::Lent(_, lent) = &mut resized.arguments()[place] {
        let mut bytes = lent.to_vec();
        bytes.resize(size, 0);
        **lent = Lent::from(bytes);
    }
    resized
}

/// The slice that the call lends under this name.
fn lent_as<'call>(call: &'call mut Call, sought: &str) -> &'call mut Lent {
    let find = |argument| match argument {
        Argument::Lent(name, lent) if name == sought => Some(lent),
        _ => None,
    };
    let found = call.arguments().into_iter().find_map(find);
    found.expect("the call lends such a slice")
}

#[test]
fn good_calls_are_done() {
    for party in parties() {
        for call in [0, 1, 32, 256].map(good_calls).concat() {
            let answer = ask(party.as_ref(), &call);
            assert_eq!(answer.returned, 0, "{} on\n{call}", party.name());
        }
    }
}

#[test]
fn wrong_sizes_are_refused() {
    let mut tried = 0;
    for party in parties() {
        for call in good_calls(64) {
            for (place, argument) in call.clone().arguments().iter().enumerate() {
                let Argument::Lent(name, _) = argument else {
                    continue;
                };
                let Some(due) = due(name) else { continue };
                for size in [0, 1, due - 1, due + 1, 2 * due, 300] {
                    let wrong = resized(&call, place, size);
                    check_refused(party.as_ref(), &wrong, BAD_SIZE);
                    tried += 1;
                }
            }
        }
    }
    // Five images, two values, a report and an answer.
    assert_eq!(tried, parties().len() * 6 * 9);
}

#[test]
fn odd_streams_are_refused_in_every_mode() {
    for party in parties() {
        for mode in Mode::ALL {
            for (beats, out) in [(1, 0), (0, 1), (1, 1), (5, 4), (4, 5), (3, 3)] {
                let mut call = run(mode, 64);
                *lent_as(&mut call, "beats") = Lent::zeros(beats);
                *lent_as(&mut call, "out") = Lent::zeros(out);
                check_refused(party.as_ref(), &call, ODD_STREAM);
            }
        }
    }
}

/// Every lent slice empty at once: the sizes are refused, and where nothing has a
/// size, the empty window.
#[test]
fn empty_slices_are_slices() {
    for party in parties() {
        for call in good_calls(64) {
            let mut empty = call.clone();
            for argument in &mut empty.arguments() {
                if let Argument::Lent(_, lent) = argument {
                    **lent = Lent::zeros(0);
                }
            }
            let number = match call {
                Call::BuildDescriptor { .. } => 6,
                _ => BAD_SIZE,
            };
            check_refused(party.as_ref(), &empty, number);
        }
    }
}

/// The size that an image had before there was a slot: "7 means 85 bytes for
/// edition 2".
#[test]
fn an_image_of_44_bytes_is_refused() {
    for party in parties() {
        for call in good_calls(64) {
            let Some(image) = call.image() else { continue };
            assert_eq!(image.len(), 85);
            let mut old = call.clone();
            *lent_as(&mut old, "image") = Lent::from(&image[..44]);
            check_refused(party.as_ref(), &old, BAD_SIZE);
            lent_as(&mut old, "image")[0] = 0x10;
            check_refused(party.as_ref(), &old, BAD_SIZE);
        }
    }
}

/// The size that a report had before runs kept a ledger.
#[test]
fn a_report_without_the_records_is_refused() {
    for party in parties() {
        let mut call = run(Mode::StreamToMemory, 64);
        assert_eq!(lent_as(&mut call, "report").len(), 18);
        *lent_as(&mut call, "report") = Lent::zeros(14);
        check_refused(party.as_ref(), &call, BAD_SIZE);
    }
}

/// A run that takes no step, on an image of the samples.
fn run_with_ledger(image: &Image, length: usize, used: u32) -> Call {
    Call::Run {
        image: Lent::from(image.pack().to_vec()),
        window: Lent::zeros(samples::LENGTH),
        beats: Lent::zeros(0),
        out: Lent::zeros(0),
        ledger: Lent::from(vec![0x5E; length]),
        used,
        budget: 0,
        report: Lent::zeros(REPORT_SIZE),
    }
}

/// Lengths in bytes with the records that are said to be used, and what a run
/// returns. Some numbers, times 12, are small again when only 32 bits are kept.
const LEDGERS: [(usize, u32, u32); 22] = [
    (0, 0, 0),
    (12, 0, 0),
    (12, 1, 0),
    (24, 1, 0),
    (1200, 100, 0),
    (1, 0, BAD_LEDGER),
    (2, 0, BAD_LEDGER),
    (6, 0, BAD_LEDGER),
    (11, 0, BAD_LEDGER),
    (13, 0, BAD_LEDGER),
    (13, 1, BAD_LEDGER),
    (1199, 2, BAD_LEDGER),
    (0, 1, BAD_LEDGER),
    (12, 2, BAD_LEDGER),
    (1200, 101, BAD_LEDGER),
    (11, 1, BAD_LEDGER),
    (0, u32::MAX, BAD_LEDGER),
    (1200, u32::MAX, BAD_LEDGER),
    (0, 1 << 30, BAD_LEDGER),
    (12, (1 << 30) + 1, BAD_LEDGER),
    (12, 357_913_942, BAD_LEDGER),
    (1200, 1 << 16, BAD_LEDGER),
];

/// "BadLedger for a length not a multiple of 12 or fewer records than are said to
/// be used": in every mode and phase, also where no record can be made.
#[test]
fn ledgers_are_looked_at_in_every_mode_and_phase() {
    for party in parties() {
        for (mode, phase) in Mode::ALL.iter().flat_map(|&m| Phase::ALL.map(|p| (m, p))) {
            let image = samples::image(mode, phase);
            if !Paper.broken_rules(&image).is_empty() {
                continue;
            }
            for (length, used, number) in LEDGERS {
                let call = run_with_ledger(&image, length, used);
                if number != 0 {
                    check_refused(party.as_ref(), &call, number);
                    continue;
                }
                let answer = ask(party.as_ref(), &call);
                assert_eq!(answer.returned, 0, "{} on\n{call}", party.name());
            }
        }
    }
}

/// A run with everything wrong at once, put right refusal by refusal: "First that
/// applies: 7, 8, 9, 19, 4".
#[test]
fn the_refusals_of_a_run_come_in_their_order() {
    let right = run(Mode::StreamToMemory, 64);
    for party in parties() {
        let mut call = right.clone();
        *lent_as(&mut call, "report") = Lent::zeros(17);
        lent_as(&mut call, "image")[0] = 0xFF;
        *lent_as(&mut call, "out") = Lent::zeros(5);
        *lent_as(&mut call, "ledger") = Lent::zeros(25);
        *lent_as(&mut call, "window") = Lent::zeros(65);
        for (number, name) in [
            (BAD_SIZE, "report"),
            (BAD_IMAGE_FOR_EDITION, "image"),
            (ODD_STREAM, "out"),
            (BAD_LEDGER, "ledger"),
            (OTHER_WINDOW, "window"),
        ] {
            check_refused(party.as_ref(), &call, number);
            *lent_as(&mut call, name) = lent_as(&mut right.clone(), name).clone();
        }
        assert!(call == right);
        assert_eq!(ask(party.as_ref(), &call).returned, 0);
    }
}

/// An empty window holds no descriptor: fault 11, with no stream lent either.
#[test]
fn an_empty_window_runs_into_a_fault() {
    for party in parties() {
        let mut image = fresh_image(Mode::StreamToMemory, 0);
        image[7] = 0x20;
        let call = Call::Run {
            image,
            window: Lent::zeros(0),
            beats: Lent::zeros(0),
            out: Lent::zeros(0),
            ledger: Lent::zeros(0),
            used: 0,
            budget: u32::MAX,
            report: Lent::zeros(REPORT_SIZE),
        };
        let answer = ask(party.as_ref(), &call);
        let Call::Run { image, report, .. } = answer.after else {
            unreachable!("a call stays what it is");
        };
        assert_eq!(answer.returned, 0, "{}", party.name());
        assert_eq!(report[..6], [0, 3, 0, 0, 0, 2]);
        assert_eq!(report[6..], [0; 12]);
        assert_eq!(image[1] & 0x1F, 11);
    }
}

/// Base and length are wide: what is far too large is refused, not cut.
#[test]
fn large_numbers_are_not_cut() {
    for party in parties() {
        for (mode, base, length, number) in [
            (0, 0xFFFF_FFFF, 1, 0),
            (0, 0xFFFF_FFFF, 2, 3),
            (0, 1 << 32, 0, 3),
            (0, (1 << 32) + 4096, 256, 3),
            (0, 4096, 65_536, 0),
            (0, 4096, 65_537, 3),
            (0, 4096, (1 << 32) + 256, 3),
            (0, u64::MAX, u64::MAX, 3),
            (0, u64::MAX, 1, 3),
            (3, 4096, 256, 2),
            (256, 4096, 256, 2),
            (0x1_0000, u64::MAX, 256, 2),
        ] {
            let call = Call::Create {
                image: Lent::zeros(IMAGE_SIZE),
                mode,
                base,
                length,
            };
            let answer = ask(party.as_ref(), &call);
            assert_eq!(answer.returned, number, "{} on\n{call}", party.name());
        }
    }
}
