//! Choosing a port of an interrupt controller: the library against the model.

use super::rows::{heading, Rows};
use super::CALLS_AT_ONCE;
use harness::call::{Call, Lent, Party, VicCall};
use harness::model::{Config, Controller, CHOICE_SIZE};

/// "at least as fast"
const AIM: f64 = 1.0;

/// A controller of so many ports, all up, with levels that differ.
fn choose(ports: u8, enabled: bool, level: fn(u16) -> u16) -> Call {
    let mut controller = Controller::fresh(ports, 16, 0x8000);
    let all = (u64::MAX >> (64 - u32::from(ports))) as u32;
    controller.lines = all;
    controller.enabled = if enabled { all } else { 0 };
    for (port, config) in (0..u16::from(ports)).zip(&mut controller.configs) {
        *config = Config {
            zero: 0,
            set: port,
            non_maskable: port % 2 == 1,
            level: level(port),
        }
        .bits();
    }
    VicCall::Choose {
        vic: Lent::from(controller.pack().as_slice()),
        answer: Lent::zeros(CHOICE_SIZE),
    }
    .into()
}

/// Levels in no order, of which the largest stands in the middle.
fn mixed(port: u16) -> u16 {
    1 + port * 37 % 63
}

fn rising(port: u16) -> u16 {
    1 + port
}

fn choices() -> [(&'static str, Call); 5] {
    [
        ("32 ports pending", choose(32, true, mixed)),
        ("32 pending, each above the last", choose(32, true, rising)),
        ("32 up, none enabled", choose(32, false, mixed)),
        ("4 ports pending", choose(4, true, mixed)),
        ("1 port pending", choose(1, true, mixed)),
    ]
}

pub fn compare_choices(library: &dyn Party) {
    heading(
        "Choosing a port, in nanoseconds, and how many times as long as the model",
        "",
    );
    let rows = Rows {
        aim: AIM,
        at_once: CALLS_AT_ONCE,
        parts: 1e9,
    };
    rows.compare(library, choices());
}
