//! The core as the scope paper describes it, written from the paper alone, and
//! the field of a refused image, the ledger, the descriptor read ahead, the run
//! number, the moves between the editions of an image, the check of a chain and
//! its mending, the interrupt controller and the interval timer as their requests do.
//!
//! One step moves one byte and steps are taken one by one. Each sentence of the
//! paper is one small rule, and the rules are provided methods of a few traits,
//! one for each section. [`Paper`] takes them all as they stand. A type that
//! replaces one rule is the same model with one deliberate error; the tests use
//! such types to see that an error is noticed. The choice is made when the
//! program is built, so [`Paper`] pays nothing for it.

mod calls;
mod chains;
mod controllers;
mod descriptors;
mod editions;
mod findings;
mod images;
mod ledgers;
mod machine;
mod mends;
mod registers;
mod slots;
mod steps;
mod timers;
mod windows;

pub use calls::{Calls, Refusal, Refused, DESCRIPTOR_ANSWER_SIZE, REPORT_SIZE, VALUE_SIZE};
pub use chains::{Cause, Chains, Stop, CHECK_SIZE, MOST_READ};
pub use controllers::{
    Choice, Config, Controller, Controllers, CHOICE_SIZE, CONTROLLER_FIELDS, CONTROLLER_SIZE, PORTS,
};
pub use descriptors::{descriptor_control, Descriptor, Descriptors, DESCRIPTOR_SIZE};
pub use editions::{Editions, OLD_IMAGE_SIZE};
pub use findings::{Findings, FINDING_SIZE};
pub use images::{Image, ImageRule, Images, IMAGE_SIZE};
pub use ledgers::{Ledger, Ledgers, Record, RECORD_SIZE};
pub use machine::{Fault, Kept, Machine, Mode, Phase};
pub use mends::{Mended, Mends, MEND_SIZE};
pub use registers::{control, offset, status, Registers};
pub use slots::{Emptying, Slot, SlotKind, Slots};
pub use steps::{InputBeat, Ports, Reason, Report, Steps, OUTPUT_EOP, OUTPUT_SOP};
pub use timers::{
    timer_control, timer_offset, Timer, Timers, FULL_PERIOD, MOST_SINGLE_TICKS, TIMER_SIZE,
};
pub use windows::{Window, Windows};

/// The model that keeps every rule of the paper.
#[derive(Clone, Copy, Debug)]
pub struct Paper;

impl Windows for Paper {}
impl Registers for Paper {}
impl Descriptors for Paper {}
impl Slots for Paper {}
impl Ledgers for Paper {}
impl Findings for Paper {}
impl Chains for Paper {}
impl Mends for Paper {}
impl Steps for Paper {}
impl Images for Paper {}
impl Editions for Paper {}
impl Controllers for Paper {}
impl Timers for Paper {}
impl Calls for Paper {}
