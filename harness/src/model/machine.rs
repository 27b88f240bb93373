//! The state of the machine.

use super::{control, Slot, Window};

/// "Modes: 0 memory to memory, 1 memory to stream, 2 stream to memory."
#[derive(Clone, Copy, Debug, PartialEq, Eq, PartialOrd, Ord)]
pub enum Mode {
    MemoryToMemory,
    MemoryToStream,
    StreamToMemory,
}

impl Mode {
    pub const ALL: [Mode; 3] = [
        Mode::MemoryToMemory,
        Mode::MemoryToStream,
        Mode::StreamToMemory,
    ];

    /// The mode of a number that was found to be at most 2.
    pub fn of_number(number: u8) -> Mode {
        match number {
            0 => Mode::MemoryToMemory,
            1 => Mode::MemoryToStream,
            _ => Mode::StreamToMemory,
        }
    }
}

/// "phase 3 (Rest 0, Fetch, Move, WriteBack, Ended, Halted, Faulted 6)"
#[derive(Clone, Copy, Debug, PartialEq, Eq, PartialOrd, Ord)]
pub enum Phase {
    Rest,
    Fetch,
    Move,
    WriteBack,
    Ended,
    Halted,
    Faulted,
}

impl Phase {
    pub const ALL: [Phase; 7] = [
        Phase::Rest,
        Phase::Fetch,
        Phase::Move,
        Phase::WriteBack,
        Phase::Ended,
        Phase::Halted,
        Phase::Faulted,
    ];

    /// The phase of a number that was found to be at most 6.
    pub fn of_number(number: u8) -> Phase {
        match number {
            0 => Phase::Rest,
            1 => Phase::Fetch,
            2 => Phase::Move,
            3 => Phase::WriteBack,
            4 => Phase::Ended,
            5 => Phase::Halted,
            _ => Phase::Faulted,
        }
    }
}

/// What is kept of the descriptor that is being moved; all zero in every phase
/// but Move and WriteBack.
#[derive(Clone, Copy, Debug, Default, PartialEq, Eq)]
pub struct Kept {
    pub address: u32,
    pub source: u32,
    pub destination: u32,
    pub length: u16,
    pub control: u8,
    /// The errors of the beats taken so far, gathered by OR.
    pub errors: u8,
    /// The bytes moved so far.
    pub moved: u16,
    /// Whether the last beat taken had EOP.
    pub eop_seen: bool,
}

/// Why a step failed. The address is a whole number: it may lie above 2^32.
#[derive(Clone, Copy, Debug, PartialEq, Eq)]
pub struct Fault {
    pub code: u8,
    pub address: u64,
}

impl Fault {
    pub const MISALIGNED: u8 = 10;
    pub const DESCRIPTOR_OUTSIDE: u8 = 11;
    pub const NO_LENGTH: u8 = 12;
    pub const SOURCE_OUTSIDE: u8 = 13;
    pub const DESTINATION_OUTSIDE: u8 = 14;
}

/// The machine. SW_RESET is bit 16 of `control`; an image also calls it armed.
#[derive(Clone, Copy, Debug, PartialEq, Eq)]
pub struct Machine {
    pub mode: Mode,
    pub window: Window,
    pub phase: Phase,
    pub status: u8,
    pub control: u32,
    pub pointer: u32,
    pub count: u8,
    pub pending: bool,
    pub kept: Kept,
    /// Both 0 in every phase but Faulted.
    pub fault_code: u8,
    pub fault_address: u32,
    /// What was read ahead.
    pub slot: Slot,
    /// How often RUN has gone from 0 to 1.
    pub run_number: u32,
}

impl Machine {
    /// A machine as it is created: all but mode and window is 0.
    pub fn fresh(mode: Mode, window: Window) -> Machine {
        Machine {
            mode,
            window,
            phase: Phase::Rest,
            status: 0,
            control: 0,
            pointer: 0,
            count: 0,
            pending: false,
            kept: Kept::default(),
            fault_code: 0,
            fault_address: 0,
            slot: Slot::default(),
            run_number: 0,
        }
    }

    /// Whether any of these control bits is 1.
    pub fn controls(&self, bits: u32) -> bool {
        self.control & bits != 0
    }

    pub fn runs(&self) -> bool {
        self.controls(control::RUN)
    }

    /// MAX_DESC_PROCESSED, bits 8 to 15 of control.
    pub fn max_descriptors(&self) -> u8 {
        (self.control >> control::MAX_DESC_PROCESSED_SHIFT) as u8
    }
}
