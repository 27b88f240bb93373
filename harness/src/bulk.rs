//! The core as one writes it who wants it fast: in Move as many bytes are moved
//! at once as budget, descriptor, stream, room and window allow; and a chain is
//! walked with a mark for each word of the window.
//!
//! The library is held to the speed of this model, so it does all that a run has
//! to do. Whatever moves no byte it shares with the plain model: the image with
//! its rules, the refusals, Fetch, WriteBack with the ledger's record, the report.

mod chains;
pub mod rows;

use crate::model::{
    descriptor_control, Calls, Controllers, Descriptors, Editions, Fault, Findings, Images,
    Ledgers, Machine, Mends, Mode, Phase, Ports, Reason, Registers, Report, Slots, Steps, Timers,
    Windows, OUTPUT_EOP, OUTPUT_SOP,
};
use rows::Row;

#[derive(Clone, Copy, Debug)]
pub struct Bulk;

impl Windows for Bulk {}
impl Registers for Bulk {}
impl Descriptors for Bulk {}
impl Slots for Bulk {}
impl Ledgers for Bulk {}
impl Findings for Bulk {}
impl Mends for Bulk {}
impl Images for Bulk {}
impl Controllers for Bulk {}
impl Timers for Bulk {}
impl Editions for Bulk {}

impl Calls for Bulk {
    const NAME: &'static str = "bulk model";
}

impl Steps for Bulk {
    fn run(self, machine: &mut Machine, ports: &mut Ports, budget: u32) -> Report {
        let mut left = budget;
        let reason = loop {
            if let Some(reason) = self.obstacle(machine, ports) {
                break reason;
            }
            if left == 0 {
                break Reason::Budget;
            }
            left -= if machine.phase == Phase::Move {
                self.move_many(machine, ports, left)
            } else {
                self.take_step(machine, ports);
                1
            };
        };
        ports.report(reason, budget - left)
    }
}

/// Where a row is read or written, and how many bytes the window has for it.
struct Reach {
    row: Row,
    bytes: usize,
}

impl Reach {
    fn new(machine: &Machine, at: usize, fixed_bit: u8) -> Reach {
        let fixed = machine.kept.control & fixed_bit != 0;
        let ahead = machine.window.length as usize - at;
        Reach {
            row: Row { at, fixed },
            bytes: if fixed { usize::MAX } else { ahead },
        }
    }
}

impl Bulk {
    /// Moves bytes at once, or faults, and gives the steps that were taken.
    fn move_many(self, machine: &mut Machine, ports: &mut Ports, budget: u32) -> u32 {
        let wanted = self.bytes_wanted(machine.mode, machine.kept.length);
        let most = (budget as usize).min(usize::from(wanted - machine.kept.moved));
        let outcome = match machine.mode {
            Mode::MemoryToMemory => self.copy_many(machine, ports, most),
            Mode::MemoryToStream => self.send_many(machine, ports, most),
            Mode::StreamToMemory => self.receive_many(machine, ports, most),
        };
        match outcome {
            Ok(bytes) => {
                let kept = &mut machine.kept;
                kept.moved += bytes as u16;
                if kept.moved == wanted || kept.eop_seen {
                    machine.phase = Phase::WriteBack;
                }
                bytes as u32
            }
            Err(fault) => {
                self.fail(machine, fault);
                1
            }
        }
    }

    fn reads(self, machine: &Machine) -> Result<Reach, Fault> {
        let at = self.source_place(machine)?;
        let fixed_bit = descriptor_control::READ_FIXED_ADDRESS;
        Ok(Reach::new(machine, at, fixed_bit))
    }

    fn writes(self, machine: &Machine) -> Result<Reach, Fault> {
        let at = self.destination_place(machine)?;
        let fixed_bit = descriptor_control::WRITE_FIXED_ADDRESS;
        Ok(Reach::new(machine, at, fixed_bit))
    }

    fn copy_many(self, machine: &Machine, ports: &mut Ports, most: usize) -> Result<usize, Fault> {
        let (from, to) = (self.reads(machine)?, self.writes(machine)?);
        let bytes = most.min(from.bytes).min(to.bytes);
        rows::copy(ports.memory, from.row, to.row, bytes);
        Ok(bytes)
    }

    /// A row of beats without a mark, on which the marks are then put.
    fn send_many(self, machine: &Machine, ports: &mut Ports, most: usize) -> Result<usize, Fault> {
        let from = self.reads(machine)?;
        let room = &mut ports.out.as_chunks_mut().0[ports.made..];
        let bytes = most.min(from.bytes).min(room.len());
        rows::send(ports.memory, from.row, &mut room[..bytes]);
        let kept = &machine.kept;
        let marked = |bit| kept.control & bit != 0;
        if kept.moved == 0 && marked(descriptor_control::WRITE_FIXED_ADDRESS) {
            room[0][0] |= (OUTPUT_SOP >> 8) as u8;
        }
        let finished = usize::from(kept.moved) + bytes == usize::from(kept.length);
        if finished && marked(descriptor_control::GENERATE_EOP) {
            room[bytes - 1][0] |= (OUTPUT_EOP >> 8) as u8;
        }
        ports.made += bytes;
        Ok(bytes)
    }

    fn receive_many(
        self,
        machine: &mut Machine,
        ports: &mut Ports,
        most: usize,
    ) -> Result<usize, Fault> {
        let to = self.writes(machine)?;
        let beats = &ports.beats.as_chunks().0[ports.taken..];
        let most = most.min(to.bytes).min(beats.len());
        let received = rows::receive(ports.memory, to.row, &beats[..most]);
        machine.kept.errors |= received.errors;
        machine.kept.eop_seen = received.eop;
        ports.taken += received.beats;
        Ok(received.beats)
    }
}
