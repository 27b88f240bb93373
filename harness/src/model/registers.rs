//! Registers and the interrupt.

use super::{Emptying, Machine, Phase, Refusal, Slots};

/// "Offsets 0 status, 4 control, 8 next_descriptor_pointer"
pub mod offset {
    pub const STATUS: u32 = 0;
    pub const CONTROL: u32 = 4;
    pub const NEXT_DESCRIPTOR_POINTER: u32 = 8;
}

/// "Status: 0 ERROR, 1 EOP_ENCOUNTERED, 2 DESCRIPTOR_COMPLETED,
/// 3 CHAIN_COMPLETED, 4 BUSY; others 0."
pub mod status {
    pub const ERROR: u8 = 1 << 0;
    pub const EOP_ENCOUNTERED: u8 = 1 << 1;
    pub const DESCRIPTOR_COMPLETED: u8 = 1 << 2;
    pub const CHAIN_COMPLETED: u8 = 1 << 3;
    pub const BUSY: u8 = 1 << 4;
    /// "Writing 1 clears bits 0 to 3"
    pub const CLEARED_BY_WRITING: u8 = 0x0F;
}

/// The bits of the control register.
pub mod control {
    pub const IE_ERROR: u32 = 1 << 0;
    pub const IE_EOP: u32 = 1 << 1;
    pub const IE_DESCRIPTOR: u32 = 1 << 2;
    pub const IE_CHAIN: u32 = 1 << 3;
    pub const IE_GLOBAL: u32 = 1 << 4;
    pub const RUN: u32 = 1 << 5;
    pub const STOP_DMA_ER: u32 = 1 << 6;
    pub const IE_MAX: u32 = 1 << 7;
    pub const MAX_DESC_PROCESSED_SHIFT: u32 = 8;
    pub const SW_RESET: u32 = 1 << 16;
    pub const PARK: u32 = 1 << 17;
    pub const CLEAR_INTERRUPT: u32 = 1 << 31;
    /// "bits 0..17 are stored"
    pub const STORED: u32 = 0x0003_FFFF;
}

pub trait Registers: Slots {
    /// "Reading changes nothing."
    fn read_register(self, machine: &Machine, offset: u32) -> Result<u32, Refusal> {
        match offset {
            offset::STATUS => Ok(u32::from(machine.status)),
            offset::CONTROL => Ok(machine.control),
            offset::NEXT_DESCRIPTOR_POINTER => Ok(machine.pointer),
            _ => Err(Refusal::NoRegister),
        }
    }

    fn write_register(self, machine: &mut Machine, offset: u32, value: u32) -> Result<(), Refusal> {
        match offset {
            offset::STATUS => self.write_status(machine, value),
            offset::CONTROL => self.write_control(machine, value),
            offset::NEXT_DESCRIPTOR_POINTER => self.write_pointer(machine, value),
            _ => return Err(Refusal::NoRegister),
        }
        Ok(())
    }

    /// "Writing 1 clears bits 0 to 3; other written bits do nothing."
    fn write_status(self, machine: &mut Machine, value: u32) {
        machine.status &= !(value as u8 & status::CLEARED_BY_WRITING);
    }

    /// "The pointer may be written in any phase." Whatever is written, "a host
    /// pointer write" empties the slot.
    fn write_pointer(self, machine: &mut Machine, value: u32) {
        machine.pointer = value;
        self.empty_slot(machine, Emptying::PointerWrite);
    }

    fn write_control(self, machine: &mut Machine, value: u32) {
        if self.resets(machine, value) {
            self.reset(machine, value);
        } else {
            self.store_control(machine, value);
        }
    }

    /// "if bit 16 is written and already reads 1"
    fn resets(self, machine: &Machine, value: u32) -> bool {
        value & control::SW_RESET != 0 && machine.controls(control::SW_RESET)
    }

    /// "the machine is fresh again (mode and window stay) and the rest of the
    /// value is ignored"; the run number "outlives a reset".
    fn reset(self, machine: &mut Machine, _value: u32) {
        *machine = Machine {
            run_number: machine.run_number,
            ..Machine::fresh(machine.mode, machine.window)
        };
    }

    /// "Otherwise bits 0..17 are stored; bit 31 clears the pending interrupt;
    /// RUN going 0 to 1 sets the descriptor count to 0"
    fn store_control(self, machine: &mut Machine, value: u32) {
        let ran_before = machine.runs();
        machine.control = value & control::STORED;
        if value & control::CLEAR_INTERRUPT != 0 {
            machine.pending = false;
        }
        if machine.runs() && !ran_before {
            machine.count = 0;
            self.count_run(machine);
        }
        self.leave_stopped_phase(machine);
    }

    /// "The run number rises by 1 whenever RUN goes 0 to 1, stays at its largest
    /// value".
    fn count_run(self, machine: &mut Machine) {
        machine.run_number = machine.run_number.saturating_add(1);
    }

    /// "RUN 0 in Ended or Halted goes to Rest with BUSY 0."
    fn leave_stopped_phase(self, machine: &mut Machine) {
        if !machine.runs() && matches!(machine.phase, Phase::Ended | Phase::Halted) {
            self.go_to_rest(machine);
        }
    }

    /// "Rest, BUSY 0"
    fn go_to_rest(self, machine: &mut Machine) {
        machine.phase = Phase::Rest;
        machine.status &= !status::BUSY;
        self.empty_slot(machine, Emptying::Rest);
    }

    /// "Each event pends only under its own enable."
    fn pend(self, machine: &mut Machine, enable: u32) {
        if machine.controls(enable) {
            machine.pending = true;
        }
    }

    /// An event sets its status bit and pends.
    fn signal(self, machine: &mut Machine, bit: u8, enable: u32) {
        machine.status |= bit;
        self.pend(machine, enable);
    }

    /// "The line is up exactly when an interrupt is pending and IE_GLOBAL is 1."
    fn line(self, machine: &Machine) -> bool {
        machine.pending && machine.controls(control::IE_GLOBAL)
    }
}
