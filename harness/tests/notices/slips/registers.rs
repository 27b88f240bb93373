//! Errors in registers and interrupts.

use super::Slip;
use harness::model::{
    control, offset, status, Emptying, Machine, Paper, Phase, Refusal, Registers, Slots,
};

slips! { Registers;

write_status(machine: &mut Machine, value: u32) -> () {
    "a status write clears BUSY" => {
        machine.status &= !(value as u8);
    }
    "a status write sets the bits as written" => {
        machine.status = machine.status & status::BUSY | value as u8 & 0x0F;
    }
    "a status write clears the pending interrupt" => {
        Paper.write_status(machine, value);
        machine.pending = false;
    }
}

write_pointer(machine: &mut Machine, value: u32) -> () {
    "the pointer is not written while BUSY" => {
        if machine.status & status::BUSY == 0 {
            Paper.write_pointer(machine, value);
        }
    }
    "a pointer write of the number that is there leaves the slot" => {
        if value != machine.pointer {
            Paper.write_pointer(machine, value);
        }
    }
    "a pointer write empties the slot in Fetch alone" => {
        let slot = machine.slot;
        Paper.write_pointer(machine, value);
        if machine.phase != Phase::Fetch {
            machine.slot = slot;
        }
    }
    "the pointer loses its two low bits" => {
        Paper.write_pointer(machine, value & !3);
    }
}

resets(machine: &Machine, value: u32) -> bool {
    "one write of SW_RESET resets" => {
        value & control::SW_RESET != 0
    }
    "an armed machine is reset by any control write" => {
        machine.controls(control::SW_RESET)
    }
}

reset(machine: &mut Machine, value: u32) -> () {
    "a reset keeps the pending interrupt" => {
        keeping!(machine.pending, Paper.reset(machine, value));
    }
    "a reset keeps the slot" => {
        keeping!(machine.slot, Paper.reset(machine, value));
    }
    "a reset clears the run number" => {
        Paper.reset(machine, value);
        machine.run_number = 0;
    }
    "a reset counts a run" => {
        Paper.reset(machine, value);
        Paper.count_run(machine);
    }
    "RUN in the resetting write counts a run" => {
        let rises = value & control::RUN != 0 && !machine.runs();
        Paper.reset(machine, value);
        if rises {
            Paper.count_run(machine);
        }
    }
    "a reset keeps the pointer" => {
        keeping!(machine.pointer, Paper.reset(machine, value));
    }
    "a reset keeps the count" => {
        keeping!(machine.count, Paper.reset(machine, value));
    }
    "a reset does not leave Faulted" => {
        if machine.phase != Phase::Faulted {
            Paper.reset(machine, value);
        }
    }
    "a reset keeps its fault code" => {
        keeping!(machine.fault_code, Paper.reset(machine, value));
    }
    "the resetting write stores its other bits" => {
        Paper.reset(machine, value);
        Paper.store_control(machine, value & !control::SW_RESET);
    }
    "a reset leaves the machine armed" => {
        Paper.reset(machine, value);
        machine.control = control::SW_RESET;
    }
}

count_run(machine: &mut Machine) -> () {
    "the run number wraps" => {
        machine.run_number = machine.run_number.wrapping_add(1);
    }
    "the run number is not counted" => {
    }
    "the run number has 16 bits" => {
        Paper.count_run(machine);
        machine.run_number &= 0xFFFF;
    }
    "the largest run number is not given" => {
        machine.run_number = machine.run_number.saturating_add(1).min(u32::MAX - 1);
    }
    "only runs from Rest are counted" => {
        if machine.phase == Phase::Rest {
            Paper.count_run(machine);
        }
    }
    "RUN that rises in Faulted counts no run" => {
        if machine.phase != Phase::Faulted {
            Paper.count_run(machine);
        }
    }
}

store_control(machine: &mut Machine, value: u32) -> () {
    "clearing RUN empties the slot" => {
        Paper.store_control(machine, value);
        if !machine.runs() {
            Paper.empty_slot(machine, Emptying::Rest);
        }
    }
    "setting RUN empties the slot" => {
        let ran_before = machine.runs();
        Paper.store_control(machine, value);
        if machine.runs() && !ran_before {
            Paper.empty_slot(machine, Emptying::Rest);
        }
    }
    "every write with RUN 1 counts a run" => {
        let ran_before = machine.runs();
        Paper.store_control(machine, value);
        if machine.runs() && ran_before {
            Paper.count_run(machine);
        }
    }
    "the arming write counts no run" => {
        let number = machine.run_number;
        let armed_before = machine.controls(control::SW_RESET);
        Paper.store_control(machine, value);
        if machine.controls(control::SW_RESET) && !armed_before {
            machine.run_number = number;
        }
    }
    "RUN that falls counts a run" => {
        let ran_before = machine.runs();
        Paper.store_control(machine, value);
        if !machine.runs() && ran_before {
            Paper.count_run(machine);
        }
    }
    "writing SW_RESET as 0 does not disarm" => {
        let armed = machine.control & control::SW_RESET;
        Paper.store_control(machine, value);
        machine.control |= armed;
    }
    "the arming write stores nothing else" => {
        if value & control::SW_RESET == 0 {
            Paper.store_control(machine, value);
        } else {
            machine.control |= control::SW_RESET;
        }
    }
    "control bit 18 is stored" => {
        Paper.store_control(machine, value);
        machine.control |= value & 1 << 18;
    }
    "CLEAR_INTERRUPT is stored" => {
        Paper.store_control(machine, value);
        machine.control |= value & control::CLEAR_INTERRUPT;
    }
    "CLEAR_INTERRUPT does nothing" => {
        Paper.store_control(machine, value & !control::CLEAR_INTERRUPT);
    }
    "every control write clears the interrupt" => {
        Paper.store_control(machine, value | control::CLEAR_INTERRUPT);
    }
    "the count is not zeroed where RUN goes to 1" => {
        keeping!(machine.count, Paper.store_control(machine, value));
    }
    "the count is zeroed by every write with RUN 1" => {
        Paper.store_control(machine, value);
        if machine.runs() {
            machine.count = 0;
        }
    }
    "the count is zeroed where RUN goes to 0" => {
        Paper.store_control(machine, value);
        if !machine.runs() {
            machine.count = 0;
        }
    }
    "in Faulted the count is not zeroed" => {
        let count = machine.count;
        Paper.store_control(machine, value);
        if machine.phase == Phase::Faulted {
            machine.count = count;
        }
    }
}

leave_stopped_phase(machine: &mut Machine) -> () {
    "RUN 0 does not leave Ended" => {
        if machine.phase != Phase::Ended {
            Paper.leave_stopped_phase(machine);
        }
    }
    "RUN 0 does not leave Halted" => {
        if machine.phase != Phase::Halted {
            Paper.leave_stopped_phase(machine);
        }
    }
    "any control write leaves Ended" => {
        if machine.phase == Phase::Ended {
            Paper.go_to_rest(machine);
        }
        Paper.leave_stopped_phase(machine);
    }
    "RUN 0 leaves Fetch at once" => {
        if machine.phase == Phase::Fetch && !machine.runs() {
            Paper.go_to_rest(machine);
        }
        Paper.leave_stopped_phase(machine);
    }
    "RUN 0 leaves Faulted" => {
        if machine.phase == Phase::Faulted && !machine.runs() {
            *machine = Machine { fault_code: 0, fault_address: 0, ..*machine };
            Paper.go_to_rest(machine);
        }
        Paper.leave_stopped_phase(machine);
    }
}

go_to_rest(machine: &mut Machine) -> () {
    "BUSY stays 1 in Rest" => {
        machine.phase = Phase::Rest;
    }
}

line(machine: &Machine) -> bool {
    "the line is up without IE_GLOBAL" => {
        machine.pending
    }
    "the line is up whenever IE_GLOBAL is 1" => {
        machine.controls(control::IE_GLOBAL)
    }
}

pend(machine: &mut Machine, enable: u32) -> () {
    "nothing pends without IE_GLOBAL" => {
        if machine.controls(control::IE_GLOBAL) {
            Paper.pend(machine, enable);
        }
    }
    "an event pends without its enable" => {
        machine.pending = true;
    }
}

signal(machine: &mut Machine, bit: u8, enable: u32) -> () {
    "an event pends only where its status bit was 0" => {
        if machine.status & bit == 0 {
            Paper.signal(machine, bit, enable);
        }
    }
    "an event sets its status bit only under its enable" => {
        if machine.controls(enable) {
            Paper.signal(machine, bit, enable);
        }
    }
    "an error pends under IE_EOP" => {
        let confused = if bit == status::ERROR { control::IE_EOP } else { enable };
        Paper.signal(machine, bit, confused);
    }
}

read_register(machine: &Machine, offset: u32) -> Result<u32, Refusal> {
    "offset 12 reads 0" => {
        if offset == 12 { Ok(0) } else { Paper.read_register(machine, offset) }
    }
    "SW_RESET reads 0" => {
        let value = Paper.read_register(machine, offset)?;
        Ok(if offset == offset::CONTROL { value & !control::SW_RESET } else { value })
    }
}

write_register(machine: &mut Machine, offset: u32, value: u32) -> Result<(), Refusal> {
    "only the low 16 bits of an offset count" => {
        Paper.write_register(machine, offset & 0xFFFF, value)
    }
}

}
