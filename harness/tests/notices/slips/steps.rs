//! Errors in steps and runs.

use super::Slip;
use harness::model::{
    control, descriptor_control, status, Descriptor, Descriptors, Fault, InputBeat, Kept, Ledger,
    Ledgers, Machine, Mode, Paper, Phase, Ports, Reason, Registers, Report, Slot, Slots, Steps,
    Windows, DESCRIPTOR_SIZE, RECORD_SIZE,
};

/// WriteBack as it is but for the ledger, which stays as it is.
fn write_back_unrecorded(machine: &mut Machine, ports: &mut Ports) {
    let mut aside = [0; RECORD_SIZE];
    let ledger = Ledger::new(&mut aside, 0);
    Paper.write_back(machine, &mut Ports::new(ports.memory, &[], &mut [], ledger));
}

slips! { Steps;

run(machine: &mut Machine, ports: &mut Ports, budget: u32) -> Report {
    "one step more than the budget" => {
        Paper.run(machine, ports, budget.saturating_add(1))
    }
    "Budget is given where the machine's own reason is due" => {
        let report = Paper.run(machine, ports, budget);
        let spent = report.steps == budget;
        Report { reason: if spent { Reason::Budget } else { report.reason }, ..report }
    }
    "a fault is not counted as a step" => {
        let report = Paper.run(machine, ports, budget);
        let faulted = report.reason == Reason::Faulted;
        Report { steps: report.steps.saturating_sub(u32::from(faulted)), ..report }
    }
    "beats made are told as taken" => {
        let report = Paper.run(machine, ports, budget);
        Report { taken: report.taken + report.made, ..report }
    }
    "output past the beats made is cleared" => {
        let report = Paper.run(machine, ports, budget);
        ports.out[2 * report.made as usize..].fill(0);
        report
    }
    "all beats of a run are one step" => {
        let report = Paper.run(machine, ports, budget);
        let further_beats = (report.taken + report.made).saturating_sub(1);
        Report { steps: report.steps - further_beats, ..report }
    }
    "a copy reads its source before it writes" => {
        let mut unwritten = ports.memory.to_vec();
        let mut steps = 0;
        let reason = loop {
            if steps == budget {
                break Paper.obstacle(machine, ports).unwrap_or(Reason::Budget);
            }
            if machine.phase == Phase::Fetch {
                unwritten.copy_from_slice(ports.memory);
            }
            let copies = machine.mode == Mode::MemoryToMemory && machine.phase == Phase::Move;
            let places = (Paper.source_place(machine), Paper.destination_place(machine));
            if let Err(reason) = Paper.step(machine, ports) {
                break reason;
            }
            if let (true, Ok(from), Ok(to)) = (copies, places.0, places.1) {
                ports.memory[to] = unwritten[from];
            }
            steps += 1;
        };
        let (taken, made) = (ports.taken as u32, ports.made as u32);
        Report { reason, steps, taken, made, used: ports.ledger.used }
    }
    "Budget comes before LedgerFull" => {
        let report = Paper.run(machine, ports, budget);
        let spent = report.steps == budget && report.reason == Reason::LedgerFull;
        Report { reason: if spent { Reason::Budget } else { report.reason }, ..report }
    }
    "LedgerFull is counted as a step" => {
        let report = Paper.run(machine, ports, budget);
        let full = report.reason == Reason::LedgerFull;
        Report { steps: report.steps.saturating_add(u32::from(full)), ..report }
    }
    "only the records of this run are told" => {
        let used = ports.ledger.used;
        let report = Paper.run(machine, ports, budget);
        Report { used: report.used - used, ..report }
    }
    "a run begins with an empty slot" => {
        machine.slot = Slot::default();
        Paper.run(machine, ports, budget)
    }
    "a run reads again what is in the slot" => {
        if machine.slot.is_held() {
            Paper.read_ahead(machine, ports.memory);
        }
        Paper.run(machine, ports, budget)
    }
    "a run begins its ledger anew" => {
        ports.ledger.used = 0;
        Paper.run(machine, ports, budget)
    }
}

step(machine: &mut Machine, ports: &mut Ports) -> Result<(), Reason> {
    "leaving Rest and fetching are one step" => {
        let resting = machine.phase == Phase::Rest;
        Paper.step(machine, ports)?;
        if resting { Paper.step(machine, ports) } else { Ok(()) }
    }
    "with RUN 0 WriteBack needs no room for a record" => {
        let full = Paper.obstacle(machine, ports) == Some(Reason::LedgerFull);
        if machine.runs() || !full {
            return Paper.step(machine, ports);
        }
        write_back_unrecorded(machine, ports);
        Ok(())
    }
    "where there is no room the record is lost" => {
        if Paper.obstacle(machine, ports) != Some(Reason::LedgerFull) {
            return Paper.step(machine, ports);
        }
        write_back_unrecorded(machine, ports);
        Ok(())
    }
    "under PARK nothing is recorded" => {
        if machine.phase != Phase::WriteBack || !machine.controls(control::PARK) {
            return Paper.step(machine, ports);
        }
        write_back_unrecorded(machine, ports);
        Ok(())
    }
    "only mode 2 is recorded" => {
        if machine.phase != Phase::WriteBack || machine.mode == Mode::StreamToMemory {
            return Paper.step(machine, ports);
        }
        write_back_unrecorded(machine, ports);
        Ok(())
    }
}

leave_rest(machine: &mut Machine) -> () {
    "leaving Rest does not set BUSY" => {
        machine.phase = Phase::Fetch;
    }
}

obstacle(machine: &Machine, ports: &Ports) -> Option<Reason> {
    "RUN 0 in Fetch is no step" => {
        if machine.phase == Phase::Fetch && !machine.runs() {
            return Some(Reason::Rest);
        }
        Paper.obstacle(machine, ports)
    }
    "Ended tells Rest" => {
        let reason = Paper.obstacle(machine, ports);
        if reason == Some(Reason::Ended) { Some(Reason::Rest) } else { reason }
    }
    "a descriptor is fetched only where its record has room" => {
        let asks = machine.phase == Phase::Fetch && machine.runs();
        let full = asks.then(|| Paper.ledger_obstacle(machine, &ports.ledger)).flatten();
        full.or(Paper.obstacle(machine, ports))
    }
    "the last byte is moved only where the record has room" => {
        let Kept { length, moved, .. } = machine.kept;
        let last = Paper.bytes_wanted(machine.mode, length).wrapping_sub(1);
        let asks = machine.phase == Phase::Move && moved == last;
        let full = asks.then(|| Paper.ledger_obstacle(machine, &ports.ledger)).flatten();
        full.or(Paper.obstacle(machine, ports))
    }
}

ledger_obstacle(machine: &Machine, ledger: &Ledger) -> Option<Reason> {
    "LedgerFull is told as OutputFull" => {
        Paper.ledger_obstacle(machine, ledger).map(|_| Reason::OutputFull)
    }
}

fetch(machine: &mut Machine, memory: &[u8]) -> Result<(), Fault> {
    "RUN 0 is not looked at in Fetch" => {
        let control = machine.control;
        machine.control |= control::RUN;
        let outcome = Paper.fetch(machine, memory);
        machine.control = control;
        outcome
    }
    "a bad address faults in the Fetch that links to it" => {
        Paper.fetch(machine, memory)?;
        Paper.check_found(machine, &machine.slot)
    }
    "a fault in the slot comes before RUN 0" => {
        Paper.check_found(machine, &machine.slot)?;
        Paper.fetch(machine, memory)
    }
    "what is in the slot is fetched with RUN 0 too" => {
        let (control, held) = (machine.control, machine.slot.is_held());
        machine.control |= control::RUN * u32::from(held);
        let outcome = Paper.fetch(machine, memory);
        machine.control = control;
        outcome
    }
    "a descriptor without length is found where it is linked to" => {
        let fetching = machine.runs();
        Paper.fetch(machine, memory)?;
        let ahead = Paper.read_fields(&machine.slot.bytes);
        let owned = ahead.control & descriptor_control::OWNED_BY_HW != 0;
        let from_memory = machine.mode != Mode::StreamToMemory;
        if fetching && owned && ahead.length == 0 && from_memory {
            let address = u64::from(machine.pointer);
            return Err(Fault { code: Fault::NO_LENGTH, address });
        }
        Ok(())
    }
    "only the first byte of a descriptor must be inside" => {
        let mut longer = memory.to_vec();
        longer.resize(memory.len() + DESCRIPTOR_SIZE, 0);
        let window = machine.window;
        machine.window.length += DESCRIPTOR_SIZE as u64 - 1;
        let outcome = Paper.fetch(machine, &longer);
        machine.window = window;
        outcome
    }
}

stream_obstacle(machine: &Machine, ports: &Ports) -> Option<Reason> {
    "OutputFull comes before fault 13" => {
        if machine.mode == Mode::MemoryToStream && !ports.has_room() {
            return Some(Reason::OutputFull);
        }
        Paper.stream_obstacle(machine, ports)
    }
    "fault 14 comes before NeedsInput" => {
        let outside = Paper.destination_place(machine).is_err();
        if machine.mode == Mode::StreamToMemory && outside {
            return None;
        }
        Paper.stream_obstacle(machine, ports)
    }
}

fail(machine: &mut Machine, fault: Fault) -> () {
    "a fault keeps BUSY" => {
        let busy = machine.status & status::BUSY;
        Paper.fail(machine, fault);
        machine.status |= busy;
    }
    "a fault keeps the descriptor" => {
        keeping!(machine.kept, Paper.fail(machine, fault));
    }
    "a fault sets ERROR" => {
        Paper.fail(machine, fault);
        machine.status |= status::ERROR;
    }
    "a fault pends under IE_ERROR" => {
        Paper.fail(machine, fault);
        Paper.pend(machine, control::IE_ERROR);
    }
    "a fault clears RUN" => {
        Paper.fail(machine, fault);
        machine.control &= !control::RUN;
    }
    "a fault address above 2^32 is not taken modulo" => {
        let address = fault.address.min(u64::from(u32::MAX));
        Paper.fail(machine, Fault { address, ..fault });
    }
    "a fault keeps the place, not the address" => {
        let address = fault.address.wrapping_sub(machine.window.base);
        Paper.fail(machine, Fault { address, ..fault });
    }
}

check_found(machine: &Machine, found: &Slot) -> Result<(), Fault> {
    "a fault from the slot has the address of the window" => {
        let address = machine.window.base;
        Paper.check_found(machine, found).map_err(|fault| {
            if machine.slot.is_held() { Fault { address, ..fault } } else { fault }
        })
    }
    "fault 10 from the slot is fault 11" => {
        let code = Fault::DESCRIPTOR_OUTSIDE;
        Paper.check_found(machine, found).map_err(|fault| {
            if machine.slot.is_held() { Fault { code, ..fault } } else { fault }
        })
    }
}

accept(machine: &mut Machine, read: &Descriptor) -> Result<(), Fault> {
    "an unowned descriptor of length 0 is fault 12" => {
        if read.length == 0 && machine.mode != Mode::StreamToMemory {
            let address = u64::from(machine.pointer);
            return Err(Fault { code: Fault::NO_LENGTH, address });
        }
        Paper.accept(machine, read)
    }
    "length 0 is fault 12 in mode 2 too" => {
        if read.length == 0 && read.control & descriptor_control::OWNED_BY_HW != 0 {
            let address = u64::from(machine.pointer);
            return Err(Fault { code: Fault::NO_LENGTH, address });
        }
        Paper.accept(machine, read)
    }
    "fault 12 moves the pointer on" => {
        Paper.accept(machine, read).inspect_err(|_| machine.pointer = read.next)
    }
    "fault 12 keeps the source's address" => {
        let address = u64::from(read.source);
        Paper.accept(machine, read).map_err(|fault| Fault { address, ..fault })
    }
}

end_chain(machine: &mut Machine, read: &Descriptor) -> () {
    "BUSY is cleared at Ended" => {
        Paper.end_chain(machine, read);
        machine.status &= !status::BUSY;
    }
    "the pointer moves on at Ended" => {
        Paper.end_chain(machine, read);
        machine.pointer = read.next;
    }
    "RUN is cleared at Ended" => {
        Paper.end_chain(machine, read);
        machine.control &= !control::RUN;
    }
    "Ended does not set CHAIN_COMPLETED" => {
        keeping!(machine.status, Paper.end_chain(machine, read));
    }
}

keep(machine: &mut Machine, read: &Descriptor) -> () {
    "the pointer does not move on" => {
        keeping!(machine.pointer, Paper.keep(machine, read));
    }
    "the source is not kept in mode 2" => {
        Paper.keep(machine, read);
        if machine.mode == Mode::StreamToMemory {
            machine.kept.source = 0;
        }
    }
    "the destination is not kept in mode 1" => {
        Paper.keep(machine, read);
        if machine.mode == Mode::MemoryToStream {
            machine.kept.destination = 0;
        }
    }
    "length 0 is kept as 65,535" => {
        Paper.keep(machine, read);
        machine.kept.length = Paper.bytes_wanted(machine.mode, read.length);
    }
}

move_byte(machine: &mut Machine, ports: &mut Ports) -> Result<(), Fault> {
    "data changes what is in the slot" => {
        Paper.move_byte(machine, ports)?;
        if machine.slot.is_held() {
            Paper.read_ahead(machine, ports.memory);
        }
        Ok(())
    }
    "RUN 0 stops Move" => {
        if machine.runs() {
            return Paper.move_byte(machine, ports);
        }
        machine.kept = Kept::default();
        Paper.go_to_rest(machine);
        Ok(())
    }
    "a record is written with the last byte, before its step" => {
        Paper.move_byte(machine, ports)?;
        if Paper.obstacle(machine, ports).is_none() && machine.phase == Phase::WriteBack {
            keeping!(ports.ledger.used, Paper.append(&mut ports.ledger, &Paper.record(machine)));
        }
        Ok(())
    }
    "fault 14 takes the beat" => {
        let takes = machine.mode == Mode::StreamToMemory;
        Paper.move_byte(machine, ports).inspect_err(|_| ports.taken += usize::from(takes))
    }
    "a beat past an early EOP is taken" => {
        Paper.move_byte(machine, ports)?;
        let wanted = Paper.bytes_wanted(machine.mode, machine.kept.length);
        let early = machine.kept.eop_seen && machine.kept.moved < wanted;
        ports.taken += usize::from(early && ports.has_beat());
        Ok(())
    }
    "in mode 0 fault 14 comes before 13" => {
        if machine.mode == Mode::MemoryToMemory {
            Paper.destination_place(machine)?;
        }
        Paper.move_byte(machine, ports)
    }
    "a byte with an error is not moved" => {
        let beats = ports.beats.get(2 * ports.taken).copied();
        let erroneous = beats.is_some_and(|first| first >> 1 != 0);
        let place = Paper.destination_place(machine).ok();
        let spared = place.map(|place| (place, ports.memory[place]));
        let is_input = machine.mode == Mode::StreamToMemory;
        Paper.move_byte(machine, ports)?;
        if let (true, true, Some((place, byte))) = (is_input, erroneous, spared) {
            ports.memory[place] = byte;
        }
        Ok(())
    }
    "a byte with an error is not counted" => {
        let (errors, moved) = (machine.kept.errors, machine.kept.moved);
        Paper.move_byte(machine, ports)?;
        if machine.kept.errors != errors && moved > 0 {
            machine.kept.moved = moved;
        }
        Ok(())
    }
}

byte_address(kept: &Kept, start: u32, fixed: u8) -> u64 {
    "the FIXED bits change places" => {
        let both = descriptor_control::READ_FIXED_ADDRESS | descriptor_control::WRITE_FIXED_ADDRESS;
        Paper.byte_address(kept, start, fixed ^ both)
    }
    "the FIXED bits do nothing" => {
        Paper.byte_address(kept, start, 0)
    }
    "bytes are copied from behind" => {
        let moved = kept.length.saturating_sub(1).saturating_sub(kept.moved);
        Paper.byte_address(&Kept { moved, ..*kept }, start, fixed)
    }
}

source_place(machine: &Machine) -> Result<usize, Fault> {
    "source outside is fault 14" => {
        let code = Fault::DESTINATION_OUTSIDE;
        Paper.source_place(machine).map_err(|fault| Fault { code, ..fault })
    }
}

output_beat(machine: &Machine, data: u8) -> u16 {
    "SOP under READ_FIXED" => {
        let mut confused = *machine;
        let bits = machine.kept.control;
        let read = bits & descriptor_control::READ_FIXED_ADDRESS;
        confused.kept.control = bits & !descriptor_control::WRITE_FIXED_ADDRESS | read << 1;
        Paper.output_beat(&confused, data)
    }
    "SOP on every byte" => {
        let fixed = machine.kept.control & descriptor_control::WRITE_FIXED_ADDRESS != 0;
        Paper.output_beat(machine, data) | u16::from(fixed) << 9
    }
    "EOP on every byte" => {
        let generate = machine.kept.control & descriptor_control::GENERATE_EOP != 0;
        Paper.output_beat(machine, data) | u16::from(generate) << 8
    }
    "EOP without GENERATE_EOP" => {
        let mut confused = *machine;
        confused.kept.control |= descriptor_control::GENERATE_EOP;
        Paper.output_beat(&confused, data)
    }
    "SOP and EOP change places" => {
        let beat = Paper.output_beat(machine, data);
        beat & 0xFF | (beat & 0x100) << 1 | (beat & 0x200) >> 1
    }
}

input_beat(beat: u16) -> InputBeat {
    "input errors have six bits" => {
        Paper.input_beat(beat & 0x7FFF)
    }
    "the bit above EOP is taken for it" => {
        InputBeat { eop: beat & 0x200 != 0, ..Paper.input_beat(beat) }
    }
}

gather(machine: &mut Machine, beat: InputBeat) -> () {
    "errors are not gathered, the last stays" => {
        machine.kept.errors = 0;
        Paper.gather(machine, beat);
    }
    "errors are gathered by XOR" => {
        let errors = machine.kept.errors ^ beat.errors;
        Paper.gather(machine, beat);
        machine.kept.errors = errors;
    }
    "EOP is not seen" => {
        Paper.gather(machine, InputBeat { eop: false, ..beat });
    }
    "EOP is not seen on byte L" => {
        let last = Paper.bytes_wanted(machine.mode, machine.kept.length) - 1;
        let eop = beat.eop && machine.kept.moved != last;
        Paper.gather(machine, InputBeat { eop, ..beat });
    }
}

count_byte(machine: &mut Machine) -> () {
    "under STOP_DMA_ER the first error beat ends the descriptor" => {
        Paper.count_byte(machine);
        if machine.kept.errors != 0 && machine.controls(control::STOP_DMA_ER) {
            machine.phase = Phase::WriteBack;
        }
    }
}

write_back(machine: &mut Machine, ports: &mut Ports) -> () {
    "where RUN is 0 the rest of the chain loses OWNED" => {
        Paper.write_back(machine, ports);
        let next = u64::from(machine.pointer);
        let place = Paper.place(machine.window, next, DESCRIPTOR_SIZE as u64);
        if let (Phase::Rest, Some(place)) = (machine.phase, place) {
            ports.memory[place + 31] &= !descriptor_control::OWNED_BY_HW;
        }
    }
    "a write-back changes what is in the slot" => {
        let itself = machine.slot.is_held() && machine.slot.address == machine.kept.address;
        Paper.write_back(machine, ports);
        if itself && machine.slot.is_held() {
            Paper.read_ahead(machine, ports.memory);
        }
    }
    "the slot is filled where Fetch is entered" => {
        Paper.write_back(machine, ports);
        if machine.slot.is_held() {
            Paper.read_ahead(machine, ports.memory);
        }
    }
    "the length is told as actual" => {
        machine.kept.moved = machine.kept.length;
        Paper.write_back(machine, ports);
    }
    "what is recorded has been dropped already" => {
        let before = *machine;
        write_back_unrecorded(machine, ports);
        let dropped = Machine { kept: Kept::default(), ..before };
        Paper.append(&mut ports.ledger, &Paper.record(&dropped));
    }
    "EOP_ENCOUNTERED is set for a generated EOP" => {
        let generate = machine.kept.control & descriptor_control::GENERATE_EOP != 0;
        machine.kept.eop_seen |= generate && machine.mode == Mode::MemoryToStream;
        Paper.write_back(machine, ports);
    }
    "EOP_ENCOUNTERED only where EOP came early" => {
        let wanted = Paper.bytes_wanted(machine.mode, machine.kept.length);
        machine.kept.eop_seen &= machine.kept.moved < wanted;
        Paper.write_back(machine, ports);
    }
    "ERROR is set only under STOP_DMA_ER" => {
        let had = machine.status & status::ERROR;
        Paper.write_back(machine, ports);
        if !machine.controls(control::STOP_DMA_ER) {
            machine.status = machine.status & !status::ERROR | had;
        }
    }
}

write_done_mark(machine: &Machine, memory: &mut [u8]) -> () {
    "a reserved byte is cleared" => {
        Paper.write_done_mark(machine, memory);
        memory[(u64::from(machine.kept.address) - machine.window.base) as usize + 27] = 0;
    }
    "bytes_to_transfer is cleared" => {
        Paper.write_done_mark(machine, memory);
        memory[(u64::from(machine.kept.address) - machine.window.base) as usize + 24] = 0;
    }
}

done_control(machine: &Machine, in_memory: u8) -> u8 {
    "control is read again from memory" => {
        let mut confused = *machine;
        confused.kept.control = in_memory;
        Paper.done_control(&confused, in_memory)
    }
    "PARK is ignored" => {
        machine.kept.control & !descriptor_control::OWNED_BY_HW
    }
    "OWNED is never cleared" => {
        machine.kept.control
    }
    "control is written back without bits 3 to 6" => {
        Paper.done_control(machine, in_memory) & 0x87
    }
}

count_descriptor(machine: &mut Machine) -> () {
    "MAX must be reached exactly" => {
        let next = machine.count.wrapping_add(1);
        if next > machine.max_descriptors() && machine.max_descriptors() != 0 {
            machine.count = next;
        } else {
            Paper.count_descriptor(machine);
        }
    }
    "MAX must be passed" => {
        let next = machine.count.wrapping_add(1);
        if next == machine.max_descriptors() {
            machine.count = next;
        } else {
            Paper.count_descriptor(machine);
        }
    }
    "without IE_MAX the count goes on" => {
        let next = machine.count.wrapping_add(1);
        Paper.count_descriptor(machine);
        if machine.max_descriptors() != 0 && !machine.controls(control::IE_MAX) {
            machine.count = next;
        }
    }
    "MAX 0 keeps the count" => {
        if machine.max_descriptors() != 0 {
            Paper.count_descriptor(machine);
        }
    }
    "MAX 0 counts as 256" => {
        if machine.max_descriptors() == 0 {
            machine.count = machine.count.wrapping_add(1);
        } else {
            Paper.count_descriptor(machine);
        }
    }
}

leave_write_back(machine: &mut Machine, errors: bool) -> () {
    "errors halt without STOP_DMA_ER" => {
        let control = machine.control;
        machine.control |= control::STOP_DMA_ER;
        Paper.leave_write_back(machine, errors);
        machine.control = control;
    }
    "STOP_DMA_ER is ignored" => {
        Paper.leave_write_back(machine, false);
    }
    "STOP_DMA_ER halts without errors" => {
        Paper.leave_write_back(machine, true);
    }
    "STOP_DMA_ER comes before RUN 0" => {
        let control = machine.control;
        if errors && machine.controls(control::STOP_DMA_ER) {
            machine.control |= control::RUN;
        }
        Paper.leave_write_back(machine, errors);
        machine.control = control;
    }
    "RUN 0 is ignored in WriteBack" => {
        let control = machine.control;
        machine.control |= control::RUN;
        Paper.leave_write_back(machine, errors);
        machine.control = control;
    }
    "BUSY stays 1 in Halted" => {
        Paper.leave_write_back(machine, errors);
        if machine.phase == Phase::Halted {
            machine.status |= status::BUSY;
        }
    }
    "RUN is cleared in Halted" => {
        Paper.leave_write_back(machine, errors);
        if machine.phase == Phase::Halted {
            machine.control &= !control::RUN;
        }
    }
}

}
