//! Errors in the descriptor that is read ahead.

use super::Slip;
use harness::model::{
    control, descriptor_control, Descriptors, Emptying, Machine, Mode, Paper, Slot, SlotKind,
    Slots, Window, Windows, DESCRIPTOR_SIZE,
};

fn is_owned(slot: &Slot) -> bool {
    slot.bytes[31] & descriptor_control::OWNED_BY_HW != 0
}

fn in_memory(machine: &Machine, memory: &[u8]) -> Slot {
    Paper.look_at(machine.window, machine.pointer, memory)
}

/// The slot is emptied but by this.
fn emptied_but(machine: &mut Machine, by: Emptying, not_by: Emptying) {
    if by != not_by {
        Paper.empty_slot(machine, by);
    }
}

slips! { Slots;

kind_at(window: Window, address: u32) -> SlotKind {
    "fault 11 comes before fault 10" => {
        match Paper.place(window, u64::from(address), DESCRIPTOR_SIZE as u64) {
            Some(_) => Paper.kind_at(window, address),
            None => SlotKind::Outside,
        }
    }
    "fault 10 is told as fault 11" => {
        match Paper.kind_at(window, address) {
            SlotKind::Misaligned => SlotKind::Outside,
            kind => kind,
        }
    }
}

look_at(window: Window, address: u32, memory: &[u8]) -> Slot {
    "the place is held, not the address" => {
        let slot = Paper.look_at(window, address, memory);
        Slot { address: address.wrapping_sub(window.base as u32), ..slot }
    }
    "a fault slot has no address" => {
        let slot = Paper.look_at(window, address, memory);
        let address = if slot.kind == SlotKind::Descriptor { address } else { 0 };
        Slot { address, ..slot }
    }
}

read_ahead(machine: &mut Machine, memory: &[u8]) -> () {
    "nothing is read ahead" => {
        machine.slot = Slot::default();
    }
    "a Fetch from the slot reads nothing ahead" => {
        if machine.slot.is_held() {
            machine.slot = Slot::default();
        } else {
            Paper.read_ahead(machine, memory);
        }
    }
    "a bad address is not kept in the slot" => {
        machine.slot = in_memory(machine, memory);
        if machine.slot.kind != SlotKind::Descriptor {
            machine.slot = Slot::default();
        }
    }
    "an unowned descriptor is not read ahead" => {
        machine.slot = in_memory(machine, memory);
        if machine.slot.kind == SlotKind::Descriptor && !is_owned(&machine.slot) {
            machine.slot = Slot::default();
        }
    }
    "a descriptor that links to itself is not read ahead" => {
        Paper.read_ahead(machine, memory);
        if machine.pointer == machine.kept.address {
            machine.slot = Slot::default();
        }
    }
    "nothing is read ahead under PARK" => {
        Paper.read_ahead(machine, memory);
        if machine.controls(control::PARK) {
            machine.slot = Slot::default();
        }
    }
    "only mode 2 reads ahead" => {
        Paper.read_ahead(machine, memory);
        if machine.mode != Mode::StreamToMemory {
            machine.slot = Slot::default();
        }
    }
    "a descriptor without length is not read ahead" => {
        Paper.read_ahead(machine, memory);
        if Paper.read_fields(&machine.slot.bytes).length == 0 {
            machine.slot = Slot::default();
        }
    }
    "the descriptor in hand is read again" => {
        machine.slot = Paper.look_at(machine.window, machine.kept.address, memory);
    }
    "two descriptors are read ahead" => {
        Paper.read_ahead(machine, memory);
        if machine.slot.kind == SlotKind::Descriptor && is_owned(&machine.slot) {
            let next = Paper.read_fields(&machine.slot.bytes).next;
            machine.slot = Paper.look_at(machine.window, next, memory);
        }
    }
    "reserved bytes are not held" => {
        Paper.read_ahead(machine, memory);
        machine.slot.bytes[4..8].fill(0);
    }
    "the actual bytes of a descriptor are not held" => {
        Paper.read_ahead(machine, memory);
        machine.slot.bytes[28..30].fill(0);
    }
}

looked_at(machine: &Machine, memory: &[u8]) -> Slot {
    "Fetch reads memory whatever is held" => {
        in_memory(machine, memory)
    }
    "Fetch reads memory where the descriptor there is owned" => {
        let found = in_memory(machine, memory);
        if is_owned(&found) { found } else { Paper.looked_at(machine, memory) }
    }
    "Fetch reads memory where the descriptor there is unowned" => {
        let found = in_memory(machine, memory);
        if is_owned(&found) { Paper.looked_at(machine, memory) } else { found }
    }
    "Fetch takes OWNED from memory" => {
        let mut slot = Paper.looked_at(machine, memory);
        slot.bytes[31] = in_memory(machine, memory).bytes[31];
        slot
    }
    "Fetch takes the link from memory" => {
        let mut slot = Paper.looked_at(machine, memory);
        let found = in_memory(machine, memory);
        slot.bytes[16..20].copy_from_slice(&found.bytes[16..20]);
        slot
    }
    "under PARK Fetch reads memory" => {
        if machine.controls(control::PARK) {
            return in_memory(machine, memory);
        }
        Paper.looked_at(machine, memory)
    }
}

empty_slot(machine: &mut Machine, by: Emptying) -> () {
    "Rest leaves the slot" => {
        emptied_but(machine, by, Emptying::Rest);
    }
    "Halted leaves the slot" => {
        emptied_but(machine, by, Emptying::Halted);
    }
    "Ended leaves the slot" => {
        emptied_but(machine, by, Emptying::Ended);
    }
    "Faulted leaves the slot" => {
        emptied_but(machine, by, Emptying::Faulted);
    }
    "a pointer write leaves the slot" => {
        emptied_but(machine, by, Emptying::PointerWrite);
    }
    "a pointer write leaves a fault in the slot" => {
        let holds_fault = machine.slot.kind >= SlotKind::Misaligned;
        if by != Emptying::PointerWrite || !holds_fault {
            Paper.empty_slot(machine, by);
        }
    }
    "an emptied slot keeps its address" => {
        keeping!(machine.slot.address, Paper.empty_slot(machine, by));
    }
    "an emptied slot keeps its bytes" => {
        keeping!(machine.slot.bytes, Paper.empty_slot(machine, by));
    }
}

}
