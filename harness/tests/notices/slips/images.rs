//! Errors in saved images.

use super::Slip;
use harness::model::{
    descriptor_control, Fault, Image, ImageRule, Images, Machine, Paper, Phase, Refused, Slot,
    SlotKind, Steps, IMAGE_SIZE,
};

slips! { Images;

save(machine: &Machine) -> [u8; IMAGE_SIZE] {
    "armed is not saved" => {
        Image { armed: false, ..Image::of_machine(machine) }.pack()
    }
    "the edition is saved as 0" => {
        Image { edition: 0, ..Image::of_machine(machine) }.pack()
    }
    "the edition is saved as 1" => {
        Image { edition: 1, ..Image::of_machine(machine) }.pack()
    }
    "the slot is not saved" => {
        Image { slot: Slot::default(), ..Image::of_machine(machine) }.pack()
    }
    "the slot's bytes are saved least significant first" => {
        let mut image = Image::of_machine(machine);
        image.slot.bytes.reverse();
        image.pack()
    }
    "the slot's address is saved least significant first" => {
        let mut image = Image::of_machine(machine);
        image.slot.address = image.slot.address.swap_bytes();
        image.pack()
    }
    "the kind of the slot is saved in the low bits" => {
        let mut bytes = Paper.save(machine);
        bytes[44] >>= 6;
        bytes
    }
    "the run number is not saved" => {
        Image { run_number: 0, ..Image::of_machine(machine) }.pack()
    }
    "the pointer is saved least significant first" => {
        let pointer = machine.pointer.swap_bytes();
        Image { pointer, ..Image::of_machine(machine) }.pack()
    }
    "the fault address is not saved" => {
        Image { fault_address: 0, ..Image::of_machine(machine) }.pack()
    }
}

field_told(bytes: &[u8; IMAGE_SIZE]) -> u8 {
    "the highest field is told" => {
        let broken = Paper.broken_rules(&Image::unpack(bytes)).into_iter();
        broken.map(ImageRule::field).max().unwrap_or(0)
    }
    "the field of the first rule in the paper's order is told" => {
        let broken = Paper.broken_rules(&Image::unpack(bytes));
        broken.first().map_or(0, |rule| rule.field())
    }
    "fields are counted from 0" => {
        Paper.field_told(bytes) - 1
    }
    "fields of one bit are not counted" => {
        match Paper.field_told(bytes) {
            field @ 1..=3 => field,
            field @ 4..=19 => field - 2,
            field => field - 3,
        }
    }
}

field_of(rule: ImageRule) -> u8 {
    "the kind of a slot counts against the kind" => {
        match rule {
            ImageRule::SlotKindOfItsAddress => 23,
            _ => Paper.field_of(rule),
        }
    }
    "a held slot in another phase counts against the phase" => {
        match rule {
            ImageRule::HeldOnlyInFetchMoveWriteBack => 3,
            _ => Paper.field_of(rule),
        }
    }
    "the address of a held slot counts against the pointer" => {
        match rule {
            ImageRule::HeldSlotAtPointer => 10,
            _ => Paper.field_of(rule),
        }
    }
    "an empty slot with bytes counts against its address" => {
        match rule {
            ImageRule::EmptySlotWithoutBytes => 25,
            _ => Paper.field_of(rule),
        }
    }
}

load(bytes: &[u8; IMAGE_SIZE]) -> Result<Machine, Refused> {
    "an empty slot is refused in Move" => {
        let machine = Paper.load(bytes)?;
        let odd = machine.phase == Phase::Move && !machine.slot.is_held();
        if odd { Err(Refused::for_field(23)) } else { Ok(machine) }
    }
    "an unowned descriptor in the slot is refused" => {
        let machine = Paper.load(bytes)?;
        let unowned = machine.slot.bytes[31] & descriptor_control::OWNED_BY_HW == 0;
        let odd = machine.slot.kind == SlotKind::Descriptor && unowned;
        if odd { Err(Refused::for_field(26)) } else { Ok(machine) }
    }
    "a descriptor in the slot with an actual count is refused" => {
        let machine = Paper.load(bytes)?;
        let odd = machine.slot.bytes[28..30] != [0, 0];
        if odd { Err(Refused::for_field(26)) } else { Ok(machine) }
    }
    "the largest run number is refused" => {
        let machine = Paper.load(bytes)?;
        let largest = machine.run_number == u32::MAX;
        if largest { Err(Refused::for_field(27)) } else { Ok(machine) }
    }
    "an image with a count above MAX is refused" => {
        let machine = Paper.load(bytes)?;
        let sound = machine.count == 0 || machine.count < machine.max_descriptors();
        if sound { Ok(machine) } else { Err(Refused::for_field(9)) }
    }
    "fault 10 with an aligned address is refused" => {
        let machine = Paper.load(bytes)?;
        let misaligned = machine.fault_code == Fault::MISALIGNED;
        let odd = misaligned && machine.fault_address.is_multiple_of(4);
        if odd { Err(Refused::for_field(22)) } else { Ok(machine) }
    }
    "a byte that lies outside is refused in a loaded Move" => {
        let machine = Paper.load(bytes)?;
        let outside = machine.phase == Phase::Move && Paper.destination_place(&machine).is_err();
        if outside { Err(Refused::for_field(15)) } else { Ok(machine) }
    }
}

}
