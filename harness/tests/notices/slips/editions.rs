//! Errors in the moves between editions.

use super::Slip;
use harness::model::{
    Editions, Image, Paper, Phase, Refusal, Refused, Slot, SlotKind, IMAGE_SIZE, OLD_IMAGE_SIZE,
};

slips! { Editions;

edition_of(size: usize) -> Result<u8, Refusal> {
    "an image of edition 1 is no image" => {
        Paper.edition_of(if size == OLD_IMAGE_SIZE { 0 } else { size })
    }
    "an image of edition 2 is no image" => {
        Paper.edition_of(if size == IMAGE_SIZE { 0 } else { size })
    }
    "43 bytes are refused as 8" => {
        if size == 43 { Err(Refusal::BadImage) } else { Paper.edition_of(size) }
    }
    "no bytes are an image that is refused with 15" => {
        if size == 0 { Err(Refusal::SlotHeld) } else { Paper.edition_of(size) }
    }
}

numbers_of(bytes: &[u8]) -> Image {
    "forward the run number is 1" => {
        let image = Paper.numbers_of(bytes);
        match bytes.len() {
            OLD_IMAGE_SIZE => Image { run_number: 1, ..image },
            _ => image,
        }
    }
    "forward the run number is the count of descriptors" => {
        let image = Paper.numbers_of(bytes);
        match bytes.len() {
            OLD_IMAGE_SIZE => Image { run_number: u32::from(image.count), ..image },
            _ => image,
        }
    }
    "forward the slot is held" => {
        let image = Paper.numbers_of(bytes);
        let slot = Slot { kind: SlotKind::Outside, ..image.slot };
        match bytes.len() {
            OLD_IMAGE_SIZE => Image { slot, ..image },
            _ => image,
        }
    }
    "a move clears what is pending" => {
        Image { pending: false, ..Paper.numbers_of(bytes) }
    }
    "a move begins the count of descriptors anew" => {
        Image { count: 0, ..Paper.numbers_of(bytes) }
    }
}

field_in(edition: u8, image: &Image) -> u8 {
    "the rules of edition 1 are not looked at" => {
        if edition == 1 { 0 } else { Paper.field_in(edition, image) }
    }
    "the rules of edition 2 are not looked at" => {
        if edition == 2 { 0 } else { Paper.field_in(edition, image) }
    }
    "the number of the edition is not looked at" => {
        Paper.field_in(edition, &Image { edition, ..*image })
    }
    "the number of either edition will do" => {
        match image.edition {
            1 | 2 => Paper.field_in(edition, &Image { edition, ..*image }),
            _ => 1,
        }
    }
    "an image of edition 1 has the number 2" => { Paper.field_in(2, image) }
    "an image of edition 2 has the number 1" => { Paper.field_in(1, image) }
    "the number of the edition is told last" => {
        match Paper.field_in(edition, &Image { edition, ..*image }) {
            0 => Paper.field_in(edition, image),
            other => other,
        }
    }
    "the field is told without its number" => {
        u8::from(Paper.field_in(edition, image) != 0)
    }
    "the fields of edition 1 are numbered from 0" => {
        let field = Paper.field_in(edition, image);
        if edition == 1 && field > 1 { field - 1 } else { field }
    }
    "the fault address of edition 1 is not looked at" => {
        let field = Paper.field_in(edition, image);
        if edition == 1 && field == 22 { 0 } else { field }
    }
}

check_slot(edition: u8, image: &Image) -> Result<(), Refusal> {
    "a held slot may go back" => { Ok(()) }
    "a slot that holds a descriptor may go back" => {
        if image.slot.kind == SlotKind::Descriptor { Ok(()) } else { Paper.check_slot(edition, image) }
    }
    "a slot with fault 10 may go back" => {
        if image.slot.kind == SlotKind::Misaligned { Ok(()) } else { Paper.check_slot(edition, image) }
    }
    "a slot with fault 11 may go back" => {
        if image.slot.kind == SlotKind::Outside { Ok(()) } else { Paper.check_slot(edition, image) }
    }
    "a held slot may not be moved at all" => { Paper.check_slot(1, image) }
    "a descriptor in hand may not go back" => {
        let in_hand = matches!(Phase::of_number(image.phase), Phase::Move | Phase::WriteBack);
        if edition == 1 && in_hand { Err(Refusal::SlotHeld) } else { Paper.check_slot(edition, image) }
    }
    "a run number may not go back" => {
        if edition == 1 && image.run_number != 0 {
            return Err(Refusal::SlotHeld);
        }
        Paper.check_slot(edition, image)
    }
    "a held slot is refused with 8" => {
        Paper.check_slot(edition, image).map_err(|_| Refusal::BadImage)
    }
    "a held slot is refused with 7" => {
        Paper.check_slot(edition, image).map_err(|_| Refusal::BadSize)
    }
}

bytes_in(edition: u8, image: &Image) -> Vec<u8> {
    "the number of the edition stays" => {
        let mut bytes = Paper.bytes_in(edition, image);
        bytes[0] = bytes[0] & 0x0F | image.edition << 4;
        bytes
    }
    "the number of the edition is always 2" => {
        let mut bytes = Paper.bytes_in(edition, image);
        bytes[0] = bytes[0] & 0x0F | 0x20;
        bytes
    }
    "the number of the edition is always 1" => {
        let mut bytes = Paper.bytes_in(edition, image);
        bytes[0] = bytes[0] & 0x0F | 0x10;
        bytes
    }
    "the number of the edition takes the mode with it" => {
        let mut bytes = Paper.bytes_in(edition, image);
        bytes[0] = edition << 4;
        bytes
    }
    "the run number is dropped in edition 2 too" => {
        Paper.bytes_in(edition, &Image { run_number: 0, ..*image })
    }
    "a slot is emptied in edition 2 too" => {
        let empty = Slot { kind: SlotKind::Empty, address: 0, bytes: [0; 32] };
        Paper.bytes_in(edition, &Image { slot: empty, ..*image })
    }
    "the slot's bytes are left out" => {
        let slot = Slot { bytes: [0; 32], ..image.slot };
        Paper.bytes_in(edition, &Image { slot, ..*image })
    }
    "the last byte is not written" => {
        let mut bytes = Paper.bytes_in(edition, image);
        if let Some(last) = bytes.last_mut() { *last = 0; }
        bytes
    }
}

move_image(from: &[u8], to: &mut [u8]) -> Result<(), Refused> {
    "15 comes before 8" => {
        if let (Ok(_), Ok(new)) = (Paper.edition_of(from.len()), Paper.edition_of(to.len())) {
            Paper.check_slot(new, &Paper.numbers_of(from))?;
        }
        Paper.move_image(from, to)
    }
    "8 comes before 7" => {
        if let Ok(old) = Paper.edition_of(from.len()) {
            let field = Paper.field_in(old, &Paper.numbers_of(from));
            if field != 0 {
                return Err(Refused::for_field(field));
            }
        }
        Paper.move_image(from, to)
    }
    "the same edition is copied without a look" => {
        if from.len() == to.len() && Paper.edition_of(from.len()).is_ok() {
            to.copy_from_slice(from);
            return Ok(());
        }
        Paper.move_image(from, to)
    }
    "the same edition is left as it was" => {
        if from.len() == to.len() {
            return Paper.move_image(from, &mut to.to_vec());
        }
        Paper.move_image(from, to)
    }
    "only the old bytes are written" => {
        let behind = to.get(from.len()..).map(<[u8]>::to_vec);
        Paper.move_image(from, to)?;
        if let Some(behind) = behind {
            to[from.len()..].copy_from_slice(&behind);
        }
        Ok(())
    }
    "a refused move clears what it was to write" => {
        let moved = Paper.move_image(from, to);
        if moved.is_err() { to.fill(0); }
        moved
    }
    "a move that is refused with 15 is made" => {
        let moved = Paper.move_image(from, to);
        if moved == Err(Refusal::SlotHeld.into()) {
            to.copy_from_slice(&Paper.bytes_in(1, &Paper.numbers_of(from)));
        }
        moved
    }
}

}
