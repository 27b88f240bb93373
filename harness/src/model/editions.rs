//! An image moved from one edition to another.

use super::images::EDITION;
use super::{Image, Images, Refusal, Refused, SlotKind, IMAGE_SIZE};

/// "We have shelves of edition 1 images": the fields up to the fault address.
pub const OLD_IMAGE_SIZE: usize = 44;

const OLD_EDITION: u8 = 1;

pub trait Editions: Images {
    /// Each edition is told by its size.
    fn edition_of(self, size: usize) -> Result<u8, Refusal> {
        match size {
            OLD_IMAGE_SIZE => Ok(OLD_EDITION),
            IMAGE_SIZE => Ok(EDITION),
            _ => Err(Refusal::BadSize),
        }
    }

    /// The numbers of an image of any edition. "Forward: slot empty, run number 0."
    fn numbers_of(self, bytes: &[u8]) -> Image {
        let mut whole = [0; IMAGE_SIZE];
        whole[..bytes.len()].copy_from_slice(bytes);
        Image::unpack(&whole)
    }

    /// The lowest field that breaks a rule of its edition, or 0. The rules are those
    /// of the latest, but for the number: "an empty slot is all zero" keeps the
    /// others.
    fn field_in(self, edition: u8, image: &Image) -> u8 {
        if image.edition != edition {
            return 1;
        }
        let edition = EDITION;
        self.field_told(&Image { edition, ..*image }.pack())
    }

    /// "Back: allowed only with an empty slot"
    fn check_slot(self, edition: u8, image: &Image) -> Result<(), Refusal> {
        if edition == OLD_EDITION && image.slot.kind != SlotKind::Empty {
            return Err(Refusal::SlotHeld);
        }
        Ok(())
    }

    /// The bytes of the image in an edition; "the run number is dropped" where it
    /// has none.
    fn bytes_in(self, edition: u8, image: &Image) -> Vec<u8> {
        let bytes = Image { edition, ..*image }.pack();
        match edition {
            OLD_EDITION => bytes[..OLD_IMAGE_SIZE].to_vec(),
            _ => bytes.to_vec(),
        }
    }

    /// "15 SlotHeld, after 8"
    fn move_image(self, from: &[u8], to: &mut [u8]) -> Result<(), Refused> {
        let (old, new) = (self.edition_of(from.len())?, self.edition_of(to.len())?);
        let image = self.numbers_of(from);
        let field = self.field_in(old, &image);
        if field != 0 {
            return Err(Refused::for_field(field));
        }
        self.check_slot(new, &image)?;
        to.copy_from_slice(&self.bytes_in(new, &image));
        Ok(())
    }
}
