//! Random images moved from edition to edition, of every mode and phase, good ones
//! and spoilt ones of both sizes, and what a move has left moved on.

use super::{Host, Hosts};
use crate::call::{Call, Lent};
use crate::model::{Image, IMAGE_SIZE, OLD_IMAGE_SIZE};

/// A host of cores, whose images are moved and not run, and what the last move left.
pub struct EditionHost {
    cores: Host,
    left: Vec<u8>,
}

impl Hosts for EditionHost {
    fn next_call(&mut self) -> Call {
        // A core of another window now and then.
        self.cores.next_call();
        let from = self.from();
        let due = self.cores.rng.pick(&[OLD_IMAGE_SIZE, IMAGE_SIZE]);
        Call::MoveImage {
            from: Lent::from(from),
            to: Lent::from(self.cores.rng.to_write_over(due)),
        }
    }

    fn carry(&mut self, after: &Call) {
        if let Call::MoveImage { to, .. } = after {
            self.left = to.to_vec();
        }
    }
}

impl EditionHost {
    pub fn new(seed: u64) -> EditionHost {
        EditionHost {
            cores: Host::new(seed),
            left: Vec::new(),
        }
    }

    /// An image of either edition, now and then of another size.
    fn from(&mut self) -> Vec<u8> {
        if self.cores.rng.chance(15) {
            return self.left.clone();
        }
        let image = if self.cores.rng.chance(45) {
            self.cores.broken_image()
        } else {
            self.cores.good_image()
        };
        let mut bytes = if self.cores.rng.chance(50) {
            self.old(image)
        } else {
            image.pack().to_vec()
        };
        let size = self.cores.rng.size(bytes.len());
        bytes.resize(size, 0);
        bytes
    }

    /// What edition 1 has of the image, mostly with its number.
    fn old(&mut self, image: Image) -> Vec<u8> {
        let edition = match image.edition {
            2 if self.cores.rng.chance(97) => 1,
            spoilt => spoilt,
        };
        let bytes = Image { edition, ..image }.pack();
        bytes[..OLD_IMAGE_SIZE].to_vec()
    }
}
