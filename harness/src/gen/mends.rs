//! Random chains that are mended, and what a mend has left mended again.

use super::{ChainHost, Hosts};
use crate::call::{Call, Lent};
use crate::model::{CHECK_SIZE, MEND_SIZE};

/// A host of chains, and what the last mend left.
pub struct MendHost {
    chains: ChainHost,
    left: Option<Call>,
}

impl Hosts for MendHost {
    fn next_call(&mut self) -> Call {
        let again = self.left.take().filter(|_| self.chains.rng.chance(10));
        let answer = self.answer();
        let (window, base, pointer) = match again {
            Some(Call::MendChain {
                window,
                base,
                pointer,
                ..
            }) => (window, base, pointer),
            _ => self.chains.lent(),
        };
        Call::MendChain {
            window,
            base,
            pointer,
            answer,
        }
    }

    fn carry(&mut self, after: &Call) {
        self.left = Some(after.clone());
    }
}

impl MendHost {
    pub fn new(seed: u64) -> MendHost {
        MendHost {
            chains: ChainHost::new(seed),
            left: None,
        }
    }

    /// Now and then it has the size of a check's.
    fn answer(&mut self) -> Lent {
        let rng = &mut self.chains.rng;
        let due = rng.weighted(&[(99, MEND_SIZE), (1, CHECK_SIZE)]);
        Lent::from(rng.to_write_over(due))
    }
}
