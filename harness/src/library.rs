//! The library under test, however it is reached.

#[cfg(have_bridge)]
use crate::bridge as reached;
use crate::call::{Call, Party};
#[cfg(not(have_bridge))]
use crate::ffi as reached;

#[derive(Clone, Copy, Debug)]
pub struct Library {
    /// Whether an empty slice is lent as NULL, as a C caller may do.
    pub null_for_empty: bool,
}

impl Library {
    pub(crate) fn lends_null_for(self, bytes: &[u8]) -> bool {
        self.null_for_empty && bytes.is_empty()
    }
}

impl Party for Library {
    fn name(&self) -> &'static str {
        "library"
    }

    fn answer(&self, call: &mut Call) -> u32 {
        reached::answer(*self, call)
    }
}
