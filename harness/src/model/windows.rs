//! The window: where the lent bytes stand on the bus.

/// "The window is one lent byte slice standing at a base bus address."
///
/// The numbers are wide, so that sums of addresses are whole and never wrap.
#[derive(Clone, Copy, Debug, PartialEq, Eq)]
pub struct Window {
    pub base: u64,
    pub length: u64,
}

pub trait Windows: Copy {
    /// "Length 0 to 65,536; base at most 4,294,967,295, base + length at most
    /// 4,294,967,296."
    fn is_window(self, window: Window) -> bool {
        window.length <= 65_536
            && window.base <= 4_294_967_295
            && window.base + window.length <= 4_294_967_296
    }

    /// "an address becomes a place only through the window check": the place of
    /// `bytes` bytes that begin at `address`, where all of them are inside.
    #[inline]
    fn place(self, window: Window, address: u64, bytes: u64) -> Option<usize> {
        let inside = address >= window.base && address + bytes <= window.base + window.length;
        inside.then(|| (address - window.base) as usize)
    }

    /// "address a multiple of 4": the bus address, not the place.
    fn is_aligned(self, _window: Window, address: u32) -> bool {
        address.is_multiple_of(4)
    }
}
