//! Errors in the window check.

use super::Slip;
use harness::model::{Paper, Window, Windows};

slips! { Windows;

place(window: Window, address: u64, bytes: u64) -> Option<usize> {
    "the last byte of the window is outside" => {
        Paper.place(window, address, bytes + 1)
    }
    "the first byte of the window is outside" => {
        Paper.place(window, address, bytes).filter(|&place| place > 0)
    }
    "sums of addresses wrap at 2^32" => {
        Paper.place(window, address % (1 << 32), bytes)
    }
}

is_aligned(window: Window, address: u32) -> bool {
    "the place must be aligned, not the address" => {
        u64::from(address).wrapping_sub(window.base) % 4 == 0
    }
    "a multiple of 2 is aligned" => {
        address.is_multiple_of(2)
    }
    "a multiple of 4 must be one of 8" => {
        address.is_multiple_of(8)
    }
}

is_window(window: Window) -> bool {
    "a window of 65,536 bytes is too long" => {
        Paper.is_window(window) && window.length != 65_536
    }
    "a window of 65,537 bytes is taken" => {
        window.length == 65_537 || Paper.is_window(window)
    }
    "a window that ends at 2^32 is refused" => {
        Paper.is_window(window) && window.base + window.length < 1 << 32
    }
    "a window that ends above 2^32 is taken" => {
        window.length <= 65_536 && window.base < 1 << 32
    }
    "base 2^32 is taken for an empty window" => {
        Paper.is_window(window) || (window.base == 1 << 32 && window.length == 0)
    }
}

}
