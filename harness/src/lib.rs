//! Compares the SG-DMA library, through its C calls, with an independent model.
//!
//! - [`model`]: the core as the scope paper describes it, in plain Rust.
//! - [`bulk`]: the same core, written for speed; and [`limit`]: the moves of a run
//!   alone. The library's speed is measured against both.
//! - `library`: the library under test, where it was found; reached by `ffi`
//!   where it can be linked, or by `bridge` through a program that links it.
//! - [`call`]: a call as a value, with canaries around every lent slice, and the
//!   parties that can answer it.
//! - [`gen`]: random calls that lead to one another.
//! - [`compare`] and [`shrink`]: the same calls put to two parties, and the
//!   smallest case on which they differ.
//! - [`coverage`]: what the calls have reached, and what they must reach.
//! - [`firmware`] and [`samples`]: a host that makes only good calls, and good
//!   images, for tests whose figures are worked out by hand.

#[cfg(have_bridge)]
mod bridge;
pub mod bulk;
pub mod call;
pub mod compare;
pub mod coverage;
#[cfg(all(have_library, not(have_bridge)))]
mod ffi;
pub mod firmware;
pub mod gen;
#[cfg(have_library)]
pub mod library;
pub mod limit;
pub mod model;
pub mod samples;
pub mod shrink;
