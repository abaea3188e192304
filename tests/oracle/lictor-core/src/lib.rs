//! The published lictor-core, compiled from the very files below LICTOR_SRC; `state` and `verdict` are shims.
#![allow(dead_code)]

extern crate alloc;

pub mod state;
pub mod verdict;

// `pub mod NAME;` for each published file of this crate.
include!(concat!(env!("OUT_DIR"), "/published.rs"));

pub use chunk::*;
pub use envelope::*;
pub use scores::*;
pub use state::FuseMode;
pub use verdict::TripMask;
