//! The published lictor-detect, compiled from the very files below LICTOR_SRC.

// `pub mod NAME;` for each published file of this crate.
include!(concat!(env!("OUT_DIR"), "/published.rs"));
