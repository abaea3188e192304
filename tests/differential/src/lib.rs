//! The port, the published Rust and the model of the scope document on the same generated inputs.

pub mod edges;
pub mod entries;
pub mod exported;
pub mod input;
pub mod linked;
pub mod number;
pub mod part;
pub mod port;
pub mod rng;
pub mod run;
pub mod sample;
