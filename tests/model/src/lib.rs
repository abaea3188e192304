//! The rules and the table of refusals of the scope document and of the requests after it, written from these and not from the
//! port. Each entry answers `Result<Answer, Refusal>` and leaves every buffer as they say. Nothing here is made for speed.
// the rules speak of coordinates by their number
#![allow(clippy::needless_range_loop)]

pub mod boundary;
pub mod brake;
pub mod checked;
pub mod chunk;
pub mod conformal;
pub mod envelope;
pub mod fmath;
pub mod pull;
pub mod refusal;
pub mod tier0;
pub mod tier1;
pub mod types;
pub mod window;
pub mod workspace;

pub use refusal::Refusal;
pub use types::*;
