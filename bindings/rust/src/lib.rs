//! A guard between a planner and the motors of an arm: a safe layer over the proved static library. The borrow checker
//! gives what `include/lictor.h` asks of pointers. A refused call changes nothing that was lent, save that a forecast or a run
//! refused with 13 keeps the entries before its place.
//!
//! A control box makes a [`Config`](config::Config) once and lends it to every call. `docs/INTEGRATION.md` has the order of the calls in
//! a tick and what to do at each [`Refusal`]; `examples/tick.rs` is a whole tick, `examples/calm.rs` shows which rows the checks leave as
//! they came, and `examples/halves.rs` what of a forecast may be run in two halves. The shortest question:
//!
//! ```
//! use lictor::{brake, chunk::ChunkView, config::{BrakeKind, BrakeModel, Config}};
//!
//! let brake = BrakeModel {
//!     kind: BrakeKind::PdSecondOrder, k_p: 2.0, k_v: 1.0, dt: 0.5, substeps: 2, commit: 1, brake_steps: 1, react_ticks: 1,
//! };
//! let config = Config::builder()
//!     .axes(1)
//!     .dt(1.0)
//!     .v_max(1.0)
//!     .a_max(1.0)
//!     .j_max(1.0)
//!     .reach_max(1.0)
//!     .walls([-1.0; 8], [2.0; 8])
//!     .brake(brake)
//!     .build()?;
//! // can the arm, which stands still at 0, follow one row to 1 and still stop inside its box?
//! let planned = ChunkView::new(0, 1, 1, 1, &[1.0]);
//! let forecast = brake::brake_feasible(&config, &[0.0], &[0.0], planned, 0, &mut [0.0; 4])?;
//! assert!(forecast.feasible);
//! assert_eq!((forecast.margin, forecast.stop_dist), (0.75, 1.25));
//! # Ok::<(), lictor::Refusal>(())
//! ```
//!
//! The library has no state of its own and allocates nothing, and neither does this crate (`no_std`): threads may be in it together. An
//! entry needs at most `LICTOR_STACK` bytes of stack (`include/lictor.h`). Everything is promised under the floating-point
//! environment that Rust, too, asks for: round to nearest, small numbers kept. [`environment_ok`] tells whether C beside it has
//! changed that. The compiler of the library is trusted; no entry rests on an assumed contract.
//!
//! The build links `liblictor.a` from the folder that `LICTOR_LIB` names, or from `target/native/PROCESSOR` of the repository, where
//! `tools/native-archive` puts it.

#![no_std]
#![deny(missing_docs)]
#![warn(clippy::pedantic)]
#![allow(
    clippy::cast_possible_truncation,
    reason = "the library gives its counts in words of 64 bits, and its contracts say that they fit"
)]

#[cfg(test)]
extern crate std;

pub mod brake;
pub mod chunk;
pub mod config;
pub mod conformal;
pub mod fmath;
mod raw;
mod refusal;
pub mod tier0;
pub mod tier1;
pub mod window;

pub use refusal::{Answer, Refusal};

/// Whether this thread's floating-point environment is the one that the entries are proved for: it rounds to nearest, and
/// keeps numbers below the least normal one. Some tens of nanoseconds.
///
/// ```
/// assert!(lictor::environment_ok());
/// ```
#[must_use]
pub fn environment_ok() -> bool {
    // SAFETY: numbers go by value.
    unsafe { raw::lictor_environment(1.0, f64::MIN_POSITIVE) == 1 }
}
