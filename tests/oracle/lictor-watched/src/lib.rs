//! The published forecast, changed so that its slacks and the plant at the end are seen, and compiled without optimisation, so that the
//! processor evaluates what the source says and in its order. The other crates take their flags from here.

use std::cell::RefCell;

pub mod flags;

// `pub mod brake;` of the changed copy.
include!(concat!(env!("OUT_DIR"), "/published.rs"));

/// A slack of the forecast, and whether some number computed by then was not finite.
#[derive(Clone, Copy, Debug)]
pub struct Seen {
    pub slack: f64,
    pub raised: bool,
}

/// Position and velocity of the live axes.
#[derive(Clone, Debug, Default)]
pub struct Reached {
    pub p: Vec<f64>,
    pub v: Vec<f64>,
}

thread_local! {
    static SLACKS: RefCell<Vec<Seen>> = const { RefCell::new(Vec::new()) };
    static REACHED: RefCell<Reached> = const { RefCell::new(Reached { p: Vec::new(), v: Vec::new() }) };
}

/// Keeps a slack of the forecast and gives it back.
#[inline(never)]
fn seen(slack: f64) -> f64 {
    let raised = flags::raised();
    SLACKS.with_borrow_mut(|v| v.push(Seen { slack, raised }));
    slack
}

/// The Euler step after a closed kind's slack is over; it has the slack's place.
#[inline(never)]
fn stepped() {
    let raised = flags::raised();
    SLACKS.with_borrow_mut(|v| v.iter_mut().last().map(|s| s.raised = raised));
}

/// Keeps the plant that the substeps of the second-order kind have reached.
#[inline(never)]
fn reached(p: &[f64], v: &[f64]) {
    REACHED.replace(Reached { p: p.to_vec(), v: v.to_vec() });
}

/// The plant of the last forecast of the second-order kind on this thread.
pub fn plant_reached() -> Reached {
    REACHED.take()
}

/// The slacks that the forecast has shown on this thread since the last call.
pub fn slacks_seen() -> Vec<Seen> {
    SLACKS.take()
}
