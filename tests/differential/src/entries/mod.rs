//! Every entry of modules 1 to 8 with its three sides.

pub mod brake;
pub mod chunk;
pub mod conformal;
pub mod envelope;
pub mod fmath;
pub mod tier0;
pub mod tier1;
pub mod towards;
pub mod window;

use crate::{
    port::Port,
    run::{Outcome, Shown, Task},
};

/// All entries, those that take longest first so that two threads end together.
pub fn all(port: &Port) -> Vec<Task> {
    let mut tasks = vec![
        brake::brake_feasible(port).task(),
        brake::brake_feasible_on_a_round_table(port).task(),
        towards::run_towards(port).task(),
        towards::run_towards_on_a_round_table(port).task(),
        towards::run_towards_the_start(port).task(),
        tier0::check_chunk(port).task(),
        tier0::check_chunk_at_walls(port).task(),
        tier0::check_chunk_with_a_short_camera(port).task(),
        tier0::check_chunk_with_several_zones(port).task(),
        tier0::check_chunk_on_a_round_table(port).task(),
        tier1::features(port).task(),
        tier1::episode(port).task(),
        window::trail_run(port).task(),
        tier0::check_action(port).task(),
        tier0::check_action_at_walls(port).task(),
        tier0::check_action_with_a_short_camera(port).task(),
        tier0::check_action_with_several_zones(port).task(),
        tier0::check_action_on_a_round_table(port).task(),
        envelope::derive(port).task(),
        envelope::derive_on_a_round_table(port).task(),
        envelope::compiled(port).task(),
        brake::brake_action(port).task(),
        brake::hold_action(port).task(),
        brake::brake_action_at_walls(port).task(),
        brake::hold_action_at_walls(port).task(),
        brake::brake_action_on_a_round_table(port).task(),
        brake::hold_action_on_a_round_table(port).task(),
        brake::brake_action_with_a_gripper(port).task(),
        brake::hold_action_with_a_gripper(port).task(),
        conformal::standardise(port).task(),
        conformal::aggregate(port).task(),
        conformal::trip(port).task(),
    ];
    tasks.extend([
        window::trail_push(port).task(),
        window::net(port).task(),
        window::path(port).task(),
        window::trail_len(port).task(),
        window::trail_clear(port).task(),
        tier1::reset(port).task(),
        window::window_run(port).task(),
        window::mask(port).task(),
        window::push(port).task(),
        chunk::fill(port).task(),
        chunk::copy_from(port).task(),
        chunk::action(port).task(),
        chunk::row_mut(port).task(),
        chunk::view(port).task(),
        fmath::patterns(port),
        fmath::sqrt(port).task(),
        fmath::norm(port).task(),
        fmath::dist(port).task(),
        fmath::order(port).task(),
        conformal::time_bin(port).task(),
    ]);
    tasks
}

/// Nothing lent, or nothing to show.
pub fn nothing<I>(_: &I) -> Shown {
    Shown::default()
}

/// No narrower input than what the parts give.
pub fn none<I>(_: &I) -> Vec<I> {
    Vec::new()
}

pub fn number(x: f64) -> Shown {
    Shown { numbers: vec![x], ..Shown::default() }
}

pub fn numbers(v: &[f64]) -> Shown {
    Shown { numbers: v.to_vec(), ..Shown::default() }
}

pub fn count(n: u64) -> Shown {
    Shown { counts: vec![n], ..Shown::default() }
}

/// An accepted answer without buffers.
pub fn accepted(answer: Shown) -> Outcome {
    Outcome { answer: Ok(answer), buffers: Shown::default() }
}

/// An answer without buffers.
pub fn plain<T>(answer: Result<T, model::Refusal>, show: impl Fn(T) -> Shown) -> Outcome {
    Outcome { answer: answer.map(show), buffers: Shown::default() }
}

/// 13 when the Rust has computed a number that is not finite since the last look.
pub fn all_finite() -> Result<(), model::Refusal> {
    match oracle::take_raised() {
        true => Err(model::Refusal { number: model::refusal::COMPUTED, place: 0 }),
        false => Ok(()),
    }
}
