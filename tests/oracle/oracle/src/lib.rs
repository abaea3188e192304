//! The published Rust on the arguments of the port: sizes, feature bits and the configuration are carried over by
//! name. Nothing is judged here, and where the Rust answers with an infinity or a NaN so does this.

mod carry;
mod compile;
mod trail;

use std::{cell::Cell, hint::black_box};

use lictor_core::{ChunkError, ChunkView, ObsView};
use lictor_detect::{brake, conformal, tier0, tier1, window};
use lictor_watched::{flags, plant_reached, slacks_seen};
use model::{BrakeKind, BrakeModel, BrakeOut, Calibration, ChunkBuf, FuseConfig, Ran, Scores, Tier1Rt, Trail};

pub use carry::{calibration, chunk_view, config, derived, scores, tier1_rt};
pub use compile::{compile, compile_calibrated, compile_with_ticks};
pub use lictor_watched::Reached;

/// The published items themselves.
pub mod rust {
    pub use lictor_core::{bin_of, fmath, ChunkBuf, Feat, FuseConfig, T_GRID};
    pub use lictor_detect::{brake, conformal, tier0, tier1, window};
}

/// What `features` and `check_chunk` are told about the world.
pub fn obs<'a>(pos: &'a [f64], aux: &'a [f64], ext: &'a [f64]) -> ObsView<'a> {
    ObsView { t: 0, pos, vel: None, aux, ext }
}

thread_local! {
    static RAISED: Cell<bool> = const { Cell::new(false) };
}

/// Whether the processor's flags can be read, so that `take_raised` means something.
pub const FLAGS_READ: bool = flags::READ;

/// Whether it then means that the source evaluates a number that is not finite, and not only that the code computes one.
pub const FLAGS_EXACT: bool = flags::EXACT;

/// Whether a published function called here since the last look has computed a number that is not finite, also one
/// that dropped out of its answer.
pub fn take_raised() -> bool {
    RAISED.take()
}

/// A call of a published function on finite arguments, with a look at the flags after it. `black_box` keeps the
/// compiler from moving the call out from between the two looks.
fn watch<T>(call: impl FnOnce() -> T) -> T {
    flags::clear();
    let answer = black_box(black_box(call)());
    RAISED.set(RAISED.get() | flags::raised());
    answer
}

/// The number in the scope document's table of what `fill` refuses.
fn number_of(e: ChunkError) -> u8 {
    match e {
        ChunkError::Empty => 5,
        ChunkError::TooLong => 6,
        ChunkError::TooWide => 7,
        ChunkError::ExecExceedsHorizon => 8,
        ChunkError::LenMismatch => 9,
    }
}

pub fn sqrt(x: f64) -> f64 {
    watch(|| rust::fmath::sqrt(black_box(x)))
}

pub fn norm(v: &[f64], n: usize) -> f64 {
    watch(|| rust::fmath::norm(v, n))
}

pub fn dist(a: &[f64], b: &[f64], n: usize) -> f64 {
    watch(|| rust::fmath::dist(a, b, n))
}

pub fn fill(buf: &mut ChunkBuf, seq: u32, t_emit: u32, h: u16, d: u16, exec: u16, src: &[f64]) -> Result<(), u8> {
    let mut b = carry::chunk_buf(buf);
    let answer = b.fill(seq, t_emit, h, d, exec, src).map_err(number_of);
    *buf = carry::chunk_buf_back(&b, buf);
    answer
}

pub fn copy_from(buf: &mut ChunkBuf, v: model::ChunkView<'_>) {
    let mut b = carry::chunk_buf(buf);
    b.copy_from(chunk_view(v));
    *buf = carry::chunk_buf_back(&b, buf);
}

/// The view of a filled buffer: its header and rows.
pub fn view(buf: &ChunkBuf) -> Option<ChunkBuf> {
    let b = carry::chunk_buf(buf);
    let v = b.view()?;
    let mut seen = ChunkBuf { filled: true, ..ChunkBuf::NEW };
    seen.data[..v.data.len()].copy_from_slice(v.data);
    (seen.seq, seen.t_emit, seen.horizon, seen.dim, seen.exec_steps) =
        (v.seq, v.t_emit, v.horizon, v.dim, v.exec_steps);
    Some(seen)
}

/// Writes x in each number of a row; gives the row's length.
pub fn fill_row(buf: &mut ChunkBuf, i: usize, x: f64) -> usize {
    let mut b = carry::chunk_buf(buf);
    let row = b.row_mut(i);
    row.fill(x);
    let n = row.len();
    *buf = carry::chunk_buf_back(&b, buf);
    n
}

pub fn action<'a>(v: model::ChunkView<'a>, i: usize) -> &'a [f64] {
    let v: ChunkView<'a> = chunk_view(v);
    v.action(i)
}

pub fn push(bits: u64, hit: bool, mask: u64) -> u64 {
    let mut w = window::Window { bits };
    w.push(hit, mask);
    w.bits
}

pub fn hits(bits: u64) -> u8 {
    window::Window { bits }.hits()
}

pub fn trail_push(t: &mut Trail, p: &[f64], d: usize) {
    let mut r = trail::to_rust(t);
    r.push(p, d.min(model::MAX_POS));
    *t = trail::from_rust(&r);
}

pub fn net(t: &Trail, d: usize, w: usize) -> f64 {
    let r = trail::to_rust(t);
    watch(|| r.net(d.min(model::MAX_POS), w))
}

pub fn path(t: &Trail, d: usize, w: usize) -> f64 {
    let r = trail::to_rust(t);
    watch(|| r.path(d.min(model::MAX_POS), w))
}

pub fn trail_len(t: &Trail) -> (usize, bool) {
    let r = trail::to_rust(t);
    (r.len(), r.is_empty())
}

pub fn trail_clear(t: &mut Trail) {
    let mut r = trail::to_rust(t);
    r.clear();
    *t = trail::from_rust(&r);
}

/// The published answer itself, which has no low and no high mask.
pub fn check_chunk(
    cfg: &FuseConfig,
    pos: &[f64],
    aux: &[f64],
    ch: model::ChunkView<'_>,
    out: &mut [f64],
) -> tier0::Tier0Out {
    let mut buf = lictor_core::ChunkBuf::new();
    let cfg = config(cfg);
    let r = watch(|| tier0::check_chunk(&cfg, obs(pos, aux, &[]), chunk_view(ch), &mut buf));
    let rows = buf.view().map_or(&[][..], |v| v.data);
    out[..rows.len()].copy_from_slice(rows);
    r
}

pub fn check_action(
    cfg: &FuseConfig,
    pos: &[f64],
    aux: &[f64],
    prev: &[f64],
    a: &[f64],
    out: &mut [f64],
) -> tier0::Tier0Out {
    let cfg = config(cfg);
    watch(|| tier0::check_action(&cfg, obs(pos, aux, &[]), prev, a, out))
}

pub fn features(
    cfg: &FuseConfig,
    rt: &mut Tier1Rt,
    pos: &[f64],
    ext: &[f64],
    new: Option<model::ChunkView<'_>>,
    sc: &mut Scores,
) {
    let mut r = carry::tier1_rt(rt);
    let mut scores = carry::scores(sc);
    let (cfg, obs, new) = (config(cfg), obs(pos, &[], ext), new.map(chunk_view));
    watch_all_but_stall(&cfg, &r, obs, new);
    tier1::features(&cfg, &mut r, obs, new, 0, &mut scores);
    *rt = carry::tier1_rt_back(&r, rt);
    *sc = carry::without_stall(carry::scores_back(&scores));
}

/// The flags of what `features` computes for the eleven features that are compared. They are those of two calls: of the chunk's
/// features on an empty trail, where the published code computes nothing else, and of the trail's features without a chunk. Of
/// these last only Stall reads the scale and the control period, and with the two given here it divides any finite number by 1e300.
fn watch_all_but_stall(cfg: &rust::FuseConfig, rt: &tier1::Tier1Rt, obs: ObsView<'_>, new: Option<ChunkView<'_>>) {
    let call = |cfg: &rust::FuseConfig, mut rt: tier1::Tier1Rt, new| {
        watch(|| tier1::features(cfg, &mut rt, obs, new, 0, &mut lictor_core::Scores::default()));
    };
    call(cfg, tier1::Tier1Rt { trail: window::Trail::new(), ..rt.clone() }, new);
    call(&rust::FuseConfig { norm_scale_iso: 1e300, dt: 1.0, ..cfg.clone() }, rt.clone(), None);
}

/// The Rust's own Stall where it is valid, with its flags.
pub fn stall(cfg: &FuseConfig, rt: &Tier1Rt) -> Option<f64> {
    let (cfg, mut r, mut sc) = (config(cfg), carry::tier1_rt(rt), carry::scores(&Scores::NEW));
    watch(|| tier1::features(&cfg, &mut r, obs(&[], &[], &[]), None, 0, &mut sc));
    (sc.valid & rust::Feat::Stall.bit() != 0).then_some(sc.f[rust::Feat::Stall as usize])
}

/// The state after a reset.
pub fn reset(rt: &Tier1Rt) -> Tier1Rt {
    let mut r = carry::tier1_rt(rt);
    r.reset();
    carry::tier1_rt_back(&r, rt)
}

/// The answer of the published file; the slacks that its watched copy shows, and the place of the first number there
/// that is not finite, if there is one.
pub fn brake_feasible(
    cfg: &FuseConfig,
    p0: &[f64],
    v0: &[f64],
    ch: model::ChunkView<'_>,
    from: usize,
) -> (BrakeOut, Vec<f64>, Option<usize>) {
    let cfg = config(cfg);
    let r = brake::brake_feasible(&cfg, p0, v0, chunk_view(ch), from);
    watch(|| lictor_watched::brake::brake_feasible(&cfg, p0, v0, chunk_view(ch), from));
    let seen = slacks_seen();
    let place = seen.iter().position(|s| s.raised).unwrap_or(seen.len()) + 1;
    let answer = BrakeOut { count: seen.len(), feasible: r.feasible, margin: r.margin, stop_dist: r.stop_dist };
    (answer, seen.iter().map(|s| s.slack).collect(), take_raised().then_some(place))
}

/// What the published forecast of the second-order kind shows of a run under one setpoint: count and margin, the slacks, the plant at the end, and
/// the place of the first number that is not finite, its stop distance left out.
pub struct RustRun {
    pub answer: Ran,
    pub slacks: Vec<f64>,
    pub plant: Reached,
    pub place: Option<usize>,
}

/// A row that is held for n substeps, with no braking step, is a run towards the row.
pub fn run_towards_a_row(cfg: &FuseConfig, row: &[f64], p: &[f64], v: &[f64], n: u16) -> RustRun {
    rust_run(cfg, row, p, v, BrakeModel { substeps: n, commit: 1, brake_steps: 0, ..cfg.brake })
}

/// n braking steps with no row left are a run towards the start moved inside.
pub fn run_towards_the_start(cfg: &FuseConfig, row: &[f64], p: &[f64], v: &[f64], n: u16) -> RustRun {
    rust_run(cfg, row, p, v, BrakeModel { substeps: 1, commit: 0, brake_steps: n, ..cfg.brake })
}

fn rust_run(cfg: &FuseConfig, row: &[f64], p: &[f64], v: &[f64], brake: BrakeModel) -> RustRun {
    let cfg = FuseConfig { brake: BrakeModel { kind: BrakeKind::PdSecondOrder, ..brake }, ..*cfg };
    let ch = model::ChunkView { seq: 0, t_emit: 0, horizon: 1, dim: cfg.dim as u16, exec_steps: 0, data: row };
    let (r, slacks, place) = brake_feasible(&cfg, p, v, ch, 0);
    let place = place.filter(|place| *place <= slacks.len());
    RustRun { answer: Ran { count: r.count, margin: r.margin }, slacks, plant: plant_reached(), place }
}

pub fn brake_action(cfg: &FuseConfig, p: &[f64], v: &[f64], out: &mut [f64]) {
    let cfg = config(cfg);
    watch(|| brake::brake_action(&cfg, p, v, out));
}

pub fn hold_action(cfg: &FuseConfig, p: &[f64], out: &mut [f64]) {
    brake::hold_action(&config(cfg), p, out);
}

pub fn standardise(cal: &Calibration, bin: usize, sc: &mut Scores) {
    let mut scores = carry::scores(sc);
    let cal = calibration(cal);
    watch(|| conformal::standardise(&cal, bin.min(u32::MAX as usize) as u32, &mut scores));
    *sc = carry::scores_back(&scores);
}

pub fn aggregate(cal: &Calibration, sc: &mut Scores) -> f64 {
    let mut scores = carry::scores(sc);
    let s = conformal::aggregate(&calibration(cal), &mut scores);
    *sc = carry::scores_back(&scores);
    s
}

pub fn trip(cal: &Calibration, sc: &Scores) -> bool {
    conformal::trip(&calibration(cal), &carry::scores(sc))
}

/// The Rust numbers ticks from 0 and the port from 1, so the Rust is asked for t - 1, and for 0 at t 0.
pub fn time_bin(t: u32, horizon_ticks: u32) -> usize {
    rust::bin_of(t.saturating_sub(1), horizon_ticks, model::BINS as u16)
}

#[cfg(test)]
mod tests {
    use std::panic::catch_unwind;

    use model::{AbsentCamera, ContactLimit, Gripper, Shape, Zones};

    use super::*;

    /// 3, 4 and 5 through the published files and the shims.
    #[test]
    fn the_published_sources_answer() {
        assert_eq!(rust::fmath::norm(&[3.0, 4.0], 2), 5.0);
        assert_eq!(hits(push(push(0, true, 7), true, 7)), 2);
    }

    /// Whether a configuration is carried over, by itself and to `compile`.
    fn carried(cfg: FuseConfig) -> [bool; 2] {
        [catch_unwind(|| config(&cfg)).is_ok(), catch_unwind(|| compile(&cfg, 1, 1)).is_ok()]
    }

    /// Whether or not there is a zone, and whether or not it is armed.
    #[test]
    fn a_configuration_under_the_new_choice_is_not_carried_over() {
        for cfg in [FuseConfig::PLAIN, FuseConfig::WHOLE, FuseConfig { armed: 63, ..FuseConfig::WHOLE }] {
            assert_eq!(carried(FuseConfig { absent_camera: AbsentCamera::NoZone, ..cfg }), [true; 2]);
            assert_eq!(carried(FuseConfig { absent_camera: AbsentCamera::Slow, ..cfg }), [false; 2]);
        }
    }

    /// Under either choice, whether or not it is armed, and whatever stands past the count.
    #[test]
    fn a_configuration_with_several_zones_is_not_carried_over() {
        for (armed, absent_camera) in [(0, AbsentCamera::NoZone), (63, AbsentCamera::NoZone), (63, AbsentCamera::Slow)]
        {
            let mut cfg = FuseConfig { armed, absent_camera, aux_count: 8, ..FuseConfig::WHOLE };
            let pairs = [(0, 1), (2, 3), (4, 5), (6, 7)];
            cfg.zones = Zones::of(&pairs.map(|(a0, a1)| ContactLimit { radius: 1.0, v_max: 1.0, a0, a1 }));
            for count in 0..=5 {
                cfg.zones.count = count;
                assert_eq!(carried(cfg), [absent_camera == AbsentCamera::NoZone && count <= 1; 2], "{count} zones");
            }
        }
    }

    /// Whether or not it is armed; with the box, whatever stands in the centre and the radius.
    #[test]
    fn a_configuration_with_a_round_table_is_not_carried_over() {
        for armed in [0, 1, 63] {
            let cfg = FuseConfig { armed, absent_camera: AbsentCamera::NoZone, ..FuseConfig::WHOLE };
            for (center, radius) in [([0.0; 2], 1.0), ([f64::NAN, f64::INFINITY], -1.0)] {
                for disc in [false, true] {
                    assert_eq!(carried(FuseConfig { shape: Shape { disc, center, radius }, ..cfg }), [!disc; 2]);
                }
            }
        }
    }

    /// Whatever the kind, and whether or not an axis is past pos_dim.
    #[test]
    fn a_configuration_with_a_last_command_is_not_carried_over() {
        let kinds = [model::ActionKind::EePosition, model::ActionKind::EeDelta];
        for (kind, dim) in kinds.into_iter().flat_map(|kind| [1, 2, 3].map(|dim| (kind, dim))) {
            let cfg = FuseConfig { kind, dim, absent_camera: AbsentCamera::NoZone, ..FuseConfig::WHOLE };
            assert_eq!(carried(FuseConfig { gripper: Gripper::ToZero, ..cfg }), [true; 2]);
            assert_eq!(carried(FuseConfig { gripper: Gripper::LastCommand, ..cfg }), [false; 2]);
        }
    }

    /// A trail is carried over with any head and count, and back.
    #[test]
    fn a_trail_keeps_its_parts() {
        let mut t = Trail::NEW;
        for (i, x) in t.buf.iter_mut().enumerate() {
            *x = i as f64;
        }
        t.head = 5;
        t.len = 20;
        assert_eq!(trail::from_rust(&trail::to_rust(&t)), t);
    }
}
