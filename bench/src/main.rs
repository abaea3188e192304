//! Times the port and the published Rust in one process on the same inputs: nanoseconds for a call, the least of
//! several rounds taken in turn, and the ratio. An entry is listed when the port has it; BENCH_ALL=1 lists the Rust's
//! half of the others too. A configuration or a calibration is laid out for the library once, before the rounds, as a
//! customer does.

mod inputs;

use std::{env, hint::black_box, time::Instant};

use differential::{linked, port::Port};
use model::{BrakeModel, ClampMode, FuseConfig, Gripper};
use oracle::rust::{self, brake, conformal, fmath, tier0, tier1};

const ROUNDS: usize = 15;

/// One side of an entry: some number of calls.
type Side<'a> = Box<dyn FnMut() + 'a>;

/// Nanoseconds for one of the calls that `side` makes.
fn time(side: &mut Side<'_>, calls: usize) -> f64 {
    let start = Instant::now();
    side();
    start.elapsed().as_nanos() as f64 / calls as f64
}

/// One line of the table. Each side makes `calls` calls a round.
fn line(name: &str, calls: usize, mut rust: Option<Side<'_>>, mut port: Option<Side<'_>>) {
    if port.is_none() && (rust.is_none() || env::var_os("BENCH_ALL").is_none()) {
        return;
    }
    let (mut r, mut p) = (f64::INFINITY, f64::INFINITY);
    for _ in 0..ROUNDS {
        r = rust.as_mut().map_or(r, |side| r.min(time(side, calls)));
        p = port.as_mut().map_or(p, |side| p.min(time(side, calls)));
    }
    let shown = |x: f64| {
        if x.is_finite() {
            format!("{x:.1}")
        } else {
            "-".into()
        }
    };
    println!("{name:<38} {:>12} {:>12} {:>8}", shown(r), shown(p), shown_ratio(p / r));
}

fn shown_ratio(ratio: f64) -> String {
    if ratio.is_finite() && ratio > 0.0 {
        format!("{ratio:.2}")
    } else {
        "-".into()
    }
}

/// A side that makes `calls` calls of `f`.
fn calls<'a, T>(calls: usize, mut f: impl FnMut() -> T + 'a) -> Side<'a> {
    Box::new(move || {
        for _ in 0..calls {
            black_box(f());
        }
    })
}

fn main() {
    let port = linked::port();
    println!("{:<38} {:>12} {:>12} {:>8}", "entry", "Rust ns", "port ns", "ratio");
    root(&port);
    norm(&port);
    chunk(&port);
    window(&port);
    trail(&port);
    for axes in [1, 2, 8] {
        forecast(&port, &format!("forecast 4,096 substeps, axes: {axes}"), &inputs::second_order(axes));
    }
    for axes in [2, 8] {
        let cfg = inputs::round(inputs::second_order(axes));
        forecast(&port, &format!("forecast 4,096, round table: {axes}"), &cfg);
    }
    for axes in [1, 2, 8] {
        run_towards(&format!("run_towards 4,096 (Rust forecasts): {axes}"), &inputs::second_order(axes));
    }
    for axes in [2, 8] {
        run_towards(&format!("run_towards 4,096, round table: {axes}"), &inputs::round(inputs::second_order(axes)));
    }
    check_chunk(&port, "check_chunk 64 x 8, all armed", &inputs::all_armed(8), &inputs::numbers(512));
    check_chunk(&port, "check_chunk 64 x 8, rows outside", &inputs::all_armed(8), &inputs::about_the_walls(512));
    check_action(&port, "check_action, 8 axes, all armed", &inputs::all_armed(8));
    for (count, zones) in [(0, "no zone"), (1, "one zone"), (4, "four zones")] {
        let cfg = inputs::zoned(8, count);
        check_chunk(&port, &format!("check_chunk 64 x 8, {zones}"), &cfg, &inputs::numbers(512));
        check_action(&port, &format!("check_action, 8 axes, {zones}"), &cfg);
    }
    let round = inputs::round(inputs::all_armed(8));
    check_chunk(&port, "check_chunk 64 x 8, round table", &round, &inputs::numbers(512));
    check_chunk(&port, "check_chunk 64 x 8, beyond a table", &round, &inputs::about_the_walls(512));
    check_action(&port, "check_action, 8 axes, round table", &round);
    for (mode, gripper) in [("", Gripper::ToZero), (", last command", Gripper::LastCommand)] {
        brake_action(&port, &format!("brake_action, 8 axes{mode}"), &inputs::gripping(gripper));
        hold_action(&port, &format!("hold_action, 8 axes{mode}"), &inputs::gripping(gripper));
    }
    features(&port, true);
    features(&port, false);
    gate(&port);
    time_bin(&port);
    tick(&port);
    judging(&port);
}

fn root(port: &Port) {
    let xs = &inputs::numbers(1024);
    let rust: Side<'_> = Box::new(|| {
        for x in xs {
            black_box(fmath::sqrt(black_box(*x)));
        }
    });
    let ported = port.sqrt.map(|f| -> Side<'_> {
        Box::new(move || {
            for x in xs {
                let _ = black_box(f(black_box(*x)));
            }
        })
    });
    line("root", xs.len(), Some(rust), ported);
}

fn norm(port: &Port) {
    let v = inputs::numbers(8);
    let rust = calls(1000, || fmath::norm(black_box(&v), 8));
    let v = &v;
    let ported = port.norm.map(|f| calls(1000, move || f(black_box(v), 8)));
    line("norm of 8", 1000, Some(rust), ported);
}

fn chunk(port: &Port) {
    let data = &inputs::numbers(512);
    let ch = inputs::chunk(8, data);
    let (lent, raw) = (linked::chunk_view(&ch), oracle::chunk_view(ch));
    let (mut held, mut raw_held) = (lictor::chunk::ChunkBuf::new(), rust::ChunkBuf::new());
    let rust = calls(100, || raw_held.fill(1, 1, 64, 8, 1, black_box(data)));
    let ported = port.fill.map(|_| calls(100, || held.copy_from(black_box(lent))));
    line("fill 64 x 8", 100, Some(rust), ported);
    let (mut row, mut i, mut j) = ([0.0; 8], 0, 0);
    let rust = calls(1000, || {
        i = (i + 1) % 64;
        black_box(black_box(raw).action(i));
    });
    let ported = port.action.map(|_| {
        calls(1000, || {
            j = (j + 1) % 64;
            black_box(lent).action(j, black_box(&mut row))
        })
    });
    line("action of 8", 1000, Some(rust), ported);
}

fn window(port: &Port) {
    let (mut w, mut raw) = (lictor::window::Window::default(), rust::window::Window { bits: 0 });
    let rust = calls(1000, || {
        raw.push(black_box(true), black_box(0xff_ffff));
        raw.hits()
    });
    let ported = port.push.zip(port.hits).map(|_| {
        calls(1000, || {
            w.push(black_box(true), black_box(0xff_ffff));
            w.hits()
        })
    });
    line("window push and hits", 1000, Some(rust), ported);
}

fn trail(port: &Port) {
    let p = &inputs::numbers(8);
    let (mut t, mut raw) = (lictor::window::Trail::new(), rust::window::Trail::new());
    for q in inputs::numbers(256).chunks(8) {
        t.push(q, 8).expect("a position that is recorded");
        raw.push(q, 8);
    }
    let (full, raw_full) = (t, raw);
    let rust = calls(1000, || raw.push(black_box(p), 8));
    let ported = port.trail_push.map(|_| calls(1000, || t.push(black_box(p), 8)));
    line("trail push of 8", 1000, Some(rust), ported);
    let rust = calls(1000, || black_box(&raw_full).net(8, 20));
    let ported = port.net.map(|_| calls(1000, || black_box(&full).net(8, 20)));
    line("trail net, 20 samples of 8", 1000, Some(rust), ported);
    let rust = calls(1000, || black_box(&raw_full).path(8, 20));
    let ported = port.path.map(|_| calls(1000, || black_box(&full).path(8, 20)));
    line("trail path, 20 samples of 8", 1000, Some(rust), ported);
}

fn forecast(port: &Port, name: &str, cfg: &FuseConfig) {
    let (raw, dim) = (in_the_rust(cfg), cfg.dim);
    let (p, v, data) = (inputs::numbers(dim), inputs::numbers(dim), inputs::numbers(64 * dim));
    let ch = inputs::chunk(dim, &data);
    let rust =
        raw.as_ref().map(|raw| calls(10, || brake::brake_feasible(black_box(raw), &p, &v, oracle::chunk_view(ch), 0)));
    let mut slacks = vec![0.0; 4096];
    let (cfg, ch, p, v) = (linked::config(cfg), linked::chunk_view(&ch), &p, &v);
    let ported = port
        .brake_feasible
        .map(|_| calls(10, move || lictor::brake::brake_feasible(black_box(&cfg), p, v, ch, 0, &mut slacks)));
    line(name, 10, rust, ported);
}

/// The Rust has no such function. Beside it stands the nearest, its forecast of one row that is held for as many substeps, which makes a setpoint
/// and a stop distance besides; no call of the Rust's judges that these are more than a row may have.
fn run_towards(name: &str, cfg: &FuseConfig) {
    const SUBSTEPS: u16 = 4096;
    let (dim, brake) = (cfg.dim, BrakeModel { substeps: SUBSTEPS, commit: 1, brake_steps: 0, ..cfg.brake });
    let raw = in_the_rust(&FuseConfig { brake, ..*cfg });
    let (p, v, aim) = (inputs::numbers(dim), inputs::numbers(dim), inputs::numbers(64 * dim));
    let aim = &aim[..dim];
    let ch = oracle::chunk_view(inputs::chunk(dim, aim));
    let rust = raw.as_ref().map(|raw| calls(10, || brake::brake_feasible(black_box(raw), &p, &v, ch, 0)));
    let (mut pos, mut vel, mut slacks) = (p.clone(), v.clone(), vec![0.0; SUBSTEPS.into()]);
    let (cfg, p, v) = (linked::config(cfg), &p, &v);
    let ported = calls(10, move || {
        pos.copy_from_slice(p);
        vel.copy_from_slice(v);
        lictor::brake::run_towards(black_box(&cfg), aim, &mut pos, &mut vel, SUBSTEPS.into(), &mut slacks)
    });
    line(name, 10, rust, Some(ported));
}

/// The configuration as the Rust has it, which is with a box, with one zone or none, and without a last command.
fn in_the_rust(cfg: &FuseConfig) -> Option<rust::FuseConfig> {
    (!cfg.shape.disc && cfg.zones.count <= 1 && cfg.gripper == Gripper::ToZero).then(|| oracle::config(cfg))
}

/// Everything armed. Beside the Rust's trips and moved axes the port gives the walls that stopped them.
fn check_chunk(port: &Port, name: &str, cfg: &FuseConfig, data: &[f64]) {
    let raw = in_the_rust(cfg);
    let (pos, aux) = (&inputs::numbers(8), &inputs::camera(cfg));
    let ch = inputs::chunk(8, data);
    let mut buf = oracle::rust::ChunkBuf::new();
    let rust = raw.as_ref().map(|raw| {
        calls(100, || tier0::check_chunk(black_box(raw), oracle::obs(pos, aux, &[]), oracle::chunk_view(ch), &mut buf))
    });
    let mut out = vec![0.0; 512];
    let (cfg, ch) = (linked::config(cfg), linked::chunk_view(&ch));
    let ported = port
        .check_chunk
        .map(|_| calls(100, move || lictor::tier0::check_chunk(black_box(&cfg), pos, aux, ch, &mut out)));
    line(name, 100, rust, ported);
}

fn check_action(port: &Port, name: &str, cfg: &FuseConfig) {
    let raw = in_the_rust(cfg);
    let (pos, aux, prev, a) = (&inputs::numbers(8), &inputs::camera(cfg), &inputs::numbers(8), &inputs::numbers(8));
    let mut to = [0.0; 8];
    let rust = raw
        .as_ref()
        .map(|raw| calls(1000, || tier0::check_action(black_box(raw), oracle::obs(pos, aux, &[]), prev, a, &mut to)));
    let mut out = [0.0; 8];
    let cfg = linked::config(cfg);
    let ported = port
        .check_action
        .map(|_| calls(1000, move || lictor::tier0::check_action(black_box(&cfg), pos, aux, prev, a, &mut out)));
    line(name, 1000, rust, ported);
}

fn brake_action(port: &Port, name: &str, cfg: &FuseConfig) {
    let raw = in_the_rust(cfg);
    let (pos, vel, last) = (&inputs::numbers(8), &inputs::numbers(8), &inputs::numbers(8));
    let mut to = [0.0; 8];
    let rust =
        raw.as_ref().map(|raw| calls(1000, || brake::brake_action(black_box(raw), pos, vel, black_box(&mut to))));
    let mut out = [0.0; 8];
    let cfg = linked::config(cfg);
    let ported = port.brake_action.map(|_| {
        calls(1000, move || lictor::brake::brake_action(black_box(&cfg), pos, vel, last, black_box(&mut out)))
    });
    line(name, 1000, rust, ported);
}

fn hold_action(port: &Port, name: &str, cfg: &FuseConfig) {
    let raw = in_the_rust(cfg);
    let (pos, last) = (&inputs::numbers(8), &inputs::numbers(8));
    let mut to = [0.0; 8];
    let rust = raw.as_ref().map(|raw| calls(1000, || brake::hold_action(black_box(raw), pos, black_box(&mut to))));
    let mut out = [0.0; 8];
    let cfg = linked::config(cfg);
    let ported = port
        .hold_action
        .map(|_| calls(1000, move || lictor::brake::hold_action(black_box(&cfg), pos, last, black_box(&mut out))));
    line(name, 1000, rust, ported);
}

/// The Rust computes twelve features, Stall among them, and the port eleven.
fn features(port: &Port, with_chunk: bool) {
    let cfg = inputs::all_armed(8);
    let raw = oracle::config(&cfg);
    let (pos, ext, data) = (inputs::numbers(8), inputs::numbers(4), inputs::numbers(128));
    let ch = with_chunk.then(|| inputs::chunk(8, &data));
    let (rt, sc) = (inputs::state(&data), model::Scores::NEW);
    let (mut raw_rt, mut raw_sc) = (oracle::tier1_rt(&rt), oracle::scores(&sc));
    let rust = calls(100, || {
        let obs = oracle::obs(&pos, &[], &ext);
        tier1::features(black_box(&raw), &mut raw_rt, obs, ch.map(oracle::chunk_view), 0, &mut raw_sc)
    });
    let (cfg, pos, ext, ch) = (linked::config(&cfg), &pos, &ext, ch.as_ref().map(linked::chunk_view));
    let (mut rt, mut sc) = (linked::state(&rt), linked::scores(&sc));
    let ported = port
        .features
        .map(|_| calls(100, move || lictor::tier1::features(black_box(&cfg), &mut rt, pos, ext, ch, &mut sc)));
    line(if with_chunk { "features, chunk of 16 x 8" } else { "features, no chunk" }, 100, Some(rust), ported);
}

fn gate(port: &Port) {
    let cal = inputs::calibration();
    let raw = oracle::calibration(&cal);
    let sc = inputs::scores();
    let mut raw_sc = oracle::scores(&sc);
    let rust = calls(1000, || {
        conformal::standardise(black_box(&raw), 3, &mut raw_sc);
        conformal::aggregate(black_box(&raw), &mut raw_sc)
    });
    let (cal, mut sc) = (linked::calibration(&cal), linked::scores(&sc));
    let ported = port.standardise.zip(port.aggregate).map(|_| {
        calls(1000, move || {
            let _ = lictor::conformal::standardise(black_box(&cal), 3, &mut sc);
            lictor::conformal::aggregate(black_box(&cal), &mut sc)
        })
    });
    line("standardise and aggregate", 1000, Some(rust), ported);
}

/// The Rust numbers ticks from 0, and is asked for the tick before.
fn time_bin(port: &Port) {
    let rust = calls(1000, || rust::bin_of(black_box(42), black_box(300), 16));
    let ported = port.time_bin.map(|_| calls(1000, || lictor::conformal::time_bin(black_box(43), black_box(300))));
    line("time bin", 1000, Some(rust), ported);
}

/// A whole control tick: the position recorded, the chunk scored and gated, checked, its forecast of 4,096 substeps, and the row
/// that brakes.
fn tick(port: &Port) {
    let cfg = inputs::tick();
    let (pos, vel, aux, ext, data) =
        (inputs::numbers(8), inputs::numbers(8), [0.5, 0.5], inputs::numbers(4), inputs::numbers(512));
    let ch = inputs::chunk(8, &data);
    let (rt, sc, cal) = (inputs::state(&data[..128]), model::Scores::NEW, inputs::calibration());
    let (raw, raw_cal, raw_ch) = (oracle::config(&cfg), oracle::calibration(&cal), oracle::chunk_view(ch));
    let (mut raw_rt, mut raw_sc, mut raw_window) =
        (oracle::tier1_rt(&rt), oracle::scores(&sc), rust::window::Window { bits: 0 });
    let (mut buf, mut row) = (rust::ChunkBuf::new(), [0.0; 8]);
    let rust = calls(10, || {
        let obs = oracle::obs(&pos, &aux, &ext);
        raw_rt.trail.push(&pos, 8);
        tier1::features(black_box(&raw), &mut raw_rt, obs, Some(raw_ch), 0, &mut raw_sc);
        conformal::standardise(&raw_cal, 3, &mut raw_sc);
        conformal::aggregate(&raw_cal, &mut raw_sc);
        raw_window.push(conformal::trip(&raw_cal, &raw_sc), 0xff);
        let found = tier0::check_chunk(&raw, obs, raw_ch, &mut buf);
        let told = brake::brake_feasible(&raw, &pos, &vel, buf.view().expect("rows that were checked"), 0);
        brake::brake_action(&raw, &pos, &vel, &mut row);
        (raw_window.hits(), found, told, row)
    });
    let (cfg, cal, ch) = (linked::config(&cfg), linked::calibration(&cal), linked::chunk_view(&ch));
    let (mut rt, mut sc, mut window) = (linked::state(&rt), linked::scores(&sc), lictor::window::Window::default());
    let (mut rows, mut slacks, mut row) = ([0.0; 512], [0.0; 4096], [0.0; 8]);
    let mut once = || -> lictor::Answer<(u8, bool)> {
        rt.trail.push(&pos, 8)?;
        lictor::tier1::features(black_box(&cfg), &mut rt, &pos, &ext, Some(ch), &mut sc)?;
        lictor::conformal::standardise(&cal, 3, &mut sc)?;
        lictor::conformal::aggregate(&cal, &mut sc)?;
        window.push(lictor::conformal::trip(&cal, &sc)?, 0xff);
        lictor::tier0::check_chunk(&cfg, &pos, &aux, ch, &mut rows)?;
        let projected = lictor::chunk::ChunkView { data: &rows, ..ch };
        let told = lictor::brake::brake_feasible(&cfg, &pos, &vel, projected, 0, &mut slacks)?;
        lictor::brake::brake_action(&cfg, &pos, &vel, &[], &mut row)?;
        Ok((window.hits(), told.feasible))
    };
    once().expect("a tick that is accepted");
    let ported = port.features.zip(port.brake_feasible).map(|_| calls(10, once));
    line("control tick, 64 x 8", 10, Some(rust), ported);
}

/// The port's own work on every call; the Rust does it once, in `compile`, and so has no time here.
fn judging(port: &Port) {
    let plain = FuseConfig { clamp: ClampMode::Project, ..inputs::all_armed(8) };
    let calibrated = FuseConfig { calibrated: true, cal: inputs::calibration(), horizon_ticks: 300, ..plain };
    for (name, cfg) in [("configuration judged", plain), ("configuration judged, calibrated", calibrated)] {
        let cfg = linked::config(&cfg);
        let ported = port.derive.map(|_| calls(1000, move || black_box(&cfg).derive()));
        line(name, 1000, None, ported);
    }
}
