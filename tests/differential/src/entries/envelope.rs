//! Module 4.

use model::{envelope as rule, Derived, FuseConfig};

use super::{accepted, none, nothing, plain};
use crate::{
    input::{config, config_parts, config_parts_with_shape, lay_table},
    number::Field,
    part::{Part, BRAKES, KINDS},
    port::Port,
    rng::Rng,
    run::{Entry, Shown},
};

/// All derived numbers; those of the norm over dim.
fn shown(d: &Derived, dim: usize) -> Shown {
    let mut numbers = vec![d.inv_dt, d.inv_dt2, d.inv_dt3, d.step_max, d.norm_scale_iso];
    numbers.extend(d.box_lo.iter().chain(&d.box_hi).chain(&d.inv_norm_scale[..dim]));
    Shown { numbers, ..Shown::default() }
}

fn configuration(rng: &mut Rng) -> FuseConfig {
    let field = Field::new(rng);
    config(rng, field)
}

/// The whole configuration judged, and what it derives.
pub fn derive(port: &Port) -> Entry<FuseConfig> {
    Entry {
        name: "derive",
        generate: configuration,
        parts: config_parts,
        narrower: none,
        before: nothing,
        model: Box::new(|c| plain(rule::derive(c), |d| shown(&d, c.dim))),
        rust: Box::new(|c| Some(accepted(shown(&oracle::derived(&oracle::config(c)), c.dim)))),
        port: port.derive.map(|f| Box::new(move |c: &FuseConfig| plain(f(c), |d| shown(&d, c.dim))) as _),
    }
}

/// The same entry, with a round table in most configurations. The Rust has the box alone, and is asked there.
pub fn derive_on_a_round_table(port: &Port) -> Entry<FuseConfig> {
    let whole = derive(port);
    let rust = whole.rust;
    Entry {
        name: "derive on a round table",
        generate: |rng| {
            let field = Field::new(rng);
            let mut cfg = config(rng, field);
            lay_table(rng, field, &mut cfg);
            cfg
        },
        parts: config_parts_with_shape,
        rust: Box::new(move |c| if c.shape.disc { None } else { rust(c) }),
        ..whole
    }
}

/// A configuration with its control period as a quotient.
#[derive(Clone, Debug)]
pub struct CompiledIn {
    cfg: FuseConfig,
    num: u32,
    den: u32,
}

/// Such as `compile` accepts: equal dims, a true box, gains above 0, and the second-order kind's period kept.
fn compilable(rng: &mut Rng) -> CompiledIn {
    let mut cfg = configuration(rng);
    let (num, den) = (rng.within(1, 1000) as u32, rng.within(1, 30) as u32);
    cfg.dt = den as f64 / num as f64;
    if !rng.one_in(8) {
        let dim = cfg.dim.min(cfg.pos_dim);
        (cfg.dim, cfg.pos_dim, cfg.calibrated) = (dim, dim, false);
        cfg.brake.k_p = Field(1.0).above(rng);
        cfg.brake.commit = cfg.brake.commit.max(1);
        cfg.brake.kind = rng.pick(&BRAKES[..4]);
        cfg.brake.dt = cfg.dt / cfg.brake.substeps as f64;
        cfg.kind = rng.pick(&[KINDS[0], KINDS[2]]);
    }
    CompiledIn { cfg, num, den }
}

/// The Rust's own `compile` where it accepts; it refuses more than the scope document does, and that is skipped.
pub fn compiled(port: &Port) -> Entry<CompiledIn> {
    let derived = |c: &FuseConfig, d: Derived| shown(&d, c.dim);
    Entry {
        name: "derive compile",
        generate: compilable,
        parts: |i| {
            let mut parts: Vec<Part<'_>> = config_parts(&mut i.cfg);
            parts.remove(3);
            parts
        },
        narrower: none,
        before: nothing,
        model: Box::new(move |i| plain(rule::derive(&i.cfg), |d| derived(&i.cfg, d))),
        rust: Box::new(move |i| {
            let d = oracle::compile(&i.cfg, i.num, i.den).ok()?;
            Some(accepted(derived(&i.cfg, d)))
        }),
        port: port.derive.map(|f| Box::new(move |i: &CompiledIn| plain(f(&i.cfg), |d| derived(&i.cfg, d))) as _),
    }
}
