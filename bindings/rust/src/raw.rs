//! The functions of include/lictor.h, and its structs that a configuration is laid out in, field by field. A slice goes as
//! its pointer and its length.

use crate::config::Derived;

#[repr(C)]
#[derive(Clone, Copy, Debug)]
pub struct Numbers {
    pub dt: f64,
    pub v_max: f64,
    pub a_max: f64,
    pub j_max: f64,
    pub reach_max: f64,
    pub margin: f64,
    pub brake_k_p: f64,
    pub brake_k_v: f64,
    pub brake_dt: f64,
    pub contact_radius: f64,
    pub contact_v_max: f64,
    pub norm_center: [f64; 8],
    pub norm_scale: [f64; 8],
    pub box_lo: [f64; 8],
    pub box_hi: [f64; 8],
    pub tau: f64,
    pub contact1_radius: f64,
    pub contact1_v_max: f64,
    pub contact2_radius: f64,
    pub contact2_v_max: f64,
    pub contact3_radius: f64,
    pub contact3_v_max: f64,
    pub disc_x: f64,
    pub disc_y: f64,
    pub disc_radius: f64,
}

#[repr(C)]
#[derive(Clone, Copy, Debug)]
pub struct Counts {
    pub dim: u64,
    pub pos_dim: u64,
    pub kind: u64,
    pub clamp: u64,
    pub brake: u64,
    pub contact: u64,
    pub contact_a0: u64,
    pub contact_a1: u64,
    pub substeps: u64,
    pub commit: u64,
    pub brake_steps: u64,
    pub react_ticks: u64,
    pub terms: [u64; 8],
    pub armed: u64,
    pub aux_count: u64,
    pub calibrated: u64,
    pub mask: u64,
    pub n_terms: u64,
    pub horizon_ticks: u64,
    pub absent_camera: u64,
    pub contact1_a0: u64,
    pub contact1_a1: u64,
    pub contact2_a0: u64,
    pub contact2_a1: u64,
    pub contact3_a0: u64,
    pub contact3_a1: u64,
    pub shape: u64,
    pub gripper: u64,
}

extern "C" {
    pub fn lictor_environment(one: f64, least: f64) -> u64;
    pub fn lictor_min(a: f64, b: f64) -> f64;
    pub fn lictor_max(a: f64, b: f64) -> f64;
    pub fn lictor_clamp(x: f64, lo: f64, hi: f64) -> f64;
    pub fn lictor_clamp_side(x: f64, lo: f64, hi: f64, side: &mut i64) -> f64;
    pub fn lictor_sqrt(x: f64, root: &mut f64) -> u64;
    pub fn lictor_norm(v: *const f64, len: usize, n: usize, norm: &mut f64) -> u64;
    pub fn lictor_dist(a: *const f64, a_len: usize, b: *const f64, b_len: usize, n: usize, dist: &mut f64) -> u64;
    pub fn lictor_fill(
        numbers: &mut [f64; 512],
        header: &mut [u64; 6],
        seq: u32,
        t_emit: u32,
        horizon: u16,
        dim: u16,
        exec_steps: u16,
        rows: *const f64,
        rows_len: usize,
    ) -> u64;
    pub fn lictor_action(
        rows: *const f64,
        rows_len: usize,
        horizon: u16,
        dim: u16,
        i: usize,
        row: *mut f64,
        row_len: usize,
    ) -> usize;
    pub fn lictor_set_row(
        rows: *mut f64,
        rows_len: usize,
        horizon: u16,
        dim: u16,
        i: usize,
        row: *const f64,
        row_len: usize,
    );
    pub fn lictor_held_rows(numbers: &[f64; 512], horizon: u16, dim: u16, filled: u64) -> usize;
    pub fn lictor_mask(n: u8, mask: &mut u64) -> u64;
    pub fn lictor_push(bits: u64, hit: u64, mask: u64) -> u64;
    pub fn lictor_hits(bits: u64) -> u64;
    pub fn lictor_trail_push(
        numbers: &mut [f64; 256],
        marks: &mut [u64; 2],
        p: *const f64,
        p_len: usize,
        d: usize,
    ) -> u64;
    pub fn lictor_trail_clear(numbers: &mut [f64; 256], marks: &mut [u64; 2]) -> u64;
    pub fn lictor_trail_net(numbers: &[f64; 256], marks: &[u64; 2], d: usize, w: usize, net: &mut f64) -> u64;
    pub fn lictor_trail_path(numbers: &[f64; 256], marks: &[u64; 2], d: usize, w: usize, path: &mut f64) -> u64;
    pub fn lictor_trail_len(numbers: &[f64; 256], marks: &[u64; 2], len: &mut u64) -> u64;
    pub fn lictor_trail_is_empty(numbers: &[f64; 256], marks: &[u64; 2], empty: &mut u64) -> u64;
    pub fn lictor_derive(
        numbers: &Numbers,
        counts: &Counts,
        center: &[f64; 192],
        scale: &[f64; 192],
        derived: &mut Derived,
    ) -> u64;
    pub fn lictor_check_chunk(
        numbers: &Numbers,
        counts: &Counts,
        center: &[f64; 192],
        scale: &[f64; 192],
        pos: *const f64,
        pos_len: usize,
        aux: *const f64,
        aux_len: usize,
        rows: *const f64,
        rows_len: usize,
        horizon: u16,
        dim: u16,
        exec_steps: u16,
        out: *mut f64,
        out_len: usize,
        marks: &mut [u64; 4],
        peak_speed: &mut f64,
    ) -> u64;
    pub fn lictor_check_action(
        numbers: &Numbers,
        counts: &Counts,
        center: &[f64; 192],
        scale: &[f64; 192],
        pos: *const f64,
        pos_len: usize,
        aux: *const f64,
        aux_len: usize,
        prev: *const f64,
        prev_len: usize,
        action: *const f64,
        action_len: usize,
        out: *mut f64,
        out_len: usize,
        marks: &mut [u64; 4],
        peak_speed: &mut f64,
    ) -> u64;
    pub fn lictor_tier1_new(
        before: &mut [f64; 512],
        header: &mut [u64; 6],
        trail: &mut [f64; 256],
        samples: &mut [u64; 2],
        held: &mut [f64; 6],
        kept: &mut [u64; 2],
    );
    pub fn lictor_tier1_reset(
        before: &mut [f64; 512],
        header: &mut [u64; 6],
        trail: &mut [f64; 256],
        samples: &mut [u64; 2],
        held: &mut [f64; 6],
        kept: &mut [u64; 2],
    ) -> u64;
    pub fn lictor_features(
        numbers: &Numbers,
        counts: &Counts,
        center: &[f64; 192],
        scale: &[f64; 192],
        before: &mut [f64; 512],
        header: &mut [u64; 6],
        trail: &[f64; 256],
        samples: &[u64; 2],
        held: &mut [f64; 6],
        kept: &mut [u64; 2],
        pos: *const f64,
        pos_len: usize,
        ext: *const f64,
        ext_len: usize,
        there: u64,
        seq: u32,
        t_emit: u32,
        horizon: u16,
        dim: u16,
        exec_steps: u16,
        rows: *const f64,
        rows_len: usize,
        scores: &mut [f64; 25],
        marks: &mut [u64; 2],
    ) -> u64;
    pub fn lictor_brake_feasible(
        numbers: &Numbers,
        counts: &Counts,
        center: &[f64; 192],
        scale: &[f64; 192],
        pos: *const f64,
        pos_len: usize,
        vel: *const f64,
        vel_len: usize,
        rows: *const f64,
        rows_len: usize,
        horizon: u16,
        dim: u16,
        exec_steps: u16,
        from: usize,
        slacks: *mut f64,
        slacks_len: usize,
        marks: &mut [u64; 2],
        distances: &mut [f64; 2],
        place: &mut u64,
    ) -> u64;
    pub fn lictor_run_towards(
        numbers: &Numbers,
        counts: &Counts,
        center: &[f64; 192],
        scale: &[f64; 192],
        setpoint: *const f64,
        setpoint_len: usize,
        pos: *mut f64,
        pos_len: usize,
        vel: *mut f64,
        vel_len: usize,
        n: usize,
        slacks: *mut f64,
        slacks_len: usize,
        count: &mut u64,
        margin: &mut f64,
        place: &mut u64,
    ) -> u64;
    pub fn lictor_brake_action(
        numbers: &Numbers,
        counts: &Counts,
        center: &[f64; 192],
        scale: &[f64; 192],
        pos: *const f64,
        pos_len: usize,
        vel: *const f64,
        vel_len: usize,
        last: *const f64,
        last_len: usize,
        out: *mut f64,
        out_len: usize,
        walls: &mut [u64; 2],
    ) -> u64;
    pub fn lictor_hold_action(
        numbers: &Numbers,
        counts: &Counts,
        center: &[f64; 192],
        scale: &[f64; 192],
        pos: *const f64,
        pos_len: usize,
        last: *const f64,
        last_len: usize,
        out: *mut f64,
        out_len: usize,
        walls: &mut [u64; 2],
    ) -> u64;
    pub fn lictor_standardise(
        center: &[f64; 192],
        scale: &[f64; 192],
        tau: f64,
        mask: u32,
        n_terms: u8,
        terms: &[u32; 8],
        bin: usize,
        scores: &mut [f64; 25],
        marks: &mut [u64; 2],
    ) -> u64;
    pub fn lictor_aggregate(
        center: &[f64; 192],
        scale: &[f64; 192],
        tau: f64,
        mask: u32,
        n_terms: u8,
        terms: &[u32; 8],
        scores: &mut [f64; 25],
        marks: &mut [u64; 2],
    ) -> u64;
    pub fn lictor_trip(
        center: &[f64; 192],
        scale: &[f64; 192],
        tau: f64,
        mask: u32,
        n_terms: u8,
        terms: &[u32; 8],
        scores: &[f64; 25],
        marks: &[u64; 2],
        trips: &mut u64,
    ) -> u64;
    pub fn lictor_time_bin(t: u32, horizon_ticks: u32, bin: &mut u64) -> u64;
}
