//! The exported functions themselves, on a configuration as C passes it: what is not read comes to them as it is, as a zone past the count
//! and the centre and the radius of a box, which do not come to the library by the binding.

use model::{BrakeOut, ChunkView, Derived, FuseConfig, Ran, Refusal, Tier0Out, WallMarks, BINS, MAX_D, MAX_POS, NFEAT};

use crate::port::{Answer, Port};

pub type Numbers = [f64; 53];
pub type Counts = [u64; 35];
type Table = [f64; BINS * NFEAT];

extern "C" {
    fn lictor_derive(n: &Numbers, c: &Counts, center: &Table, scale: &Table, derived: &mut [f64; 29]) -> u64;
    fn lictor_check_chunk(
        numbers: &Numbers,
        counts: &Counts,
        center: &Table,
        scale: &Table,
        pos: *const f64,
        pos_len: usize,
        aux: *const f64,
        aux_len: usize,
        rows: *const f64,
        rows_len: usize,
        horizon: u16,
        dim: u16,
        exec_steps: u16,
        out: *mut f64,
        out_len: usize,
        marks: &mut [u64; 4],
        peak_speed: &mut f64,
    ) -> u64;
    fn lictor_check_action(
        numbers: &Numbers,
        counts: &Counts,
        center: &Table,
        scale: &Table,
        pos: *const f64,
        pos_len: usize,
        aux: *const f64,
        aux_len: usize,
        prev: *const f64,
        prev_len: usize,
        action: *const f64,
        action_len: usize,
        out: *mut f64,
        out_len: usize,
        marks: &mut [u64; 4],
        peak_speed: &mut f64,
    ) -> u64;
    fn lictor_brake_feasible(
        numbers: &Numbers,
        counts: &Counts,
        center: &Table,
        scale: &Table,
        pos: *const f64,
        pos_len: usize,
        vel: *const f64,
        vel_len: usize,
        rows: *const f64,
        rows_len: usize,
        horizon: u16,
        dim: u16,
        exec_steps: u16,
        from: usize,
        slacks: *mut f64,
        slacks_len: usize,
        marks: &mut [u64; 2],
        distances: &mut [f64; 2],
        place: &mut u64,
    ) -> u64;
    fn lictor_run_towards(
        numbers: &Numbers,
        counts: &Counts,
        center: &Table,
        scale: &Table,
        setpoint: *const f64,
        setpoint_len: usize,
        pos: *mut f64,
        pos_len: usize,
        vel: *mut f64,
        vel_len: usize,
        n: usize,
        slacks: *mut f64,
        slacks_len: usize,
        count: &mut u64,
        margin: &mut f64,
        place: &mut u64,
    ) -> u64;
    fn lictor_brake_action(
        numbers: &Numbers,
        counts: &Counts,
        center: &Table,
        scale: &Table,
        pos: *const f64,
        pos_len: usize,
        vel: *const f64,
        vel_len: usize,
        last: *const f64,
        last_len: usize,
        out: *mut f64,
        out_len: usize,
        walls: &mut [u64; 2],
    ) -> u64;
    fn lictor_hold_action(
        numbers: &Numbers,
        counts: &Counts,
        center: &Table,
        scale: &Table,
        pos: *const f64,
        pos_len: usize,
        last: *const f64,
        last_len: usize,
        out: *mut f64,
        out_len: usize,
        walls: &mut [u64; 2],
    ) -> u64;
}

/// The entries that read the zones or the workspace.
pub fn port() -> Port {
    Port {
        derive: Some(derive),
        check_chunk: Some(check_chunk),
        check_action: Some(check_action),
        brake_feasible: Some(brake_feasible),
        run_towards: Some(run_towards),
        brake_action: Some(brake_action),
        hold_action: Some(hold_action),
        ..Port::default()
    }
}

/// A configuration as C passes it, what is not read with it.
pub fn laid(c: &FuseConfig) -> (Numbers, Counts) {
    let (b, [first, others @ ..]) = (&c.brake, &c.zones.list);
    let scalars =
        [c.dt, c.v_max, c.a_max, c.j_max, c.reach_max, c.margin, b.k_p, b.k_v, b.dt, first.radius, first.v_max];
    let mut numbers = scalars.to_vec();
    for axes in [c.norm_center, c.norm_scale, c.box_lo, c.box_hi] {
        numbers.extend(axes);
    }
    numbers.push(c.cal.tau);
    let codes = [c.dim as u64, c.pos_dim as u64, c.kind as u64, c.clamp as u64, b.kind as u64, c.zones.count as u64];
    let mut counts = codes.to_vec();
    counts.extend([first.a0, first.a1].map(u64::from));
    counts.extend([b.substeps, b.commit, b.brake_steps, b.react].map(u64::from));
    counts.extend(c.cal.terms.map(u64::from));
    counts.extend([c.armed as u64, c.aux_count as u64, c.calibrated as u64, c.cal.mask as u64]);
    counts.extend([c.cal.n_terms as u64, c.horizon_ticks as u64, c.absent_camera as u64]);
    for z in others {
        numbers.extend([z.radius, z.v_max]);
        counts.extend([z.a0, z.a1].map(u64::from));
    }
    numbers.extend([c.shape.center[0], c.shape.center[1], c.shape.radius]);
    counts.extend([c.shape.disc.into(), c.gripper as u64]);
    (numbers.try_into().expect("53 numbers"), counts.try_into().expect("35 counts"))
}

/// The value where the number is 0, else the refusal with its place.
fn given<T>(number: u64, place: u64, value: impl FnOnce() -> T) -> Answer<T> {
    match number {
        0 => Ok(value()),
        _ => Err(Refusal { number: number as u8, place: place as usize }),
    }
}

// SAFETY, of each call below: the arrays are as long as include/lictor.h says, the slices are lent with their lengths, and each stands by
// itself.

fn derive(c: &FuseConfig) -> Answer<Derived> {
    let ((numbers, counts), mut d) = (laid(c), [7.0; 29]);
    let number = unsafe { lictor_derive(&numbers, &counts, &c.cal.center, &c.cal.scale, &mut d) };
    let axes = |from: usize| d[from..from + MAX_POS].try_into().expect("as many as there are axes");
    let [inv_dt, inv_dt2, inv_dt3, step_max, norm_scale_iso, ..] = d;
    let (box_lo, box_hi, inv_norm_scale) = (axes(5), axes(5 + MAX_POS), axes(5 + 2 * MAX_D));
    given(number, 0, || Derived { inv_dt, inv_dt2, inv_dt3, step_max, box_lo, box_hi, inv_norm_scale, norm_scale_iso })
}

fn found(number: u64, marks: [u64; 4], peak_speed: f64) -> Answer<Tier0Out> {
    let [trips, clamped_dims, low_dims, high_dims] = marks.map(|mark| mark as u32);
    given(number, 0, || Tier0Out { trips, clamped_dims, peak_speed, low_dims, high_dims })
}

fn check_chunk(c: &FuseConfig, pos: &[f64], aux: &[f64], ch: ChunkView<'_>, out: &mut [f64]) -> Answer<Tier0Out> {
    let ((numbers, counts), mut marks, mut speed) = (laid(c), [7; 4], 7.0);
    let number = unsafe {
        lictor_check_chunk(
            &numbers,
            &counts,
            &c.cal.center,
            &c.cal.scale,
            pos.as_ptr(),
            pos.len(),
            aux.as_ptr(),
            aux.len(),
            ch.data.as_ptr(),
            ch.data.len(),
            ch.horizon,
            ch.dim,
            ch.exec_steps,
            out.as_mut_ptr(),
            out.len(),
            &mut marks,
            &mut speed,
        )
    };
    found(number, marks, speed)
}

fn check_action(
    c: &FuseConfig,
    pos: &[f64],
    aux: &[f64],
    prev: &[f64],
    a: &[f64],
    out: &mut [f64],
) -> Answer<Tier0Out> {
    let ((numbers, counts), mut marks, mut speed) = (laid(c), [7; 4], 7.0);
    let number = unsafe {
        lictor_check_action(
            &numbers,
            &counts,
            &c.cal.center,
            &c.cal.scale,
            pos.as_ptr(),
            pos.len(),
            aux.as_ptr(),
            aux.len(),
            prev.as_ptr(),
            prev.len(),
            a.as_ptr(),
            a.len(),
            out.as_mut_ptr(),
            out.len(),
            &mut marks,
            &mut speed,
        )
    };
    found(number, marks, speed)
}

fn brake_feasible(
    c: &FuseConfig,
    p: &[f64],
    v: &[f64],
    ch: ChunkView<'_>,
    from: usize,
    slacks: &mut [f64],
) -> Answer<BrakeOut> {
    let ((numbers, counts), mut marks, mut distances, mut place) = (laid(c), [7; 2], [7.0; 2], 7);
    let number = unsafe {
        lictor_brake_feasible(
            &numbers,
            &counts,
            &c.cal.center,
            &c.cal.scale,
            p.as_ptr(),
            p.len(),
            v.as_ptr(),
            v.len(),
            ch.data.as_ptr(),
            ch.data.len(),
            ch.horizon,
            ch.dim,
            ch.exec_steps,
            from,
            slacks.as_mut_ptr(),
            slacks.len(),
            &mut marks,
            &mut distances,
            &mut place,
        )
    };
    let ([count, feasible], [margin, stop_dist]) = (marks, distances);
    given(number, place, || BrakeOut { count: count as usize, feasible: feasible == 1, margin, stop_dist })
}

/// Count and margin stay where it refuses, and the place where it accepts.
fn run_towards(
    c: &FuseConfig,
    setpoint: &[f64],
    p: &mut [f64],
    v: &mut [f64],
    n: usize,
    slacks: &mut [f64],
) -> Answer<Ran> {
    let ((numbers, counts), mut count, mut margin, mut place) = (laid(c), 7, 7.0, 7);
    let number = unsafe {
        lictor_run_towards(
            &numbers,
            &counts,
            &c.cal.center,
            &c.cal.scale,
            setpoint.as_ptr(),
            setpoint.len(),
            p.as_mut_ptr(),
            p.len(),
            v.as_mut_ptr(),
            v.len(),
            n,
            slacks.as_mut_ptr(),
            slacks.len(),
            &mut count,
            &mut margin,
            &mut place,
        )
    };
    assert!(number == 0 || (count, margin) == (7, 7.0), "refused with {number}, and count or margin is written");
    assert!(number != 0 || place == 7, "accepted, and the place is written");
    given(number, place, || Ran { count: count as usize, margin })
}

/// The marks, which a refusal leaves as they were.
fn walls(number: u64, marks: [u64; 2]) -> Answer<WallMarks> {
    assert!(number == 0 || marks == [7; 2], "refused with {number}, and marks are written");
    let [low_dims, high_dims] = marks.map(|mark| mark as u32);
    given(number, 0, || WallMarks { low_dims, high_dims })
}

fn brake_action(c: &FuseConfig, p: &[f64], v: &[f64], last: &[f64], out: &mut [f64]) -> Answer<WallMarks> {
    let ((numbers, counts), mut marks) = (laid(c), [7; 2]);
    let number = unsafe {
        lictor_brake_action(
            &numbers,
            &counts,
            &c.cal.center,
            &c.cal.scale,
            p.as_ptr(),
            p.len(),
            v.as_ptr(),
            v.len(),
            last.as_ptr(),
            last.len(),
            out.as_mut_ptr(),
            out.len(),
            &mut marks,
        )
    };
    walls(number, marks)
}

fn hold_action(c: &FuseConfig, p: &[f64], last: &[f64], out: &mut [f64]) -> Answer<WallMarks> {
    let ((numbers, counts), mut marks) = (laid(c), [7; 2]);
    let number = unsafe {
        lictor_hold_action(
            &numbers,
            &counts,
            &c.cal.center,
            &c.cal.scale,
            p.as_ptr(),
            p.len(),
            last.as_ptr(),
            last.len(),
            out.as_mut_ptr(),
            out.len(),
            &mut marks,
        )
    };
    walls(number, marks)
}
