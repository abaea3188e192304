//! The arguments and answers, in the sizes of the port, with the Rust's names.

pub const MAX_D: usize = 8;
pub const MAX_POS: usize = 8;
pub const MAX_H: usize = 64;
pub const MAX_EXT: usize = 4;
pub const MAX_TERMS: usize = 8;
pub const NFEAT: usize = 12;
pub const HELD: usize = 6;
pub const BINS: usize = 16;
pub const TRAIL_W: usize = 32;
pub const PE_WINDOW: usize = 20;
pub const MAX_SUBSTEPS: usize = 4096;
pub const MAX_ZONES: usize = 4;

/// Trip bits.
pub const WORKSPACE: u32 = 1;
pub const SPEED: u32 = 2;
pub const ACCEL: u32 = 4;
pub const JERK: u32 = 8;
pub const REACH: u32 = 16;
pub const CONTACT: u32 = 32;

/// Feature bits; Stall's is given to nothing else, and is never valid.
pub const TCE: usize = 0;
pub const ACC: usize = 1;
pub const ACM_NEG: usize = 2;
pub const NJR: usize = 3;
pub const REACH_FEAT: usize = 4;
pub const SPEED_PEAK: usize = 5;
pub const PATH_INEFF: usize = 6;
pub const STALL: usize = 7;
pub const EXT0: usize = 8;

/// The eleven features that a calibration may name: all but Stall.
pub const NAMED: u32 = ((1 << NFEAT) - 1) & !(1 << STALL);

#[derive(Clone, Copy, Debug, PartialEq, Eq)]
pub enum ActionKind {
    EePosition,
    EeDelta,
    JointPosition,
    JointVelocity,
    Other,
}

#[derive(Clone, Copy, Debug, PartialEq, Eq)]
pub enum BrakeKind {
    PdSecondOrder,
    FirstOrderDecay,
    BoundedAccel,
    JerkLimited,
    ZeroVelocityHold,
}

#[derive(Clone, Copy, Debug, PartialEq, Eq)]
pub enum ClampMode {
    Off,
    Project,
}

#[derive(Clone, Copy, Debug, PartialEq)]
pub struct BrakeModel {
    pub kind: BrakeKind,
    pub k_p: f64,
    pub k_v: f64,
    pub dt: f64,
    pub substeps: u16,
    pub commit: u16,
    pub brake_steps: u16,
    pub react: u16,
}

#[derive(Clone, Copy, Debug, PartialEq)]
pub struct ContactLimit {
    pub radius: f64,
    pub v_max: f64,
    pub a0: u8,
    pub a1: u8,
}

impl ContactLimit {
    /// What stands past the count where nothing else does.
    pub const UNUSED: Self = Self { radius: 0.0, v_max: 0.0, a0: 0, a1: 0 };
}

/// The slow zones of an arm: the first `count` of the list. What stands past the count is unread, and a count over four is refused.
#[derive(Clone, Copy, PartialEq)]
pub struct Zones {
    pub count: usize,
    pub list: [ContactLimit; MAX_ZONES],
}

impl Zones {
    pub const NONE: Self = Self { count: 0, list: [ContactLimit::UNUSED; MAX_ZONES] };

    /// All of these zones, the first four of which are held.
    pub const fn of(zones: &[ContactLimit]) -> Self {
        let mut all = Self { count: zones.len(), ..Self::NONE };
        let mut i = 0;
        while i < zones.len() && i < MAX_ZONES {
            all.list[i] = zones[i];
            i += 1;
        }
        all
    }

    /// The zones that are counted and held.
    pub fn counted(&self) -> &[ContactLimit] {
        &self.list[..self.count.min(MAX_ZONES)]
    }

    pub fn counted_mut(&mut self) -> &mut [ContactLimit] {
        &mut self.list[..self.count.min(MAX_ZONES)]
    }
}

impl core::fmt::Debug for Zones {
    /// The count, and the zones up to the last that is counted or not `UNUSED`.
    fn fmt(&self, f: &mut core::fmt::Formatter<'_>) -> core::fmt::Result {
        let used = self.list.iter().rposition(|z| *z != ContactLimit::UNUSED).map_or(0, |i| i + 1);
        let shown = &self.list[..used.max(self.counted().len())];
        f.debug_struct("Zones").field("count", &self.count).field("list", &shown).finish()
    }
}

/// What holds of each zone where CONTACT is armed, and the camera does not show that zone or the position has fewer than two coordinates.
#[derive(Clone, Copy, Debug, Default, PartialEq, Eq)]
pub enum AbsentCamera {
    /// The arm counts as inside the zone.
    #[default]
    Slow,
    /// There is no zone then, as in the Rust.
    NoZone,
}

/// What brake and hold of a position kind write on the axes past pos_dim, where a gripper is.
#[derive(Clone, Copy, Debug, Default, PartialEq, Eq)]
pub enum Gripper {
    /// What the position has there moved into a box of 0..0, as in the Rust.
    #[default]
    ToZero,
    /// The last command, which the caller lends.
    LastCommand,
}

/// What holds the first two coordinates: their walls, or the disc of a round table. With the walls, centre and radius are unread.
#[derive(Clone, Copy, Debug, PartialEq)]
pub struct Shape {
    pub disc: bool,
    pub center: [f64; 2],
    pub radius: f64,
}

impl Shape {
    pub const BOX: Self = Self { disc: false, center: [0.0; 2], radius: 0.0 };

    pub const fn disc(center: [f64; 2], radius: f64) -> Self {
        Self { disc: true, center, radius }
    }
}

/// Entry `bin x 12 + feature` of each table.
#[derive(Clone, Copy, PartialEq)]
pub struct Calibration {
    pub center: [f64; BINS * NFEAT],
    pub scale: [f64; BINS * NFEAT],
    pub tau: f64,
    pub mask: u32,
    pub n_terms: u8,
    pub terms: [u32; MAX_TERMS],
}

impl Calibration {
    pub const DISARMED: Self =
        Self { center: [0.0; BINS * NFEAT], scale: [1.0; BINS * NFEAT], tau: 0.0, mask: 0, n_terms: 0, terms: [0; 8] };
}

impl core::fmt::Debug for Calibration {
    /// The tables' entries that differ from a center of 0 and a scale of 1, as (entry, number).
    fn fmt(&self, f: &mut core::fmt::Formatter<'_>) -> core::fmt::Result {
        let other = |v: &[f64], usual: f64| -> Vec<(usize, f64)> {
            v.iter().copied().enumerate().filter(|(_, x)| *x != usual).collect()
        };
        f.debug_struct("Calibration")
            .field("center", &other(&self.center, 0.0))
            .field("scale", &other(&self.scale, 1.0))
            .field("tau", &self.tau)
            .field("mask", &self.mask)
            .field("n_terms", &self.n_terms)
            .field("terms", &self.terms)
            .finish()
    }
}

/// The raw configuration.
#[derive(Clone, Copy, PartialEq)]
pub struct FuseConfig {
    pub dim: usize,
    pub pos_dim: usize,
    pub kind: ActionKind,
    pub dt: f64,
    pub v_max: f64,
    pub a_max: f64,
    pub j_max: f64,
    pub reach_max: f64,
    pub margin: f64,
    pub box_lo: [f64; MAX_POS],
    pub box_hi: [f64; MAX_POS],
    pub shape: Shape,
    pub norm_center: [f64; MAX_D],
    pub norm_scale: [f64; MAX_D],
    pub zones: Zones,
    pub absent_camera: AbsentCamera,
    pub gripper: Gripper,
    pub brake: BrakeModel,
    pub clamp: ClampMode,
    pub armed: u32,
    pub aux_count: usize,
    pub calibrated: bool,
    pub cal: Calibration,
    pub horizon_ticks: u32,
}

impl FuseConfig {
    /// One axis, a box of 0..0, all other numbers 1, nothing armed: what a shown configuration is compared with.
    pub const PLAIN: Self = Self {
        dim: 1,
        pos_dim: 1,
        kind: ActionKind::EePosition,
        dt: 1.0,
        v_max: 1.0,
        a_max: 1.0,
        j_max: 1.0,
        reach_max: 1.0,
        margin: 0.0,
        box_lo: [0.0; MAX_POS],
        box_hi: [0.0; MAX_POS],
        shape: Shape::BOX,
        norm_center: [0.0; MAX_D],
        norm_scale: [1.0; MAX_D],
        zones: Zones::NONE,
        absent_camera: AbsentCamera::Slow,
        gripper: Gripper::ToZero,
        brake: BrakeModel {
            kind: BrakeKind::PdSecondOrder,
            k_p: 1.0,
            k_v: 1.0,
            dt: 1.0,
            substeps: 1,
            commit: 0,
            brake_steps: 0,
            react: 0,
        },
        clamp: ClampMode::Off,
        armed: 0,
        aux_count: 0,
        calibrated: false,
        cal: Calibration::DISARMED,
        horizon_ticks: 0,
    };

    /// Two axes in -1..1, a zone, a calibration, nothing armed: everything that can be judged is there, and accepted.
    pub const WHOLE: Self = Self {
        dim: 2,
        pos_dim: 2,
        box_lo: [-1.0; MAX_POS],
        box_hi: [1.0; MAX_POS],
        zones: Zones::of(&[ContactLimit { radius: 1.0, v_max: 1.0, a0: 0, a1: 1 }]),
        aux_count: 2,
        calibrated: true,
        cal: Calibration { mask: NAMED, n_terms: 8, terms: [NAMED; MAX_TERMS], ..Calibration::DISARMED },
        horizon_ticks: 1,
        ..Self::PLAIN
    };
}

impl core::fmt::Debug for FuseConfig {
    /// The fields that differ from `PLAIN`.
    fn fmt(&self, f: &mut core::fmt::Formatter<'_>) -> core::fmt::Result {
        let mut shown = f.debug_struct("FuseConfig");
        macro_rules! differing {
            ($($field:ident),*) => {
                $(if format!("{:?}", self.$field) != format!("{:?}", Self::PLAIN.$field) {
                    shown.field(stringify!($field), &self.$field);
                })*
            };
        }
        differing!(dim, pos_dim, kind, dt, v_max, a_max, j_max, reach_max, margin, box_lo, box_hi, shape);
        differing!(norm_center, norm_scale, zones, absent_camera, gripper, brake, clamp, armed, aux_count, calibrated);
        differing!(cal, horizon_ticks);
        shown.finish_non_exhaustive()
    }
}

/// What module 4 derives. Entries of `inv_norm_scale` past dim are unread; the walls of the first two axes of a disc are 0.0.
#[derive(Clone, Copy, Debug, PartialEq)]
pub struct Derived {
    pub inv_dt: f64,
    pub inv_dt2: f64,
    pub inv_dt3: f64,
    pub step_max: f64,
    pub box_lo: [f64; MAX_POS],
    pub box_hi: [f64; MAX_POS],
    pub inv_norm_scale: [f64; MAX_D],
    pub norm_scale_iso: f64,
}

#[derive(Clone, Copy, Debug)]
pub struct ChunkView<'a> {
    pub seq: u32,
    pub t_emit: u32,
    pub horizon: u16,
    pub dim: u16,
    pub exec_steps: u16,
    pub data: &'a [f64],
}

#[derive(Clone, Copy, PartialEq)]
pub struct ChunkBuf {
    pub data: [f64; MAX_H * MAX_D],
    pub seq: u32,
    pub t_emit: u32,
    pub horizon: u16,
    pub dim: u16,
    pub exec_steps: u16,
    pub filled: bool,
}

impl ChunkBuf {
    pub const NEW: Self =
        Self { data: [0.0; MAX_H * MAX_D], seq: 0, t_emit: 0, horizon: 0, dim: 0, exec_steps: 0, filled: false };

    /// The numbers of its rows; none where the buffer has fewer.
    pub fn rows(&self) -> &[f64] {
        self.data.get(..self.horizon as usize * self.dim as usize).unwrap_or(&[])
    }
}

impl core::fmt::Debug for ChunkBuf {
    /// The header, and the numbers up to the last that is not 0.
    fn fmt(&self, f: &mut core::fmt::Formatter<'_>) -> core::fmt::Result {
        let (seq, t_emit) = (self.seq, self.t_emit);
        let (h, d, exec) = (self.horizon, self.dim, self.exec_steps);
        write!(f, "ChunkBuf {{ seq: {seq}, t_emit: {t_emit}, horizon: {h}, dim: {d}, exec_steps: {exec}, ")?;
        write!(f, "filled: {}, data: {:?} }}", self.filled, up_to_last(&self.data))
    }
}

#[derive(Clone, Copy, PartialEq)]
pub struct Trail {
    pub buf: [f64; TRAIL_W * MAX_POS],
    pub head: u8,
    pub len: u8,
}

impl Trail {
    pub const NEW: Self = Self { buf: [0.0; TRAIL_W * MAX_POS], head: 0, len: 0 };
}

impl core::fmt::Debug for Trail {
    fn fmt(&self, f: &mut core::fmt::Formatter<'_>) -> core::fmt::Result {
        write!(f, "Trail {{ head: {}, len: {}, buf: {:?} }}", self.head, self.len, up_to_last(&self.buf))
    }
}

/// The part of `v` up to its last number that is not 0.
fn up_to_last(v: &[f64]) -> &[f64] {
    &v[..v.iter().rposition(|x| *x != 0.0).map_or(0, |i| i + 1)]
}

#[derive(Clone, Copy, Debug, PartialEq)]
pub struct Scores {
    pub f: [f64; NFEAT],
    pub z: [f64; NFEAT],
    pub s: f64,
    pub valid: u32,
    pub fired: u32,
}

impl Scores {
    pub const NEW: Self = Self { f: [0.0; NFEAT], z: [0.0; NFEAT], s: 0.0, valid: 0, fired: 0 };
}

#[derive(Clone, Copy, Debug, PartialEq)]
pub struct Tier1Rt {
    pub prev: ChunkBuf,
    pub have_prev: bool,
    pub trail: Trail,
    pub held: [f64; HELD],
    pub held_valid: u32,
}

impl Tier1Rt {
    pub const NEW: Self =
        Self { prev: ChunkBuf::NEW, have_prev: false, trail: Trail::NEW, held: [0.0; HELD], held_valid: 0 };
}

#[derive(Clone, Copy, Debug, PartialEq)]
pub struct Tier0Out {
    pub trips: u32,
    pub clamped_dims: u32,
    pub peak_speed: f64,
    pub low_dims: u32,
    pub high_dims: u32,
}

/// A bit for each axis that the box raised to its low wall, and for each that it lowered to its high one.
#[derive(Clone, Copy, Debug, Default, PartialEq, Eq)]
pub struct WallMarks {
    pub low_dims: u32,
    pub high_dims: u32,
}

#[derive(Clone, Copy, Debug, PartialEq)]
pub struct BrakeOut {
    pub count: usize,
    pub feasible: bool,
    pub margin: f64,
    pub stop_dist: f64,
}

/// What a run under one setpoint comes to: the substeps, and the least slack, which is infinite where there is none.
#[derive(Clone, Copy, Debug, PartialEq)]
pub struct Ran {
    pub count: usize,
    pub margin: f64,
}
