//! The port's side: each entry of `bindings/rust` in the shape of the model's, or `None` while it is not there.

use model::{
    BrakeOut, Calibration, ChunkBuf, ChunkView, Derived, FuseConfig, Ran, Refusal, Scores, Tier0Out, Tier1Rt, Trail,
    WallMarks,
};

pub type Answer<T> = Result<T, Refusal>;

pub type Sqrt = fn(f64) -> Answer<f64>;
pub type Norm = fn(&[f64], usize) -> Answer<f64>;
pub type Dist = fn(&[f64], &[f64], usize) -> Answer<f64>;
pub type Two = fn(f64, f64) -> f64;
pub type Clamp = fn(f64, f64, f64) -> f64;
/// The value and the side.
pub type ClampSide = fn(f64, f64, f64) -> (f64, i64);
pub type Fill = fn(&mut ChunkBuf, u32, u32, u16, u16, u16, &[f64]) -> Answer<()>;
pub type CopyFrom = fn(&mut ChunkBuf, ChunkView<'_>) -> Answer<()>;
/// The row's numbers.
pub type Action = fn(&ChunkView<'_>, usize) -> Vec<f64>;
/// A number written all over the row; the row's length.
pub type FillRow = fn(&mut ChunkBuf, usize, f64) -> usize;
pub type View = for<'a> fn(&'a ChunkBuf) -> ChunkView<'a>;
pub type Mask = fn(u8) -> Answer<u64>;
pub type Push = fn(u64, bool, u64) -> u64;
pub type Hits = fn(u64) -> u8;
pub type TrailPush = fn(&mut Trail, &[f64], usize) -> Answer<()>;
pub type TrailNumber = fn(&Trail, usize, usize) -> Answer<f64>;
/// How many samples are held, and whether none is.
pub type TrailLen = fn(&Trail) -> Result<(usize, bool), Refusal>;
pub type TrailClear = fn(&mut Trail) -> Answer<()>;
pub type Derive = fn(&FuseConfig) -> Answer<Derived>;
pub type CheckChunk = fn(&FuseConfig, &[f64], &[f64], ChunkView<'_>, &mut [f64]) -> Answer<Tier0Out>;
pub type CheckAction = fn(&FuseConfig, &[f64], &[f64], &[f64], &[f64], &mut [f64]) -> Answer<Tier0Out>;
pub type Features = fn(&FuseConfig, &mut Tier1Rt, &[f64], &[f64], Option<ChunkView<'_>>, &mut Scores) -> Answer<()>;
pub type Reset = fn(&mut Tier1Rt) -> Answer<()>;
pub type BrakeFeasible = fn(&FuseConfig, &[f64], &[f64], ChunkView<'_>, usize, &mut [f64]) -> Answer<BrakeOut>;
/// The setpoint, the position and the velocity, the substeps, the entries.
pub type RunTowards = fn(&FuseConfig, &[f64], &mut [f64], &mut [f64], usize, &mut [f64]) -> Answer<Ran>;
pub type BrakeAction = fn(&FuseConfig, &[f64], &[f64], &[f64], &mut [f64]) -> Answer<WallMarks>;
pub type HoldAction = fn(&FuseConfig, &[f64], &[f64], &mut [f64]) -> Answer<WallMarks>;
pub type Standardise = fn(&Calibration, usize, &mut Scores) -> Answer<()>;
pub type Aggregate = fn(&Calibration, &mut Scores) -> Answer<f64>;
pub type Trip = fn(&Calibration, &Scores) -> Answer<bool>;
pub type TimeBin = fn(u32, u32) -> Answer<usize>;

#[derive(Clone, Copy, Default)]
pub struct Port {
    pub sqrt: Option<Sqrt>,
    pub norm: Option<Norm>,
    pub dist: Option<Dist>,
    pub min: Option<Two>,
    pub max: Option<Two>,
    pub clamp: Option<Clamp>,
    pub clamp_side: Option<ClampSide>,
    pub fill: Option<Fill>,
    pub copy_from: Option<CopyFrom>,
    pub action: Option<Action>,
    pub row_mut: Option<FillRow>,
    pub view: Option<View>,
    pub mask: Option<Mask>,
    pub push: Option<Push>,
    pub hits: Option<Hits>,
    pub trail_push: Option<TrailPush>,
    pub net: Option<TrailNumber>,
    pub path: Option<TrailNumber>,
    pub trail_len: Option<TrailLen>,
    pub trail_clear: Option<TrailClear>,
    pub derive: Option<Derive>,
    pub check_chunk: Option<CheckChunk>,
    pub check_action: Option<CheckAction>,
    pub features: Option<Features>,
    pub reset: Option<Reset>,
    pub brake_feasible: Option<BrakeFeasible>,
    pub run_towards: Option<RunTowards>,
    pub brake_action: Option<BrakeAction>,
    pub hold_action: Option<HoldAction>,
    pub standardise: Option<Standardise>,
    pub aggregate: Option<Aggregate>,
    pub trip: Option<Trip>,
    pub time_bin: Option<TimeBin>,
}
