//! The configuration, and what is derived from it.

use crate::{
    conformal::{self, Calibration},
    raw,
    refusal::{given, Answer},
};

/// The bits of the checks. A bit of `armed` that is none of them arms nothing, and no number refuses it.
pub mod trip {
    /// A row passes a wall, or the edge of a round table.
    pub const WORKSPACE: u32 = 1;
    /// A step is longer than `v_max` allows.
    pub const SPEED: u32 = 2;
    /// A difference of steps exceeds `a_max`.
    pub const ACCEL: u32 = 4;
    /// A difference of those exceeds `j_max`.
    pub const JERK: u32 = 8;
    /// The first row is farther than `reach_max` from the position.
    pub const REACH: u32 = 16;
    /// A step is longer than the `v_max` of a slow zone that the arm is inside allows.
    pub const CONTACT: u32 = 32;
    /// All six.
    pub const ALL: u32 = 63;
}

/// What a row of a chunk is.
#[derive(Clone, Copy, Debug, PartialEq, Eq)]
pub enum ActionKind {
    /// A position of the end effector.
    EePosition,
    /// A step of the end effector.
    EeDelta,
    /// Positions of the joints.
    JointPosition,
    /// Velocities of the joints.
    JointVelocity,
    /// Anything else; it is treated as a position.
    Other,
}

/// Whether a check's output is moved inside the limits.
#[derive(Clone, Copy, Debug, PartialEq, Eq)]
pub enum ClampMode {
    /// The rows go out as they came.
    Off,
    /// The rows are moved inside the armed limits.
    Project,
}

/// How the arm stops.
#[derive(Clone, Copy, Debug, PartialEq, Eq)]
pub enum BrakeKind {
    /// By a spring and a damper, `k_p` and `k_v`, in substeps.
    PdSecondOrder,
    /// Its velocity decays at the rate `k_v`.
    FirstOrderDecay,
    /// At `a_max`.
    BoundedAccel,
    /// At `a_max`, which it comes to at `j_max`.
    JerkLimited,
    /// By a command of no velocity, at `a_max`.
    ZeroVelocityHold,
}

/// The brake that a forecast is of.
#[derive(Clone, Copy, Debug, PartialEq)]
pub struct BrakeModel {
    /// How the arm stops.
    pub kind: BrakeKind,
    /// The spring, 0 or more.
    pub k_p: f64,
    /// The damper, above 0.
    pub k_v: f64,
    /// The length of a substep, above 0.
    pub dt: f64,
    /// Substeps in a control step, 1 to 64.
    pub substeps: u16,
    /// Rows that are committed, at most 64.
    pub commit: u16,
    /// Control steps of braking after them; (commit + `brake_steps`) x substeps is at most 4,096.
    pub brake_steps: u16,
    /// Control steps before the arm reacts; the closed kinds alone read it.
    pub react_ticks: u16,
}

/// A slow zone round the point that the camera's channels a0 and a1 give. [`AbsentCamera`] says what holds where they give none.
#[derive(Clone, Copy, Debug, PartialEq)]
pub struct Contact {
    /// How far the zone reaches, 0 or more.
    pub radius: f64,
    /// The speed inside it, above 0.
    pub v_max: f64,
    /// The channel of the point's first coordinate, below the `aux_count` of the configuration.
    pub a0: u8,
    /// The channel of its second; another than a0.
    pub a1: u8,
}

/// What is laid out where there is no zone: nothing of it is read.
const NO_CONTACT: Contact = Contact { radius: 0.0, v_max: 0.0, a0: 0, a1: 0 };

/// The slow zones of one arm, at most [`MAX`](Self::MAX). A step inside several of them is held to the least of what they allow.
///
/// More than that are counted, so that the library refuses them with [`Size`](crate::Refusal::Size) and none is dropped in silence. Two zones may
/// not name the same channels in the same order; swapped they are another pair.
///
/// ```
/// # use lictor::config::{BrakeKind, BrakeModel, Config};
/// # let brake = BrakeModel {
/// #     kind: BrakeKind::PdSecondOrder, k_p: 2.0, k_v: 1.0, dt: 0.5, substeps: 2, commit: 1, brake_steps: 1, react_ticks: 1,
/// # };
/// # let builder = Config::builder().axes(2).dt(1.0).v_max(9.0).a_max(9.0).j_max(9.0).reach_max(99.0).walls([-9.0; 8], [9.0; 8]).brake(brake);
/// use lictor::{config::{trip, Contact}, tier0, Refusal};
/// let tray = Contact { radius: 1.0, v_max: 2.0, a0: 0, a1: 1 };
/// let slower = Contact { radius: 2.0, v_max: 0.5, a0: 2, a1: 3 };
/// let config = builder.zones(&[tray, slower]).aux_count(4).build()?;
/// let mut out = [0.0; 2];
/// // a step of 1 inside both, and inside the first alone
/// let both = tier0::check_action(&config, &[0.0; 2], &[0.0; 4], &[0.0; 2], &[1.0, 0.0], &mut out)?;
/// assert_eq!((both.trips, out[0] < 0.5), (trip::CONTACT, true));
/// let one = tier0::check_action(&config, &[0.0; 2], &[0.0, 0.0, 5.0, 5.0], &[0.0; 2], &[1.0, 0.0], &mut out)?;
/// assert_eq!((one.trips, out), (0, [1.0, 0.0]));
/// // five are too many, and the same pair twice is refused
/// assert_eq!(builder.zones(&[tray; 5]).aux_count(4).build().unwrap_err(), Refusal::Size);
/// assert_eq!(builder.zones(&[tray, tray]).aux_count(4).build().unwrap_err(), Refusal::Channels);
/// # Ok::<(), lictor::Refusal>(())
/// ```
#[derive(Clone, Copy, Debug, PartialEq)]
pub struct Zones {
    list: [Contact; Self::MAX],
    count: usize,
}

impl Zones {
    /// How many one arm may have.
    pub const MAX: usize = 4;

    /// No zone: slow nowhere.
    pub const NONE: Self = Self { list: [NO_CONTACT; Self::MAX], count: 0 };

    /// All of these zones. The first four are held; more are counted, and refused.
    ///
    /// ```
    /// use lictor::config::{Contact, Zones};
    /// const TRAY: Contact = Contact { radius: 0.25, v_max: 0.5, a0: 0, a1: 1 };
    /// const TRAYS: Zones = Zones::of(&[TRAY, Contact { a0: 2, a1: 3, ..TRAY }]);
    /// assert_ne!(TRAYS, Zones::of(&[TRAY]));
    /// assert_eq!(Zones::of(&[]), Zones::NONE);
    /// ```
    #[must_use]
    pub const fn of(zones: &[Contact]) -> Self {
        let (mut list, mut i) = (Self::NONE.list, 0);
        while i < zones.len() && i < Self::MAX {
            list[i] = zones[i];
            i += 1;
        }
        Self { list, count: zones.len() }
    }
}

impl Default for Zones {
    fn default() -> Self {
        Self::NONE
    }
}

/// What holds of each slow zone where `CONTACT` is armed, and the camera's message is too short for either of that zone's channels or the
/// position has fewer than two coordinates.
///
/// No zone configured means slow nowhere, under either choice. A zone whose camera is silent means slow everywhere, unless the
/// configuration says [`NoZone`](Self::NoZone).
#[derive(Clone, Copy, Debug, Default, PartialEq, Eq)]
pub enum AbsentCamera {
    /// The arm counts as inside the zone: a step longer than the zone's `v_max` allows raises `CONTACT`, and projection shortens it.
    #[default]
    Slow,
    /// There is no such zone then. For an arm that has zones and runs without a camera on purpose.
    NoZone,
}

/// What the workspace is.
///
/// The margin moves walls and not a disc. What a shape does not have is not read: with a disc the walls of the first two axes, which are then
/// derived as 0.
///
/// ```
/// # use lictor::config::{BrakeKind, BrakeModel, Config};
/// # let brake = BrakeModel {
/// #     kind: BrakeKind::PdSecondOrder, k_p: 2.0, k_v: 1.0, dt: 0.5, substeps: 2, commit: 1, brake_steps: 1, react_ticks: 1,
/// # };
/// # let builder = Config::builder().dt(1.0).v_max(9.0).a_max(9.0).j_max(9.0).reach_max(99.0).brake(brake);
/// use lictor::{config::Shape, Refusal};
/// let table = builder.shape(Shape::Disc { center: [0.5, 0.0], radius: 1.5 });
/// // two axes have no wall at all, and a third has its own
/// assert!(table.axes(2).build().is_ok());
/// assert_eq!(table.axes(3).build().unwrap_err(), Refusal::Number);
/// let derived = table.axes(3).walls([-1.0; 8], [2.0; 8]).margin(0.25).build()?.derive()?;
/// assert_eq!((&derived.box_lo[..4], &derived.box_hi[..4]), (&[0.0, 0.0, -0.75, 0.0][..], &[0.0, 0.0, 1.75, 0.0][..]));
/// // a table has two axes, and a radius above 0
/// assert_eq!(table.axes(1).build().unwrap_err(), Refusal::Shape);
/// assert_eq!(table.axes(2).shape(Shape::Disc { center: [0.5, 0.0], radius: 0.0 }).build().unwrap_err(), Refusal::Number);
/// # Ok::<(), lictor::Refusal>(())
/// ```
#[derive(Clone, Copy, Debug, Default, PartialEq)]
pub enum Shape {
    /// Each axis of a position has its walls.
    #[default]
    Box,
    /// A round table over the first two axes; further axes have their walls. A position on its edge is inside.
    Disc {
        /// Where its middle is.
        center: [f64; 2],
        /// How far it reaches, above 0.
        radius: f64,
    },
}

impl Shape {
    /// The code that the library takes, with the centre and the radius; of a box they are not read.
    const fn laid(self) -> (u64, [f64; 2], f64) {
        match self {
            Self::Box => (0, [0.0; 2], 0.0),
            Self::Disc { center, radius } => (1, center, radius),
        }
    }
}

/// What a row of positions that brakes or holds has on the axes past `pos_dim`, where there are no walls: on a gripper, for one.
///
/// Axes within `pos_dim` are the same under both, and so are the rows of [`EeDelta`](ActionKind::EeDelta) and
/// [`JointVelocity`](ActionKind::JointVelocity).
#[derive(Clone, Copy, Debug, Default, PartialEq, Eq)]
pub enum Gripper {
    /// 0: a gripper that is open at 0 opens. The last command is neither judged nor read.
    #[default]
    ToZero,
    /// The last command, which the caller lends, bit for bit: the gripper stays as it was told. For every kind of row, a last command shorter
    /// than dim is refused with [`Short`](crate::Refusal::Short), and one that has a number that is not finite with
    /// [`NotFinite`](crate::Refusal::NotFinite).
    LastCommand,
}

/// The raw configuration. [`Config::builder`] starts from defaults; here every number is named.
#[derive(Clone, Copy, Debug, PartialEq)]
pub struct FuseConfig {
    /// What a row is.
    pub kind: ActionKind,
    /// Coordinates of a row, 1 to 8.
    pub dim: usize,
    /// Coordinates of a position, 1 to 8.
    pub pos_dim: usize,
    /// The control period, above 0.
    pub dt: f64,
    /// The greatest speed, above 0.
    pub v_max: f64,
    /// The greatest acceleration, above 0.
    pub a_max: f64,
    /// The greatest jerk, above 0.
    pub j_max: f64,
    /// How far the first row may be from the position, above 0.
    pub reach_max: f64,
    /// How far the walls are moved inward, 0 or more.
    pub margin: f64,
    /// The center of each coordinate of a row; the first dim are read, as of the scale.
    pub norm_center: [f64; 8],
    /// The scale of each coordinate of a row, above 0.
    pub norm_scale: [f64; 8],
    /// The low wall of each coordinate of a position; the first `pos_dim` are read, as of the high wall, without those of a disc.
    pub box_lo: [f64; 8],
    /// The high wall.
    pub box_hi: [f64; 8],
    /// Whether the first two coordinates of a position have their walls or a round table.
    pub shape: Shape,
    /// The slow zones.
    pub zones: Zones,
    /// What holds of a zone that the camera does not show.
    pub absent_camera: AbsentCamera,
    /// The brake.
    pub brake: BrakeModel,
    /// What a row that brakes or holds has past `pos_dim`.
    pub gripper: Gripper,
    /// Whether rows are moved inside the limits.
    pub clamp: ClampMode,
    /// The checks that are made, bits of [`trip`].
    pub armed: u32,
    /// How many channels the camera declares.
    pub aux_count: usize,
    /// The calibration of the gate, where there is one.
    pub calibration: Option<Calibration>,
    /// The ticks of an episode, 1 or more; not judged without a calibration.
    pub horizon_ticks: u32,
}

/// A configuration laid out as the library takes it, with its calibration: make it once and lend it to every call.
#[derive(Clone, Debug)]
pub struct Config {
    pub(crate) numbers: raw::Numbers,
    pub(crate) counts: raw::Counts,
    pub(crate) gate: Calibration,
}

/// What is laid out where there is no calibration: nothing of it is read.
const NO_CALIBRATION: Calibration =
    Calibration { center: [0.0; 192], scale: [0.0; 192], mask: 0, n_terms: 0, terms: [0; 8], tau: 0.0 };

impl Config {
    /// A configuration by its parts, the rest by defaults.
    ///
    /// ```
    /// use lictor::{config::Config, Refusal};
    /// // nothing of the arm has a default: dim and pos_dim are missed first
    /// assert_eq!(Config::builder().build().unwrap_err(), Refusal::Size);
    /// ```
    pub const fn builder() -> ConfigBuilder {
        ConfigBuilder(ConfigBuilder::START)
    }

    /// Lays a configuration out, and judges it.
    ///
    /// ```
    /// use lictor::{config::*, Refusal};
    /// let mut arm = FuseConfig {
    ///     kind: ActionKind::EePosition,
    ///     dim: 2,
    ///     pos_dim: 2,
    ///     dt: 0.5,
    ///     v_max: 1.0,
    ///     a_max: 4.0,
    ///     j_max: 32.0,
    ///     reach_max: 1.0,
    ///     margin: 0.0,
    ///     norm_center: [0.0; 8],
    ///     norm_scale: [1.0; 8],
    ///     box_lo: [-1.0; 8],
    ///     box_hi: [1.0; 8],
    ///     shape: Shape::Box,
    ///     zones: Zones::NONE,
    ///     absent_camera: AbsentCamera::Slow,
    ///     brake: BrakeModel {
    ///         kind: BrakeKind::BoundedAccel, k_p: 2.0, k_v: 1.0, dt: 0.5, substeps: 2, commit: 1, brake_steps: 4, react_ticks: 1,
    ///     },
    ///     gripper: Gripper::ToZero,
    ///     clamp: ClampMode::Project,
    ///     armed: trip::ALL,
    ///     aux_count: 0,
    ///     calibration: None,
    ///     horizon_ticks: 0,
    /// };
    /// assert!(Config::new(&arm).is_ok());
    /// // walls that the margin makes cross
    /// arm.margin = 2.0;
    /// assert_eq!(Config::new(&arm).unwrap_err(), Refusal::Number);
    /// ```
    ///
    /// # Errors
    ///
    /// [`Size`](crate::Refusal::Size), [`Number`](crate::Refusal::Number), [`Steps`](crate::Refusal::Steps),
    /// [`Channels`](crate::Refusal::Channels), [`Shape`](crate::Refusal::Shape), [`Withdrawn`](crate::Refusal::Withdrawn).
    pub fn new(c: &FuseConfig) -> Answer<Self> {
        let config = Self::unjudged(c);
        config.derive()?;
        Ok(config)
    }

    /// Lays a configuration out as it is. Every call judges what it is lent, so one that is not fit is refused there.
    ///
    /// ```
    /// use lictor::{brake, config::{Config, ConfigBuilder}, Refusal};
    /// let unfit = Config::unjudged(&ConfigBuilder::START);
    /// assert_eq!(brake::hold_action(&unfit, &[0.0], &[], &mut [0.0]), Err(Refusal::Size));
    /// ```
    #[must_use]
    pub fn unjudged(c: &FuseConfig) -> Self {
        let gate = c.calibration.unwrap_or(NO_CALIBRATION);
        let [zone, zone1, zone2, zone3] = &c.zones.list;
        let (shape, [disc_x, disc_y], disc_radius) = c.shape.laid();
        let b = &c.brake;
        let numbers = raw::Numbers {
            dt: c.dt,
            v_max: c.v_max,
            a_max: c.a_max,
            j_max: c.j_max,
            reach_max: c.reach_max,
            margin: c.margin,
            brake_k_p: b.k_p,
            brake_k_v: b.k_v,
            brake_dt: b.dt,
            contact_radius: zone.radius,
            contact_v_max: zone.v_max,
            norm_center: c.norm_center,
            norm_scale: c.norm_scale,
            box_lo: c.box_lo,
            box_hi: c.box_hi,
            tau: gate.tau,
            contact1_radius: zone1.radius,
            contact1_v_max: zone1.v_max,
            contact2_radius: zone2.radius,
            contact2_v_max: zone2.v_max,
            contact3_radius: zone3.radius,
            contact3_v_max: zone3.v_max,
            disc_x,
            disc_y,
            disc_radius,
        };
        let counts = raw::Counts {
            dim: c.dim as u64,
            pos_dim: c.pos_dim as u64,
            kind: c.kind as u64,
            clamp: c.clamp as u64,
            brake: b.kind as u64,
            contact: c.zones.count as u64,
            contact_a0: zone.a0.into(),
            contact_a1: zone.a1.into(),
            substeps: b.substeps.into(),
            commit: b.commit.into(),
            brake_steps: b.brake_steps.into(),
            react_ticks: b.react_ticks.into(),
            terms: gate.terms.map(u64::from),
            armed: c.armed.into(),
            aux_count: c.aux_count as u64,
            calibrated: c.calibration.is_some().into(),
            mask: gate.mask.into(),
            n_terms: gate.n_terms.into(),
            horizon_ticks: c.horizon_ticks.into(),
            absent_camera: c.absent_camera as u64,
            contact1_a0: zone1.a0.into(),
            contact1_a1: zone1.a1.into(),
            contact2_a0: zone2.a0.into(),
            contact2_a1: zone2.a1.into(),
            contact3_a0: zone3.a0.into(),
            contact3_a1: zone3.a1.into(),
            shape,
            gripper: c.gripper as u64,
        };
        Self { numbers, counts, gate }
    }

    /// Judges the configuration, and gives what is derived from it.
    ///
    /// ```
    /// # use lictor::config::{BrakeKind, BrakeModel, Config};
    /// # let brake = BrakeModel {
    /// #     kind: BrakeKind::PdSecondOrder, k_p: 2.0, k_v: 1.0, dt: 0.5, substeps: 2, commit: 1, brake_steps: 1, react_ticks: 1,
    /// # };
    /// # let builder = Config::builder().axes(1).dt(0.5).v_max(1.0).a_max(1.0).j_max(1.0).reach_max(1.0).brake(brake);
    /// let config = builder.walls([-1.0; 8], [2.0; 8]).margin(0.25).build()?;
    /// let derived = config.derive()?;
    /// assert_eq!((derived.box_lo[0], derived.box_hi[0]), (-0.75, 1.75));
    /// # Ok::<(), lictor::Refusal>(())
    /// ```
    ///
    /// # Errors
    ///
    /// As [`new`](Self::new).
    pub fn derive(&self) -> Answer<Derived> {
        let mut d = Derived::default();
        // SAFETY: the structs are live and laid out as C's, and the place is ours alone.
        let number =
            unsafe { raw::lictor_derive(&self.numbers, &self.counts, &self.gate.center, &self.gate.scale, &mut d) };
        given(number, d)
    }

    /// The calibration that the gate takes, where there is one, so that it is handed over once.
    ///
    /// ```
    /// # use lictor::config::{Config, ConfigBuilder};
    /// assert!(Config::unjudged(&ConfigBuilder::START).calibration().is_none());
    /// ```
    #[must_use]
    pub const fn calibration(&self) -> Option<&Calibration> {
        match self.counts.calibrated {
            1 => Some(&self.gate),
            _ => None,
        }
    }

    /// The time bin of tick `t`, numbered from 1, in an episode of the configuration's `horizon_ticks`.
    ///
    /// ```
    /// # use lictor::{config::{Config, ConfigBuilder, FuseConfig}, Refusal};
    /// let of = |horizon_ticks| Config::unjudged(&FuseConfig { horizon_ticks, ..ConfigBuilder::START });
    /// assert_eq!(of(200).time_bin(14), Ok(1));
    /// assert_eq!(of(0).time_bin(14), Err(Refusal::Steps));
    /// ```
    ///
    /// # Errors
    ///
    /// As [`conformal::time_bin`].
    pub fn time_bin(&self, t: u32) -> Answer<usize> {
        conformal::time_bin(t, self.counts.horizon_ticks as u32)
    }
}

/// A configuration on its way. What belongs to the arm has no default: it starts as what [`build`](Self::build) refuses, so that
/// nothing is forgotten.
///
/// | Part | Starts as |
/// | --- | --- |
/// | `axes` (`dim`, `pos_dim`) | 0, refused with [`Size`](crate::Refusal::Size) |
/// | `dt`, `v_max`, `a_max`, `j_max`, `reach_max`, `walls` | NaN, refused with [`Number`](crate::Refusal::Number) where they are read |
/// | `brake` | gains that are NaN, refused with [`Number`](crate::Refusal::Number) |
/// | `kind` | [`ActionKind::EePosition`] |
/// | `clamp` | [`ClampMode::Project`]: rows are moved inside the limits |
/// | `armed` | [`trip::ALL`]: every check is made |
/// | `margin` | 0: the walls as they are |
/// | `shape` | [`Shape::Box`]: each axis has its walls |
/// | `norm` | centers 0 and scales 1: coordinates as they are |
/// | `zones`, `aux_count` | no slow zone, and no camera |
/// | `absent_camera` | [`AbsentCamera::Slow`]: a zone that the camera does not show is slow everywhere |
/// | `gripper` | [`Gripper::ToZero`]: a row that brakes or holds has 0 past `pos_dim` |
/// | `calibration` | none: nothing of it is judged |
///
/// ```
/// use lictor::{config::{BrakeKind, BrakeModel, Config}, Refusal};
/// let plane = Config::builder()
///     .axes(2)
///     .dt(0.5)
///     .v_max(1.0)
///     .a_max(4.0)
///     .j_max(32.0)
///     .reach_max(1.0)
///     .walls([-1.0; 8], [1.0; 8])
///     .brake(BrakeModel {
///         kind: BrakeKind::PdSecondOrder, k_p: 2.0, k_v: 1.0, dt: 0.5, substeps: 2, commit: 1, brake_steps: 4, react_ticks: 1,
///     });
/// assert!(plane.build().is_ok());
/// assert_eq!(plane.v_max(f64::INFINITY).build().unwrap_err(), Refusal::Number);
/// ```
#[derive(Clone, Copy, Debug)]
#[must_use = "a builder does nothing until `build`"]
pub struct ConfigBuilder(FuseConfig);

impl ConfigBuilder {
    /// What a builder starts from.
    pub const START: FuseConfig = FuseConfig {
        kind: ActionKind::EePosition,
        dim: 0,
        pos_dim: 0,
        dt: f64::NAN,
        v_max: f64::NAN,
        a_max: f64::NAN,
        j_max: f64::NAN,
        reach_max: f64::NAN,
        margin: 0.0,
        norm_center: [0.0; 8],
        norm_scale: [1.0; 8],
        box_lo: [f64::NAN; 8],
        box_hi: [f64::NAN; 8],
        shape: Shape::Box,
        zones: Zones::NONE,
        absent_camera: AbsentCamera::Slow,
        brake: BrakeModel {
            kind: BrakeKind::PdSecondOrder,
            k_p: f64::NAN,
            k_v: f64::NAN,
            dt: f64::NAN,
            substeps: 0,
            commit: 0,
            brake_steps: 0,
            react_ticks: 0,
        },
        gripper: Gripper::ToZero,
        clamp: ClampMode::Project,
        armed: trip::ALL,
        aux_count: 0,
        calibration: None,
        horizon_ticks: 0,
    };

    /// What a row is.
    pub const fn kind(mut self, kind: ActionKind) -> Self {
        self.0.kind = kind;
        self
    }

    /// Coordinates of a row and of a position alike, 1 to 8.
    pub const fn axes(self, n: usize) -> Self {
        self.dim(n).pos_dim(n)
    }

    /// Coordinates of a row, where they are others than a position's.
    pub const fn dim(mut self, n: usize) -> Self {
        self.0.dim = n;
        self
    }

    /// Coordinates of a position, where they are others than a row's.
    pub const fn pos_dim(mut self, n: usize) -> Self {
        self.0.pos_dim = n;
        self
    }

    /// The control period.
    pub const fn dt(mut self, dt: f64) -> Self {
        self.0.dt = dt;
        self
    }

    /// The greatest speed.
    pub const fn v_max(mut self, v_max: f64) -> Self {
        self.0.v_max = v_max;
        self
    }

    /// The greatest acceleration.
    pub const fn a_max(mut self, a_max: f64) -> Self {
        self.0.a_max = a_max;
        self
    }

    /// The greatest jerk.
    pub const fn j_max(mut self, j_max: f64) -> Self {
        self.0.j_max = j_max;
        self
    }

    /// How far the first row may be from the position.
    pub const fn reach_max(mut self, reach_max: f64) -> Self {
        self.0.reach_max = reach_max;
        self
    }

    /// The low and the high wall of each coordinate of a position; past `pos_dim` they are not read, and the first two not with a disc.
    pub const fn walls(mut self, lo: [f64; 8], hi: [f64; 8]) -> Self {
        (self.0.box_lo, self.0.box_hi) = (lo, hi);
        self
    }

    /// How far the walls are moved inward; a disc stays as it is.
    pub const fn margin(mut self, margin: f64) -> Self {
        self.0.margin = margin;
        self
    }

    /// What the workspace is: the walls of each axis, or a round table for the first two.
    ///
    /// ```
    /// # use lictor::config::{BrakeKind, BrakeModel, Config};
    /// # let brake = BrakeModel {
    /// #     kind: BrakeKind::PdSecondOrder, k_p: 2.0, k_v: 1.0, dt: 0.5, substeps: 2, commit: 1, brake_steps: 1, react_ticks: 1,
    /// # };
    /// # let builder = Config::builder().axes(2).dt(1.0).v_max(9.0).a_max(9.0).j_max(9.0).reach_max(99.0).brake(brake);
    /// use lictor::{config::{trip, Shape}, tier0};
    /// let table = builder.shape(Shape::Disc { center: [1.0, 0.0], radius: 5.0 }).build()?;
    /// let mut out = [0.0; 2];
    /// // (4, 4) is 5 away from the centre, and stays; (4, 5) is farther, and is moved towards it
    /// let on_the_edge = tier0::check_action(&table, &[4.0; 2], &[], &[4.0; 2], &[4.0, 4.0], &mut out)?;
    /// assert_eq!((on_the_edge.trips, out), (0, [4.0, 4.0]));
    /// let beyond = tier0::check_action(&table, &[4.0; 2], &[], &[4.0; 2], &[4.0, 5.0], &mut out)?;
    /// assert_eq!((beyond.trips, out[1] < 5.0), (trip::WORKSPACE, true));
    /// # Ok::<(), lictor::Refusal>(())
    /// ```
    pub const fn shape(mut self, shape: Shape) -> Self {
        self.0.shape = shape;
        self
    }

    /// The center and the scale of each coordinate of a row; past dim they are not read.
    pub const fn norm(mut self, center: [f64; 8], scale: [f64; 8]) -> Self {
        (self.0.norm_center, self.0.norm_scale) = (center, scale);
        self
    }

    /// All slow zones, in place of those that were set. Their channels have to be below the [`aux_count`](Self::aux_count).
    ///
    /// ```
    /// # use lictor::config::{BrakeKind, BrakeModel, Config};
    /// # let brake = BrakeModel {
    /// #     kind: BrakeKind::PdSecondOrder, k_p: 2.0, k_v: 1.0, dt: 0.5, substeps: 2, commit: 1, brake_steps: 1, react_ticks: 1,
    /// # };
    /// # let builder = Config::builder().axes(2).dt(1.0).v_max(9.0).a_max(9.0).j_max(9.0).reach_max(99.0).walls([-9.0; 8], [9.0; 8]).brake(brake);
    /// use lictor::{config::Contact, Refusal};
    /// let tray = Contact { radius: 0.25, v_max: 0.5, a0: 0, a1: 1 };
    /// let trays = [tray, Contact { a0: 2, a1: 3, ..tray }, Contact { a0: 4, a1: 5, ..tray }];
    /// assert!(builder.zones(&trays).aux_count(6).build().is_ok());
    /// assert_eq!(builder.zones(&trays).aux_count(5).build().unwrap_err(), Refusal::Channels);
    /// ```
    pub const fn zones(mut self, zones: &[Contact]) -> Self {
        self.0.zones = Zones::of(zones);
        self
    }

    /// This slow zone alone, in place of those that were set; several are set by [`zones`](Self::zones). Its channels have to be below the
    /// [`aux_count`](Self::aux_count).
    ///
    /// ```
    /// # use lictor::config::{BrakeKind, BrakeModel, Config};
    /// # let brake = BrakeModel {
    /// #     kind: BrakeKind::PdSecondOrder, k_p: 2.0, k_v: 1.0, dt: 0.5, substeps: 2, commit: 1, brake_steps: 1, react_ticks: 1,
    /// # };
    /// # let builder = Config::builder().axes(2).dt(1.0).v_max(9.0).a_max(9.0).j_max(9.0).reach_max(99.0).walls([-9.0; 8], [9.0; 8]).brake(brake);
    /// use lictor::{config::Contact, Refusal};
    /// let tray = Contact { radius: 0.25, v_max: 0.5, a0: 0, a1: 1 };
    /// assert!(builder.contact(tray).aux_count(2).build().is_ok());
    /// assert!(builder.zones(&[tray; 5]).contact(tray).aux_count(2).build().is_ok());
    /// assert_eq!(builder.contact(tray).aux_count(1).build().unwrap_err(), Refusal::Channels);
    /// ```
    pub const fn contact(mut self, zone: Contact) -> Self {
        self.0.zones = Zones::of(&[zone]);
        self
    }

    /// What holds of a zone that is not seen: an arm that has zones and no camera on purpose says [`AbsentCamera::NoZone`].
    ///
    /// ```
    /// # use lictor::config::{BrakeKind, BrakeModel, Config};
    /// # let brake = BrakeModel {
    /// #     kind: BrakeKind::PdSecondOrder, k_p: 2.0, k_v: 1.0, dt: 0.5, substeps: 2, commit: 1, brake_steps: 1, react_ticks: 1,
    /// # };
    /// # let builder = Config::builder().axes(2).dt(1.0).v_max(9.0).a_max(9.0).j_max(9.0).reach_max(99.0).walls([-9.0; 8], [9.0; 8]).brake(brake);
    /// use lictor::{config::{trip, AbsentCamera, Contact}, tier0};
    /// let zoned = builder.contact(Contact { radius: 1.0, v_max: 0.5, a0: 0, a1: 1 }).aux_count(2);
    /// let mut out = [0.0; 2];
    /// // a step of 1, and not a word from the camera
    /// let silent = tier0::check_action(&zoned.build()?, &[0.0; 2], &[], &[0.0; 2], &[1.0, 0.0], &mut out)?;
    /// assert_eq!(silent.trips, trip::CONTACT);
    /// let without = zoned.absent_camera(AbsentCamera::NoZone).build()?;
    /// let found = tier0::check_action(&without, &[0.0; 2], &[], &[0.0; 2], &[1.0, 0.0], &mut out)?;
    /// assert_eq!((found.trips, out), (0, [1.0, 0.0]));
    /// # Ok::<(), lictor::Refusal>(())
    /// ```
    pub const fn absent_camera(mut self, choice: AbsentCamera) -> Self {
        self.0.absent_camera = choice;
        self
    }

    /// How many channels the camera declares.
    pub const fn aux_count(mut self, n: usize) -> Self {
        self.0.aux_count = n;
        self
    }

    /// The brake.
    pub const fn brake(mut self, brake: BrakeModel) -> Self {
        self.0.brake = brake;
        self
    }

    /// What a row that brakes or holds has past `pos_dim`: an arm whose gripper stands there, and keeps what it grips, says
    /// [`Gripper::LastCommand`].
    ///
    /// ```
    /// # use lictor::config::{BrakeKind, BrakeModel, Config};
    /// # let brake = BrakeModel {
    /// #     kind: BrakeKind::PdSecondOrder, k_p: 2.0, k_v: 1.0, dt: 0.5, substeps: 2, commit: 1, brake_steps: 1, react_ticks: 1,
    /// # };
    /// # let builder = Config::builder().dt(1.0).v_max(9.0).a_max(9.0).j_max(9.0).reach_max(99.0).walls([-1.0; 8], [1.0; 8]).brake(brake);
    /// use lictor::{brake, config::Gripper};
    /// // one axis, and a gripper that is closed at 0.75
    /// let arm = builder.pos_dim(1).dim(2);
    /// let (mut row, sent) = ([0.0; 2], [0.25, 0.75]);
    /// brake::hold_action(&arm.build()?, &[0.5, 0.75], &[], &mut row)?;
    /// assert_eq!(row, [0.5, 0.0]); // it opens
    /// brake::hold_action(&arm.gripper(Gripper::LastCommand).build()?, &[0.5, 0.75], &sent, &mut row)?;
    /// assert_eq!(row, [0.5, 0.75]); // it stays closed
    /// # Ok::<(), lictor::Refusal>(())
    /// ```
    pub const fn gripper(mut self, choice: Gripper) -> Self {
        self.0.gripper = choice;
        self
    }

    /// Whether rows are moved inside the limits.
    pub const fn clamp(mut self, clamp: ClampMode) -> Self {
        self.0.clamp = clamp;
        self
    }

    /// The checks that are made, bits of [`trip`].
    pub const fn armed(mut self, bits: u32) -> Self {
        self.0.armed = bits;
        self
    }

    /// The gate's calibration, and the ticks of an episode.
    pub const fn calibration(mut self, calibration: Calibration, horizon_ticks: u32) -> Self {
        self.0.calibration = Some(calibration);
        self.0.horizon_ticks = horizon_ticks;
        self
    }

    /// Judges the configuration and lays it out.
    ///
    /// # Errors
    ///
    /// As [`Config::new`].
    pub fn build(&self) -> Answer<Config> {
        Config::new(&self.0)
    }
}

/// What is derived: the box moved inward, inverse scales and inverse powers of dt, 0 past the counted entries and for the walls of a disc's axes.
#[repr(C)]
#[derive(Clone, Copy, Debug, Default, PartialEq)]
pub struct Derived {
    /// 1 / dt.
    pub inv_dt: f64,
    /// Its square.
    pub inv_dt2: f64,
    /// Its cube.
    pub inv_dt3: f64,
    /// `v_max` x dt.
    pub step_max: f64,
    /// The least norm scale.
    pub norm_scale_iso: f64,
    /// The low walls moved inward by the margin.
    pub box_lo: [f64; 8],
    /// The high walls moved inward by the margin.
    pub box_hi: [f64; 8],
    /// 1 / scale.
    pub inv_norm_scale: [f64; 8],
}

#[cfg(test)]
mod tests {
    use super::*;

    #[test]
    fn the_choice_is_a_code() {
        let laid = |choice| Config::unjudged(&FuseConfig { absent_camera: choice, ..ConfigBuilder::START }).counts;
        assert_eq!(laid(AbsentCamera::Slow).absent_camera, 0);
        assert_eq!(laid(AbsentCamera::NoZone).absent_camera, 1);
        assert_eq!(core::mem::offset_of!(raw::Counts, absent_camera), 26 * 8);
    }

    /// The first zone among the other numbers and counts, and the others at their ends, each by itself; the count whole, and zeros past it.
    #[test]
    fn each_zone_has_its_place() {
        let zone = |k: u8| Contact { radius: f64::from(k), v_max: f64::from(10 * k), a0: 2 * k, a1: 2 * k + 1 };
        let all = [1, 2, 3, 4, 5, 6].map(zone);
        for n in 0..=all.len() {
            let laid = Config::unjudged(&FuseConfig { zones: Zones::of(&all[..n]), ..ConfigBuilder::START });
            let (m, c) = (&laid.numbers, &laid.counts);
            let places = [
                (m.contact_radius, m.contact_v_max, c.contact_a0, c.contact_a1),
                (m.contact1_radius, m.contact1_v_max, c.contact1_a0, c.contact1_a1),
                (m.contact2_radius, m.contact2_v_max, c.contact2_a0, c.contact2_a1),
                (m.contact3_radius, m.contact3_v_max, c.contact3_a0, c.contact3_a1),
            ];
            assert_eq!(c.contact, n as u64);
            for (k, place) in places.into_iter().enumerate() {
                let z = if k < n { all[k] } else { NO_CONTACT };
                assert_eq!(place, (z.radius, z.v_max, z.a0.into(), z.a1.into()), "zone {k} of {n}");
            }
        }
        assert_eq!(core::mem::offset_of!(raw::Numbers, contact1_radius), 44 * 8);
        assert_eq!(core::mem::offset_of!(raw::Counts, contact1_a0), 27 * 8);
    }

    /// The code, the centre and the radius at the ends, and zeros for a box.
    #[test]
    fn the_shape_has_its_place() {
        let laid = |shape| Config::unjudged(&FuseConfig { shape, ..ConfigBuilder::START });
        for (shape, due) in
            [(Shape::Box, (0, [0.0; 3])), (Shape::Disc { center: [1.0, 2.0], radius: 3.0 }, (1, [1.0, 2.0, 3.0]))]
        {
            let Config { numbers: m, counts: c, .. } = laid(shape);
            assert_eq!((c.shape, [m.disc_x, m.disc_y, m.disc_radius]), due);
        }
        assert_eq!((Shape::default(), ConfigBuilder::START.shape), (Shape::Box, Shape::Box));
        assert_eq!(core::mem::offset_of!(raw::Numbers, disc_x), 50 * 8);
        assert_eq!(core::mem::offset_of!(raw::Counts, shape), 33 * 8);
        assert_eq!(core::mem::size_of::<raw::Numbers>(), 53 * 8);
    }

    /// The code after the shape's, and nothing after it.
    #[test]
    fn the_gripper_has_its_place() {
        let laid = |gripper| Config::unjudged(&FuseConfig { gripper, ..ConfigBuilder::START }).counts;
        assert_eq!((laid(Gripper::ToZero).gripper, laid(Gripper::LastCommand).gripper), (0, 1));
        assert_eq!((Gripper::default(), ConfigBuilder::START.gripper), (Gripper::ToZero, Gripper::ToZero));
        assert_eq!(core::mem::offset_of!(raw::Counts, gripper), 34 * 8);
        assert_eq!(core::mem::size_of::<raw::Counts>(), 35 * 8);
    }
}
