//! A shim: the published verdict.rs is absent. The six trip bits are the scope document's; the bit of BRAKE is made up.

pub struct TripMask;

impl TripMask {
    pub const WORKSPACE: u32 = 1;
    pub const SPEED: u32 = 2;
    pub const ACCEL: u32 = 4;
    pub const JERK: u32 = 8;
    pub const REACH: u32 = 16;
    pub const CONTACT: u32 = 32;
    pub const BRAKE: u32 = 64;
    pub const TIER0_SOFT: u32 = 63;

    const NAMES: [(&'static str, u32); 7] = [
        ("workspace", Self::WORKSPACE),
        ("speed", Self::SPEED),
        ("accel", Self::ACCEL),
        ("jerk", Self::JERK),
        ("reach", Self::REACH),
        ("contact", Self::CONTACT),
        ("brake", Self::BRAKE),
    ];

    pub fn from_name(name: &str) -> Option<u32> {
        Self::NAMES.iter().find(|(n, _)| *n == name).map(|(_, bit)| *bit)
    }

    pub fn names(mask: u32) -> impl Iterator<Item = &'static str> {
        Self::NAMES.into_iter().filter(move |(_, bit)| mask & bit != 0).map(|(n, _)| n)
    }
}
