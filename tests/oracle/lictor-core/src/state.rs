//! A shim: the published state.rs is absent. Nothing that is compared reads the mode.

#[derive(Clone, Copy, Debug, PartialEq, Eq)]
pub enum FuseMode {
    Observe,
    Enforce,
}
