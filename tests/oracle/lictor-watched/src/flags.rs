//! The processor's floating-point flags: whether some operation since they were cleared has overflowed, divided by
//! zero or been invalid. From finite arguments that is whether a number that is not finite was computed, also one
//! that later drops out of the answer. Comparisons and copies of infinities raise nothing.

#[cfg(target_arch = "x86_64")]
mod x86 {
    use std::arch::asm;

    /// Invalid, divide by zero and overflow.
    const NOT_FINITE: u32 = 1 | 4 | 8;
    /// All six flags.
    const ALL: u32 = 63;

    fn read() -> u32 {
        let mut word = 0u32;
        // SAFETY: stores the control word to a live local.
        unsafe { asm!("stmxcsr [{}]", in(reg) &mut word, options(nostack)) };
        word
    }

    pub fn clear() {
        let word = read() & !ALL;
        // SAFETY: loads the control word as it was, without its flags: rounding and masks stay.
        unsafe { asm!("ldmxcsr [{}]", in(reg) &word, options(nostack)) };
    }

    pub fn raised() -> bool {
        read() & NOT_FINITE != 0
    }
}

#[cfg(target_arch = "aarch64")]
mod arm {
    use std::arch::asm;

    /// Invalid, divide by zero and overflow.
    const NOT_FINITE: u64 = 1 | 2 | 4;
    /// All six flags.
    const ALL: u64 = 31 | 128;

    fn read() -> u64 {
        let word: u64;
        // SAFETY: reads the status register alone.
        unsafe { asm!("mrs {}, fpsr", out(reg) word, options(nostack)) };
        word
    }

    pub fn clear() {
        let word = read() & !ALL;
        // SAFETY: writes the status register as it was, without its flags; rounding stands in another.
        unsafe { asm!("msr fpsr, {}", in(reg) word, options(nostack)) };
    }

    pub fn raised() -> bool {
        read() & NOT_FINITE != 0
    }
}

#[cfg(target_arch = "aarch64")]
pub use arm::{clear, raised};
#[cfg(target_arch = "x86_64")]
pub use x86::{clear, raised};

/// Whether this processor's flags are read here; where not, nothing is ever raised.
pub const READ: bool = cfg!(any(target_arch = "x86_64", target_arch = "aarch64"));

/// Whether a flag that optimised code has raised shows a number that its source evaluates. On Arm the compiler has both
/// sides of some choices computed, and one of them dropped.
pub const EXACT: bool = cfg!(target_arch = "x86_64");

#[cfg(not(any(target_arch = "x86_64", target_arch = "aarch64")))]
pub fn clear() {}

#[cfg(not(any(target_arch = "x86_64", target_arch = "aarch64")))]
pub fn raised() -> bool {
    false
}
