//! The number for counts as C passes them, in words of 64 bits: the table's, on the counts themselves, or 255 where a code
//! or a flag is none of its kind or where the table accepts a count that its field cannot hold; a zone's two channels are judged by
//! themselves in this, so that a pair that its fields cannot hold, with nothing against it alone, is 255 also where another zone has the
//! same pair. 255 comes first.

use crate::{
    refusal::{first, when, CHANNELS, EMPTY, EXEC_EXCEEDS_HORIZON, SHAPE, SIZE, STEPS, TOO_LONG, TOO_WIDE, WITHDRAWN},
    STALL,
};

pub const MISFIT: u8 = 255;

const WORD: u64 = u32::MAX as u64;
const SHORT: u64 = u16::MAX as u64;
const BYTE: u64 = u8::MAX as u64;

/// A bit above 11.
fn over(bits: u64) -> bool {
    bits >> 12 != 0
}

/// Stall's bit.
fn withdrawn(bits: u64) -> bool {
    bits >> STALL & 1 == 1
}

/// The configuration's 35 counts, by their names in include/lictor.h, all of its numbers being accepted.
pub fn counts(c: &[u64; 35]) -> u8 {
    let &[dim, pos_dim, kind, clamp, brake, contact, contact_a0, contact_a1, ref rest @ ..] = c;
    let &[substeps, commit, brake_steps, react_ticks, ref rest @ ..] = rest;
    let (rest, last) = (rest.first_chunk::<15>().expect("15 counts"), rest.last_chunk::<8>().expect("8 counts"));
    let &[ref terms @ .., armed, aux_count, calibrated, mask, n_terms, horizon_ticks, absent_camera] = rest;
    let &[contact1_a0, contact1_a1, contact2_a0, contact2_a1, contact3_a0, contact3_a1, shape, gripper] = last;
    let gate = calibrated == 1;
    let four =
        [(contact_a0, contact_a1), (contact1_a0, contact1_a1), (contact2_a0, contact2_a1), (contact3_a0, contact3_a1)];
    let zones = &four[..contact.min(4) as usize];
    let bad = |&(a0, a1): &(u64, u64)| a0 == a1 || a0 >= aux_count || a1 >= aux_count;
    let repeated = (1..zones.len()).any(|i| zones[..i].contains(&zones[i]));
    let code = kind > 4 || clamp > 1 || brake > 4 || calibrated > 1 || absent_camera > 1 || shape > 1 || gripper > 1;
    let field = react_ticks > SHORT
        || armed > WORD
        || gate && horizon_ticks > WORD
        || zones.iter().any(|z| !bad(z) && (z.0 > BYTE || z.1 > BYTE));
    if code || field {
        return MISFIT;
    }
    let size = |d: u64| !(1..=8).contains(&d);
    let counted = || (0..).zip(terms).filter(|(i, _)| *i < n_terms).map(|(_, term)| *term);
    let names = |such: fn(u64) -> bool| gate && (such(mask) || counted().any(such));
    let in_all = (commit as u128 + brake_steps as u128).saturating_mul(substeps as u128);
    let steps = !(1..=64).contains(&substeps) || commit > 64 || in_all > 4096 || gate && horizon_ticks == 0;
    let judged = [
        when(size(dim) || size(pos_dim) || contact > 4 || gate && n_terms > 8 || names(over), SIZE),
        when(steps, STEPS),
        when(repeated || zones.iter().any(bad), CHANNELS),
        when(shape == 1 && (dim < 2 || pos_dim < 2), SHAPE),
        when(names(withdrawn), WITHDRAWN),
    ];
    first(&judged).unwrap_or(0)
}

/// Tier 1's counts, all of its numbers being accepted: the chunk's header, the trail's, have_prev and held_valid.
pub fn state(h: &[u64; 6], t: &[u64; 2], kept: &[u64; 2]) -> u8 {
    let &[seq, t_emit, horizon, dim, exec_steps, filled] = h;
    let (&[head, len], &[have_prev, held_valid]) = (t, kept);
    let held = filled == 1;
    if filled > 1 || held && (seq > WORD || t_emit > WORD) || have_prev > 1 || held_valid > WORD {
        return MISFIT;
    }
    let judged = [
        when(head > 31 || len > 32, SIZE),
        when(held && (horizon == 0 || dim == 0), EMPTY),
        when(held && horizon > 64, TOO_LONG),
        when(held && dim > 8, TOO_WIDE),
        when(held && exec_steps > horizon, EXEC_EXCEEDS_HORIZON),
    ];
    first(&judged).unwrap_or(0)
}
