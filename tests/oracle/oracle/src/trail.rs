//! A trail of the Rust with a given ring, head and count. Its fields are private and some pairs of head and count
//! cannot be pushed, so they are written in place; where they stand is found out from what the Rust answers.

use std::{mem::size_of, sync::OnceLock};

use lictor_core::MAX_POS;
use lictor_detect::window::{self, TRAIL_W};
use model::Trail;

type Slots = [[f64; MAX_POS]; TRAIL_W];

/// Byte offsets of the fields.
struct Layout {
    head: usize,
    len: usize,
}

/// The ring first, then two bytes in one order or the other.
fn layout() -> &'static Layout {
    static FOUND: OnceLock<Layout> = OnceLock::new();
    FOUND.get_or_init(|| {
        let ring = size_of::<Slots>();
        assert_eq!(size_of::<window::Trail>(), ring + 8, "the trail has another layout");
        let mut t = window::Trail::new();
        t.push(&[1.0], 1);
        // SAFETY: both offsets are inside the struct, and a ring of floats followed by two bytes has no padding before them.
        let (first, a, b) = unsafe {
            let p = &t as *const window::Trail as *const u8;
            (p.cast::<f64>().read(), *p.add(ring), *p.add(ring + 1))
        };
        assert_eq!((first, a, b), (1.0, 1, 1), "the trail has another layout");
        // SAFETY: as above; the byte is the head's or the count's and both take any value.
        unsafe { (&mut t as *mut window::Trail as *mut u8).add(ring).write(20) };
        if t.len() == 20 {
            Layout { head: ring + 1, len: ring }
        } else {
            Layout { head: ring, len: ring + 1 }
        }
    })
}

pub fn to_rust(t: &Trail) -> window::Trail {
    let at = layout();
    let mut r = window::Trail::new();
    let p = &mut r as *mut window::Trail as *mut u8;
    // SAFETY: `layout` has checked where the three fields stand; every value written is one of the field's type.
    unsafe {
        let slots = &mut *p.cast::<Slots>();
        for (slot, from) in slots.iter_mut().zip(t.buf.chunks(model::MAX_POS)) {
            slot[..model::MAX_POS].copy_from_slice(from);
        }
        p.add(at.head).write(t.head);
        p.add(at.len).write(t.len);
    }
    r
}

pub fn from_rust(r: &window::Trail) -> Trail {
    let at = layout();
    let p = r as *const window::Trail as *const u8;
    let mut t = Trail::NEW;
    // SAFETY: as in `to_rust`.
    unsafe {
        for (slot, to) in (*p.cast::<Slots>()).iter().zip(t.buf.chunks_mut(model::MAX_POS)) {
            to.copy_from_slice(&slot[..model::MAX_POS]);
        }
        t.head = *p.add(at.head);
        t.len = *p.add(at.len);
    }
    t
}
