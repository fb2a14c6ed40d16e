//! The hunt of an earlier library, beside today's: `bench/beside` builds it as a shared object and names it in ARCS_EARLIER.
use arcs::Arc;
use std::ffi::{c_char, c_int, c_void, CString};

/// `arcs_intersect_arcs` of include/arcs.h.
type IntersectArcs = unsafe extern "C" fn(*const f64, usize, u32, *const f64, usize, u32, u32, *mut f64, usize, *mut u64, usize) -> u32;

const RTLD_NOW: c_int = 2;

extern "C" {
    fn dlopen(path: *const c_char, flags: c_int) -> *mut c_void;
    fn dlsym(library: *mut c_void, name: *const c_char) -> *mut c_void;
}

pub struct Earlier {
    intersect_arcs: IntersectArcs,
}

impl Earlier {
    /// The library that is named, where one is.
    pub fn named() -> Option<Earlier> {
        let path = CString::new(std::env::var("ARCS_EARLIER").ok()?).unwrap();
        // SAFETY: both strings end with a zero; the export's type is that of the header, and the library is never closed.
        unsafe {
            let library = dlopen(path.as_ptr(), RTLD_NOW);
            assert!(!library.is_null(), "{path:?} cannot be loaded");
            let export = dlsym(library, c"arcs_intersect_arcs".as_ptr());
            assert!(!export.is_null(), "{path:?} has no arcs_intersect_arcs");
            Some(Earlier { intersect_arcs: std::mem::transmute::<*mut c_void, IntersectArcs>(export) })
        }
    }

    /// The refusal, and the six counts.
    pub fn intersect_arcs(&self, a: &Arc, b: &Arc, depth: u32, room: &mut [f64]) -> (u32, [u64; 6]) {
        let ((m, a_marks), (n, b_marks), mut counts) = (lent(a), lent(b), [0; 6]);
        // SAFETY: the pointers and lengths are those of `m`, `n`, `room` and `counts`.
        let refusal = unsafe {
            (self.intersect_arcs)(
                m.as_ptr(), m.len(), a_marks, n.as_ptr(), n.len(), b_marks, depth, room.as_mut_ptr(), room.len(), counts.as_mut_ptr(), counts.len(),
            )
        };
        (refusal, counts)
    }
}

/// An arc as C lends it.
fn lent(a: &Arc) -> ([f64; 7], u32) {
    let c = a.center.value;
    let numbers = [c.x, c.y, a.radius.value, a.radius_b.value, a.rotation.value, a.start_angle.value, a.end_angle.value];
    (numbers, a.ccw as u32 | (a.closed as u32) << 1 | (a.is_ellipse as u32) << 2)
}
