//! The routines under the geometry. They refuse nothing; where there is no answer it is the NaN 7ff8000000000000.
use crate::ffi;

/// The square root, rounded to nearest: the IEEE 754 value.
#[inline]
#[must_use]
pub fn sqrt(x: f64) -> f64 {
    // SAFETY: takes and gives numbers alone.
    unsafe { ffi::arcs_sqrt(x) }
}

/// The sine of `x % TAU`, within 2^-44.
#[inline]
#[must_use]
pub fn sin(x: f64) -> f64 {
    // SAFETY: takes and gives numbers alone.
    unsafe { ffi::arcs_sin(x) }
}

/// The cosine of `x % TAU`, within 2^-44.
#[inline]
#[must_use]
pub fn cos(x: f64) -> f64 {
    // SAFETY: takes and gives numbers alone.
    unsafe { ffi::arcs_cos(x) }
}

/// Sine and cosine, for little more than the price of one.
#[inline]
#[must_use]
pub fn sin_cos(x: f64) -> (f64, f64) {
    let mut out = [0.0; 2];
    // SAFETY: the pointer and the length are those of `out`.
    unsafe { ffi::arcs_sin_cos(x, out.as_mut_ptr(), out.len()) };
    (out[0], out[1])
}

/// The angle of the point (x, y), within 2^-44; signs, zeros and infinities as in C's Annex F.
#[inline]
#[must_use]
pub fn atan2(y: f64, x: f64) -> f64 {
    // SAFETY: takes and gives numbers alone.
    unsafe { ffi::arcs_atan2(y, x) }
}

/// The arccosine: the arctangent of the root of (1-c)(1+c) and c.
#[inline]
#[must_use]
pub fn acos(c: f64) -> f64 {
    // SAFETY: takes and gives numbers alone.
    unsafe { ffi::arcs_acos(c) }
}
