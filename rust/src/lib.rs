//! Proved arc functions for drafting programs: points, spans, crossings, distances and constructions of arcs and ellipses.
//!
//! The code behind every call is proved to equal a definition that a person can read, refusals and counts included; this
//! crate carries numbers to it and back. It has two modules:
//!
//! - [`geometry`] has the names and types that the program calls already. A call outside the limits panics.
//! - [`checked`] has the same calls with a `Result`, and never panics. It has, besides, the smaller calls of spans, curves of
//!   either kind, the search of arc pairs at greater depths, the lent room and the counts.
//!
//! ```
//! use arcs::{checked, geometry, vect2d, Arc};
//!
//! let flange = Arc::ellipse(vect2d::new(0.0, 0.0), 1000.0, 1000.0, 0.0);
//! let hole = Arc::circle(vect2d::new(999.9247, 12.2715), 10.0);
//! // 256 cells step over the hole. Twice as many find both crossings, and so does the hole searched first.
//! assert_eq!(geometry::intersect_arcs(&flange, &hole).len(), 0);
//! assert_eq!(checked::intersect_arcs_at(&flange, &hole, 1)?.hits.len(), 2);
//! assert_eq!(geometry::intersect_arcs(&hole, &flange).len(), 2);
//! # Ok::<(), arcs::Refusal>(())
//! ```
//!
//! # For a program that has these functions from arael
//!
//! Its imports change, and no call but one whose argument's type was left to be inferred ([`AsArc`]). Every name stands where the original's crates have it, so it is enough to say where the
//! crates are now:
//!
//! ```
//! use arcs as arael;
//! use arcs as arael_sketch_solver;
//! use arcs::{earc_fit, geometry};
//!
//! use arael::vect::vect2d;
//! use arael_sketch_solver::*;
//!
//! let round = Arc::circle(vect2d::new(3.0, 4.0), 5.0);
//! assert_eq!(round.start_pos(), geometry::arc_start_pos(&round));
//! assert_eq!(ellipse_point(round.center.value, 5.0, 5.0, 0.0, 0.0), vect2d::new(8.0, 4.0));
//! let (p, right) = (vect2d::new(0.0, 0.0), vect2d::new(1.0, 0.0));
//! assert!(earc_fit::fit_earc_tangent(p, right, p, right, 0.5).is_none());
//! ```
//!
//! A program whose own `Arc` has more fields keeps it and implements [`AsArc`] for it, and [`ArcMethods`] if it wants the
//! methods. What is not carried over: the symbolic functions, and what a [`Param`] has besides its value. A `vect2d` has its
//! two numbers, which is all that the original's functions use. And where the original gave an answer for a number beyond
//! its limit, [`geometry`] panics.
//!
//! # What it needs of the process
//!
//! **Floating point as IEEE 754 has it by default**: rounding to nearest, with subnormal numbers. The library is proved for
//! that. In a process that sets another rounding direction or flushes subnormal numbers to zero (a C program linked with
//! `-ffast-math` or `-Ofast` does that for the whole process) the bits differ: `sqrt(f64::from_bits(0x0008_0000_0000_0000))` then gives
//! back the number itself.
//!
//! **Nothing of its threads.** The library has no state and keeps no pointer: every call may be made from any thread, and
//! from many at once.
//!
//! **No `std`.** The crate needs `core` and `alloc`, and no C library but what copies memory.
#![no_std]
#![deny(missing_docs)]

extern crate alloc;
#[cfg(test)]
extern crate std;

mod angles;
mod as_arc;
pub mod checked;
mod ffi;
pub mod geometry;
mod refusal;
mod types;

/// The fit, where the original has it.
pub mod earc_fit {
    pub use crate::geometry::fit_earc_tangent;
}

/// The parameter, where the original has it.
pub mod model {
    pub use crate::types::Param;
}

/// The vector, where the original has it.
pub mod vect {
    pub use crate::types::vect2d;
}

pub use angles::{acos, atan2, cos, sin, sin_cos, sqrt};
pub use as_arc::{ArcMethods, AsArc};
pub use geometry::{ellipse_point, ellipse_tangent};
pub use refusal::Refusal;
pub use types::{vect2d, Arc, Counts, Crossings, Curve, CurveHit, Param};
