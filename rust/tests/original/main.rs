//! The crate held against the original's text.
//!
//! The text names its crates, `arael` and `arael_sketch_solver`. Here both are this one.
extern crate self as arael;
extern crate self as arael_sketch_solver;

mod crossings;
mod drawing;
mod hunt;
mod limits;
mod own;
mod routines;
mod spans;
mod swap;
mod text;

pub use text::{ellipse_point, ellipse_tangent, vect, Arc, Param};
