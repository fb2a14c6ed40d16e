//! The original's text as it stands in bench/original, under the vector, the parameter and the arc that it needs of its crates.
//! Of arc_math.rs the symbolic half cannot be compiled: the file beside this one has the other, which a test holds against it.
#![allow(dead_code, clippy::all)]

include!("../../../bench/original/standins.rs");
include!("arc_math.rs");

impl<T> Param<T> {
    pub fn new(value: T) -> Self {
        Param { value }
    }

    pub fn fixed(value: T) -> Self {
        Param { value }
    }
}

pub mod vect {
    pub use super::vect2d;
}

#[path = "../../../bench/original/geometry.rs"]
pub mod geometry;

#[path = "../../../bench/original/earc_fit.rs"]
pub mod earc_fit;

#[test]
fn the_numeric_half_is_the_originals() {
    assert!(include_str!("../../../bench/original/arc_math.rs").contains(include_str!("arc_math.rs")));
}
