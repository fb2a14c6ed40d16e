//! The root and the angles, beside those of `std`.
use std::f64::consts::TAU;

/// The library's 2^-44, and as much again for `std`'s own error.
const BOUND: f64 = 1.0 / (1u64 << 43) as f64;

const ANGLES: [f64; 9] = [0.3, -0.7, 1.9, -2.6, 3.8, 5.1, -17.25, 611.5, 1e9];

#[test]
fn sine_and_cosine() {
    for x in ANGLES {
        let (sin, cos) = (x % TAU).sin_cos();
        let both = arcs::sin_cos(x);
        assert!((arcs::sin(x) - sin).abs() < BOUND && (arcs::cos(x) - cos).abs() < BOUND, "{x}");
        assert_eq!(both, (arcs::sin(x), arcs::cos(x)));
    }
}

#[test]
fn arctangent_in_every_quadrant() {
    for (y, x) in [(0.3, 1.7), (2.4, 0.9), (1.1, -3.5), (-0.8, -0.2), (-5.3, 4.6), (1e-9, 7.0)] {
        assert!((arcs::atan2(y, x) - f64::atan2(y, x)).abs() < BOUND, "{y}, {x}");
    }
}

#[test]
fn arccosine() {
    for c in [-0.95, -0.4, 0.0, 0.15, 0.6, 0.99] {
        // The root of (1-c)(1+c), rounded, is what the arctangent takes: a few units in its last place on top.
        assert!((arcs::acos(c) - c.acos()).abs() < 2.0 * BOUND, "{c}");
    }
}

#[test]
fn root() {
    for x in [2.0, 0.3, 1e-310, 7.5e300, 0.0, -0.0, f64::INFINITY] {
        assert_eq!(arcs::sqrt(x).to_bits(), x.sqrt().to_bits());
    }
}

#[test]
fn no_answer_is_the_nan() {
    let none = [arcs::sqrt(-2.0), arcs::sin(f64::INFINITY), arcs::cos(f64::NAN), arcs::atan2(f64::NAN, 1.0), arcs::acos(1.5)];
    assert_eq!(none.map(f64::to_bits), [0x7ff8_0000_0000_0000; 5]);
}
