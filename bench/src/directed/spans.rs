//! Spans and parameters of an arc: calls 3 to b.
use super::edge::Edge;
use super::{arc, circle, of, real, reals, row, CCW, CLOSED, ELLIPSE, Row};
use crate::oracle::norm_tau;
use std::f64::consts::{FRAC_PI_2, PI, TAU};

/// The offset of an arc's angle and the end of its span with the slack.
fn offset(w: &[u64]) -> (f64, f64) {
    let (start, end, theta) = (real(w, 5), real(w, 6), real(w, 8));
    if w[7] & CCW != 0 { (norm_tau(theta - start), end - start + 1e-9) } else { (norm_tau(start - theta), start - end + 1e-9) }
}

pub fn rows() -> Vec<Row> {
    let mut rows = Vec::new();
    // `r < 0.0`: both zeros stay, a negative number below half a unit of TAU gives TAU itself.
    let tau_below = f64::from_bits(TAU.to_bits() - 1);
    for v in [0.0, -0.0, -1e-20, -f64::from_bits(1), f64::from_bits(1), TAU, -TAU, tau_below, -tau_below, 2.0 * TAU, -2.0 * TAU, PI, -PI, 1024.0, -1024.0] {
        rows.push(row(7, &[&reals([v])]));
    }
    // `off <= span + SPAN_EPS` in both directions: past the end, and at a span that leaves only the start.
    let in_span = |start: f64, end: f64, marks: u64, theta: f64| [&arc([0.5, -0.5, 2.0, 1.0, 0.25, start, end], marks)[..], &reals([theta])].concat();
    let edge = |words, moved, from, to| Edge { call: 8, words, moved, from, to, sides: offset, varied: &[], equal: true };
    rows.extend(edge(in_span(0.0, 1.0, CCW, 1.0), 8, 1.0, 1.1).rows());
    rows.extend(edge(in_span(0.0, -1.0, 0, -1.0), 8, -1.0, -1.1).rows());
    rows.extend(edge(in_span(0.0, -1e-9, CCW, 0.0), 6, -1e-8, 0.0).rows());
    rows.extend(edge(in_span(0.0, 1e-9, 0, 0.0), 6, 1e-8, 0.0).rows());
    // The slack is past the end only; a closed arc takes every angle, and its span is what its start makes of it.
    let bent = [CCW, 0, CCW | CLOSED, CLOSED];
    for marks in bent.iter().flat_map(|m| [*m, m | ELLIPSE]) {
        let end = if marks & CCW != 0 { 2.0 } else { -2.0 };
        for theta in [0.5, 0.5 - 5e-10, 0.5 + 5e-10, -0.0, 0.5 + end, 7.0, -7.0] {
            rows.push(of(8, in_span(0.5, 0.5 + end, marks, theta)));
        }
        for theta in [0.0, -0.0, -1e-20, 1e-20, TAU, -TAU] {
            rows.push(of(8, in_span(0.0, end, marks, theta)));
        }
        rows.push(of(8, in_span(1000.3, 1000.3 + end, marks, -2.0)));
    }
    // `max(1e-12)` of both radii, where the angle is the quotient itself and so shows the last bit.
    let about = [0.0, 1e-13, f64::from_bits(1e-12f64.to_bits() - 1), 1e-12, f64::from_bits(1e-12f64.to_bits() + 1), 2e-12, -1.0];
    for marks in [CCW | CLOSED, ELLIPSE] {
        for r in about {
            rows.push(row(11, &[&arc([0.0, 0.0, 1.0, r, 0.0, 0.0, 1.0], marks), &reals([1.0, 1.1e-22])]));
            rows.push(row(11, &[&arc([0.0, 0.0, r, 1.0, 0.0, 0.0, 1.0], marks), &reals([1.1, 1.0])]));
        }
    }
    // The radii of a circle are its radius twice; with a radius 0 the angle of a position is a NaN or on an axis.
    for marks in 0..8 {
        rows.push(row(9, &[&arc([0.5, -0.5, 2.0, 1.0, 0.25, 0.0, 1.0], marks)]));
        rows.push(row(10, &[&arc([0.5, -0.5, 2.0, 1.0, 0.25, 0.0, 1.0], marks), &reals([1.75, 0.125])]));
        rows.push(row(11, &[&arc([0.5, -0.5, 2.0, 1.0, 0.25, 0.0, 1.0], marks), &reals([1.75, 0.125])]));
    }
    for (x, y) in [(0.0, 0.0), (1.0, 0.0), (-0.0, 1.0), (-1.0, -0.0)] {
        for (a, b) in [(0.0, 0.0), (-0.0, 1.0), (1.0, -0.0), (-1.0, -2.0)] {
            rows.push(row(10, &[&arc([0.0, 0.0, a, b, 0.0, 0.0, 1.0], ELLIPSE), &reals([x, y])]));
        }
    }
    // Points and tangents at the quarter turns, of an arc that is turned.
    for t in [0.0, -0.0, FRAC_PI_2, PI, -FRAC_PI_2, TAU] {
        rows.push(row(3, &[&circle(0.0, 0.0, 1.0), &reals([t])]));
        rows.push(row(4, &[&arc([0.0, 0.0, 3.0, 2.0, 1.0, 0.0, 0.0], ELLIPSE), &reals([t])]));
    }
    rows
}
