//! Distances and nearest parameters: calls 14 and 15.
use super::edge::Edge;
use super::{arc, circle, real, reals, row, Row, CCW, CLOSED, ELLIPSE};
use crate::calls::bow;
use crate::oracle::{arc_point_at, norm_tau};
use crate::Routed;
use std::f64::consts::{FRAC_PI_2, PI, TAU};

fn to_center(w: &[u64]) -> (f64, f64) {
    let (dx, dy) = (real(w, 0) - real(w, 2), real(w, 1) - real(w, 3));
    ((dx * dx + dy * dy).sqrt(), 1e-12)
}

/// The offset of the point's angle, and the span, which is brought into one turn and has no slack.
fn in_range(w: &[u64]) -> (f64, f64) {
    let angle = (real(w, 1) - real(w, 3)).routed_atan2(real(w, 0) - real(w, 2));
    let (start, end) = (real(w, 7), real(w, 8));
    if w[9] & CCW != 0 { (norm_tau(angle - start), norm_tau(end - start)) } else { (norm_tau(start - angle), norm_tau(start - end)) }
}

/// 000's `df` at the first angle of Newton's steps, the nearest of 64 samples.
fn bend(w: &[u64]) -> (f64, f64) {
    let (a, px, py) = (bow(w, 2), real(w, 0), real(w, 1));
    let squared = |t: f64| { let q = arc_point_at(&a, t); (px - q.x) * (px - q.x) + (py - q.y) * (py - q.y) };
    let start = a.start_angle.value;
    let span = if a.closed { TAU } else { a.end_angle.value - start };
    let (mut t, mut least) = (start, f64::MAX);
    for i in 0..=64 {
        let s = start + span * (i as f64 / 64.0);
        if squared(s) < least { (t, least) = (s, squared(s)) }
    }
    let dt = 1e-6;
    let (q, qp, qm) = (arc_point_at(&a, t), arc_point_at(&a, t + dt), arc_point_at(&a, t - dt));
    let across = (qp.x - qm.x) * (qp.x - qm.x) + (qp.y - qm.y) * (qp.y - qm.y);
    let df = -across / (4.0 * dt * dt) + (px - q.x) * (qp.x - 2.0 * q.x + qm.x) / (dt * dt) + (py - q.y) * (qp.y - 2.0 * q.y + qm.y) / (dt * dt);
    (df.abs(), 1e-20)
}

/// A point and an arc, in the order of call 14.
fn distance(x: f64, y: f64, a: [u64; 8]) -> Row {
    row(20, &[&reals([x, y]), &a])
}

fn parameter(x: f64, y: f64, a: [u64; 8]) -> Row {
    row(21, &[&a, &reals([x, y])])
}

fn circle_rows() -> Vec<Row> {
    let mut edges = Vec::new();
    let edge = |words, moved, from, to, sides| Edge { call: 20, words, moved, from, to, sides, varied: &[0], equal: true };
    // `dist_to_center < 1e-12` of a whole circle and of an arc.
    for marks in [CCW | CLOSED, CCW] {
        let words = distance(3e-13, 1e-13, arc([0.0, 0.0, 1e-9, 1e-9, 0.0, 0.0, 3.0], marks)).words;
        edges.push(edge(words, 1, 1e-13, 1e-11, to_center));
    }
    // `a_norm <= span` in both directions.
    for (end, marks) in [(FRAC_PI_2, CCW), (-FRAC_PI_2, 0)] {
        let words = distance(0.0, if marks & CCW != 0 { 2.0 } else { -2.0 }, arc([0.0, 0.0, 1.0, 1.0, 0.0, 0.0, end], marks)).words;
        edges.push(Edge { call: 20, words, moved: 8, from: end * 0.9, to: end * 1.1, sides: in_range, varied: &[], equal: true });
    }
    let mut rows: Vec<Row> = edges.into_iter().flat_map(Edge::rows).collect();
    for marks in [CCW, 0] {
        let bend = if marks & CCW != 0 { 1.0 } else { -1.0 };
        // No slack past the end or before the start, which `nearest_arc_param` has past the end.
        for o in [-5e-10, 5e-10, 0.9e-9, 1.1e-9] {
            for a in [arc([0.0, 0.0, 1.0, 1.0, 0.0, -bend, bend * o], marks), arc([0.0, 0.0, 1.0, 1.0, 0.0, bend * o, bend], marks)] {
                rows.extend([distance(2.0, 0.0, a), parameter(2.0, 0.0, a)]);
            }
        }
        // A span of more than a turn, and one against its direction, brought into one turn.
        for (start, end) in [(0.0, TAU + 1.0), (0.0, 1.0), (0.0, -1.0), (1.0, 1.0), (0.0, TAU), (3.0, -3.0)] {
            let a = arc([0.0, 0.0, 1.0, 2.0, 0.25, bend * start, bend * end], marks);
            rows.extend([distance(-1.0, 1.5, a), parameter(-1.0, 1.5, a), distance(1.0, -0.25, a), parameter(1.0, -0.25, a)]);
        }
        // Both ends equally far: the end of the one, the start of the other. And nearly so.
        for y in [0.0, 1e-300, -1e-300, 1e-15, -1e-15] {
            let a = arc([0.0, 0.0, 1.0, 1.0, 0.0, -bend, bend], marks);
            rows.extend([distance(-3.0, y, a), parameter(-3.0, y, a)]);
        }
    }
    // The center itself and the point on the curve.
    for (x, y) in [(0.0, 0.0), (-0.0, -0.0), (1.0, 0.0), (0.0, 1.0)] {
        rows.extend([distance(x, y, circle(0.0, 0.0, 1.0)), parameter(x, y, circle(0.0, 0.0, 1.0))]);
    }
    rows
}

fn ellipse_rows() -> Vec<Row> {
    // `df.abs() < 1e-20`, of a point beside the start of an ellipse as small: there only its second radius counts.
    let tiny = distance(3e-10, 1e-12, arc([0.0, 0.0, 3e-10, 1e-10, 0.0, 0.0, 0.0], CCW | CLOSED | ELLIPSE)).words;
    let edge = Edge { call: 20, words: tiny, moved: 5, from: 0.9e-10, to: 1.1e-10, sides: bend, varied: &[], equal: true };
    let mut rows = edge.rows();
    let marks = CCW | ELLIPSE;
    // Samples equally far: the first counts. The distance before the first sample, f64::MAX, is beyond any within the limits.
    for start in [-PI, -FRAC_PI_2, 0.0, FRAC_PI_2] {
        let a = arc([0.0, 0.0, 2.0, 1.0, 0.0, start, 0.0], marks | CLOSED);
        rows.extend([distance(0.0, 0.0, a), parameter(0.0, 0.0, a), distance(0.5, 0.0, a), parameter(0.5, 0.0, a), parameter(0.0, 3.0, a)]);
    }
    // An end as far as the nearest point is not taken: the end opposite, and a start beside the nearest point.
    rows.push(distance(0.0, 0.0, arc([0.0, 0.0, 2.0, 1.0, 0.0, FRAC_PI_2, -FRAC_PI_2], marks | CLOSED)));
    for off in [1e-8, -5e-9, -1e-8, -2e-9] {
        rows.push(distance(0.0, 0.0, arc([0.0, 0.0, 2.0, 1.0, 0.0, off - FRAC_PI_2, 0.0], marks | CLOSED)));
        rows.push(distance(0.0, 0.0, arc([0.0, 0.0, 2.0, 1.0, 0.0, 0.0, off - FRAC_PI_2], marks | CLOSED)));
    }
    // Ends nearer than the point that Newton's steps end at, near each other and equally far.
    for (start, end) in [(-1.0, 1.0), (-0.1, 0.1), (1.0, -1.0), (-0.5, 0.25), (3.0, 3.5)] {
        let a = arc([0.0, 0.0, 3.0, 1.0, 0.0, start, end], marks);
        for (x, y) in [(-3.0, 0.0), (0.0, 0.0), (2.5, 0.0), (2.6666666666666665, 0.0), (1.0, 0.1), (-2.0, 0.5)] {
            rows.extend([distance(x, y, a), parameter(x, y, a)]);
        }
    }
    // Steps that do not settle: points near the center and on the evolute, of flat ellipses.
    for (i, flat) in [1.0, 1e-3, 0.999, 0.5, 1e-6].iter().enumerate() {
        let a = arc([0.0, 0.0, 1.0, *flat, 0.3, 0.7 * i as f64, 1.0], marks | CLOSED);
        for (x, y) in [(1e-3, 2e-3), (0.1, 0.05), (1e-9, 0.0), (0.7, 0.3)] {
            rows.extend([distance(x, y, a), parameter(x, y, a)]);
        }
    }
    // A closed arc that starts far from 0: its span is TAU for the distance, and what the sum leaves of it for the parameter.
    for start in [1000.3, -1000.3, 37.0] {
        let a = arc([0.5, 0.25, 2.0, 1.0, 0.25, start, 0.0], marks | CLOSED);
        rows.extend([distance(1.0, 2.0, a), parameter(1.0, 2.0, a), distance(3.0, -0.5, a), parameter(3.0, -0.5, a)]);
    }
    rows
}

pub fn rows() -> Vec<Row> {
    let mut rows = circle_rows();
    rows.extend(ellipse_rows());
    rows
}
