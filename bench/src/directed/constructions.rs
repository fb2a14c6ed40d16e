//! Arc conversion, the arc through three points, the circle with a tangent: calls 16 to 18.
use super::edge::Edge;
use super::{of, real, reals, row, Row};
use crate::oracle::{norm_tau, vect2d};
use crate::{Random, Routed};

/// The inner numbers of the conversion, after the radii are made large enough.
struct Steps {
    lambda: f64,
    num: f64,
    den: f64,
    /// The quotient of which the angle is the arccosine, before it is clamped.
    cosine: f64,
    cross: f64,
}

fn steps(w: &[u64]) -> Steps {
    let x = |i| real(w, i);
    let (cos_r, sin_r) = (x(6).routed_cos(), x(6).routed_sin());
    let (dx, dy) = ((x(0) - x(2)) / 2.0, (x(1) - x(3)) / 2.0);
    let (x1, y1) = (cos_r * dx + sin_r * dy, -sin_r * dx + cos_r * dy);
    let (mut rx, mut ry) = (x(4).abs(), x(5).abs());
    let lambda = (x1 * x1) / (rx * rx) + (y1 * y1) / (ry * ry);
    if lambda > 1.0 {
        (rx, ry) = (rx * lambda.sqrt(), ry * lambda.sqrt());
    }
    let (rx2, ry2, x2, y2) = (rx * rx, ry * ry, x1 * x1, y1 * y1);
    let num = rx2 * ry2 - rx2 * y2 - ry2 * x2;
    let den = rx2 * y2 + ry2 * x2;
    let sq = if den.abs() < 1e-30 { 0.0 } else { (num.routed_max(0.0) / den).sqrt() };
    let sign = if (w[7] != 0) == (w[8] != 0) { -1.0 } else { 1.0 };
    let c = vect2d::new(sign * sq * rx * y1 / ry, sign * sq * -ry * x1 / rx);
    let (u, v) = (vect2d::new((x1 - c.x) / rx, (y1 - c.y) / ry), vect2d::new((-x1 - c.x) / rx, (-y1 - c.y) / ry));
    let len = (u.x * u.x + u.y * u.y).sqrt() * (v.x * v.x + v.y * v.y).sqrt();
    Steps { lambda, num, den, cosine: (u.x * v.x + u.y * v.y) / len, cross: u.x * v.y - u.y * v.x }
}

/// The first drawn conversions with some property, with each pair of flags: ends of some size, and radii of so many half chords.
#[track_caller]
fn drawn(size: f64, radii: [f64; 3], property: impl Fn(&Steps) -> bool, count: usize) -> Vec<Row> {
    let mut random = Random(1);
    let mut found = Vec::new();
    for _ in 0..1_000_000 {
        if found.len() == 4 * count {
            return found;
        }
        let mut r = |size: f64| random.within(size);
        let ends = [r(size), r(size), r(size), r(size)];
        let (x, y) = (ends[0] - ends[2], ends[1] - ends[3]);
        let half = 0.5 * (x * x + y * y).sqrt();
        let rx = half * radii[(r(1.5) + 1.5) as usize];
        let given = [ends[0], ends[1], ends[2], ends[3], rx, if r(1.0) > 0.0 { rx } else { rx * (1.0 + r(0.5)) }, r(3.0)];
        let flags = [[0, 0], [0, 1], [1, 0], [1, 1]].map(|f| row(22, &[&reals(given), &f]));
        if property(&steps(&flags[0].words)) {
            found.extend(flags);
        }
    }
    panic!("no such conversion was drawn");
}

fn conversion_rows() -> Vec<Row> {
    let mut edges = Vec::new();
    let words = |numbers: [f64; 7], flags: [u64; 2]| row(22, &[&reals(numbers), &flags]).words;
    let edge = |words, moved, from, to, sides, varied| Edge { call: 22, words, moved, from, to, sides, varied, equal: true };
    // `(p1.x - p2.x).abs() < 1e-12 && (p1.y - p2.y).abs() < 1e-12`: each decides where the other holds.
    for sign in [1.0, -1.0] {
        let (from, to) = (sign * 1e-13, sign * 1e-11);
        edges.push(edge(words([from, 0.0, 0.0, 0.0, 1.0, 2.0, 0.0], [0, 1]), 0, from, to, |w| ((real(w, 0) - real(w, 2)).abs(), 1e-12), &[]));
        edges.push(edge(words([0.0, from, 0.0, 0.0, 1.0, 2.0, 0.0], [0, 1]), 1, from, to, |w| ((real(w, 1) - real(w, 3)).abs(), 1e-12), &[]));
        // `rx < 1e-12 || ry < 1e-12`, of the sizes.
        edges.push(edge(words([1.0, 0.0, -1.0, 0.5, from, 1.0, 0.0], [0, 1]), 4, from, to, |w| (real(w, 4).abs(), 1e-12), &[]));
        edges.push(edge(words([1.0, 0.0, -1.0, 0.5, 1.0, from, 0.0], [0, 1]), 5, from, to, |w| (real(w, 5).abs(), 1e-12), &[]));
    }
    // `lambda > 1.0`. At 1, and one unit above it, the radii are multiplied by 1, so that `>=` gives the same.
    edges.push(edge(words([1.0, 0.0, -1.0, 0.0, 1.0, 1.0, 0.0], [0, 1]), 4, 0.9, 1.1, |w| (steps(w).lambda, 1.0), &[]));
    // `den.abs() < 1e-30`.
    edges.push(edge(words([2e-10, 0.0, 0.0, 0.0, 1e-6, 1e-6, 0.0], [0, 1]), 0, 1e-10, 1e-8, |w| (steps(w).den.abs(), 1e-30), &[5]));
    let mut rows: Vec<Row> = edges.into_iter().flat_map(Edge::rows).collect();
    for less in [2e-16, 4e-16, 1e-15, 1e-13, 1e-10] {
        rows.push(of(22, words([1.0, 0.0, -1.0, 0.0, 1.0 - less, 1.0, 0.0], [0, 1])));
    }
    // `max(0.0)` of a numerator that rounding took below 0, and `clamp(-1.0, 1.0)` of a cosine past -1. The numerator is never -0.0,
    // as a difference of equal numbers is 0.0.
    let short = [1.0, 1.0, 0.5];
    rows.extend(drawn(2.0, short, |s| s.num < 0.0, 2));
    rows.extend(drawn(2.0, short, |s| s.cosine < -1.0, 2));
    rows.extend(drawn(2.0, short, |s| s.cross != 0.0 && s.cosine < -0.9999, 1));
    // `cross < 0.0` at 0, where the cosine is not quite -1: arcs so small that 1e-30 puts the center in the middle of the chord.
    rows.extend(drawn(1e-9, [10.0, 20.0, 50.0], |s| s.cross == 0.0 && s.cosine > -1.0, 2));
    // `sweep_angle > 0.0` and `< 0.0` at an angle of 0: ends so near that their cosine rounds to 1, which happens past 1 too.
    for flags in [[0, 0], [0, 1], [1, 0], [1, 1]] {
        for (x, y) in [(1e-9, 0.0), (0.0, 1e-9), (-1e-9, 1e-9), (3e-9, 1e-9), (1e-7, 2e-8)] {
            rows.push(of(22, words([x, y, 0.0, 0.0, 1.0, 1.0, 0.5], flags)));
        }
        for given in [[1.0, 0.0, -1.0, 0.0, 1.0, 1.0, 0.0], [0.0, 1.0, 0.0, -1.0, 1.0, 2.0, 0.0], [1.0, 0.5, -0.5, 0.25, 3.0, -2.0, 1.0]] {
            rows.push(of(22, words(given, flags)));
        }
    }
    rows
}

fn three_point_rows() -> Vec<Row> {
    // `d.abs() < 1e-12`, of either sign.
    let area = |w: &[u64]| {
        let x = |i| real(w, i);
        let d: f64 = 2.0 * (x(0) * (x(3) - x(5)) + x(2) * (x(5) - x(1)) + x(4) * (x(1) - x(3)));
        (d.abs(), 1e-12)
    };
    let mut rows = Vec::new();
    for sign in [1.0, -1.0] {
        let words = reals([0.0, 0.0, 1.0, 0.0, 0.5, sign * 1e-13]).to_vec();
        let edge = Edge { call: 23, words, moved: 5, from: sign * 1e-13, to: sign * 1e-11, sides: area, varied: &[], equal: true };
        rows.extend(edge.rows());
    }
    // `mid_ccw < span_ccw`: the third point beside the second, seen at the same angle.
    let mut random = Random(1);
    let mut found = 0;
    for _ in 0..1_000_000 {
        if found == 3 {
            break;
        }
        let (x, y) = (random.within(1e6), 1e6);
        let words = reals([1e6, random.within(1e6), x, y, f64::from_bits(x.to_bits() + 1 + random.below(2)), y]).to_vec();
        if offsets(&words).is_some_and(|(mid, span)| mid == span) {
            rows.push(of(23, words));
            found += 1;
        }
    }
    assert_eq!(found, 3, "no such points were drawn");
    // Both directions, and the first point between the others.
    for p3 in [[0.0, 1.0], [0.0, -1.0], [0.6, 0.8], [-0.6, -0.8]] {
        rows.push(row(23, &[&reals([1.0, 0.0, -1.0, 0.0, p3[0], p3[1]])]));
        rows.push(row(23, &[&reals([0.0, -1.0, 0.8, 0.6, p3[0] * 0.5, p3[1] + 0.25])]));
    }
    rows
}

/// `mid_ccw` and `span_ccw`.
fn offsets(w: &[u64]) -> Option<(f64, f64)> {
    let at = |i| vect2d::new(real(w, i), real(w, i + 1));
    let (c, _, sa, ea, _) = crate::oracle::circumscribed_arc(at(0), at(2), at(4))?;
    let ma = (real(w, 5) - c.y).routed_atan2(real(w, 4) - c.x);
    Some((norm_tau(ma - sa), norm_tau(ea - sa)))
}

fn tangent_rows() -> Vec<Row> {
    let mut edges = Vec::new();
    let length = |w: &[u64]| ((real(w, 4) * real(w, 4) + real(w, 5) * real(w, 5)).sqrt(), 1e-12);
    let normal = |w: &[u64]| {
        let x = |i| real(w, i);
        let tl = (x(4) * x(4) + x(5) * x(5)).sqrt();
        let dn: f64 = (x(2) - x(0)) * (-x(5) / tl) + (x(3) - x(1)) * (x(4) / tl);
        (dn.abs(), 1e-12)
    };
    // `tl < 1e-12`, then `dn.abs() < 1e-12` of either sign.
    let edge = |words: [f64; 6], moved, from, to, sides, varied| Edge { call: 24, words: reals(words).to_vec(), moved, from, to, sides, varied, equal: true };
    edges.push(edge([0.0, 0.0, 1.0, 1.0, 1e-13, 0.0], 4, 1e-13, 1e-11, length, &[5]));
    edges.push(edge([0.0, 0.0, 1.0, 1.0, 0.0, 1e-13], 5, 1e-13, 1e-11, length, &[4]));
    for sign in [1.0, -1.0] {
        edges.push(edge([0.0, 0.0, 1.0, sign * 1e-13, 1.0, 0.0], 3, sign * 1e-13, sign * 1e-11, normal, &[]));
        edges.push(edge([0.0, 0.0, sign * 1e-13, 1.0, 0.0, 2.0], 2, sign * 1e-13, sign * 1e-11, normal, &[]));
    }
    edges.into_iter().flat_map(Edge::rows).collect()
}

pub fn rows() -> Vec<Row> {
    let mut rows = conversion_rows();
    rows.extend(three_point_rows());
    rows.extend(tangent_rows());
    rows
}
