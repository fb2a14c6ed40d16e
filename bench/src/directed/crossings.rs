//! Closed forms: a segment with an arc (call 10) and two circles (call 11). Call 12 asks the same by curves.
use super::edge::Edge;
use super::{arc, circle, real, reals, row, Row, CCW, CLOSED, ELLIPSE, SEGMENT};
use crate::calls::bow;
use crate::oracle::{arc_radii, norm_tau, vect2d};
use crate::Routed;

/// The segment in the frame in which the arc's curve is the unit circle: its start and its direction.
fn in_frame(w: &[u64]) -> (vect2d, vect2d) {
    let b = bow(w, 4);
    let (ra, rb) = arc_radii(&b);
    let (cos_r, sin_r) = (b.rotation.value.routed_cos(), b.rotation.value.routed_sin());
    let to_unit = |i| {
        let (dx, dy) = (real(w, i) - b.center.value.x, real(w, i + 1) - b.center.value.y);
        vect2d::new((cos_r * dx + sin_r * dy) / ra, (-sin_r * dx + cos_r * dy) / rb)
    };
    let (p, q) = (to_unit(0), to_unit(2));
    (p, vect2d::new(q.x - p.x, q.y - p.y))
}

fn qa(d: vect2d) -> f64 {
    d.x * d.x + d.y * d.y
}

fn discriminant(w: &[u64]) -> f64 {
    let (a, d) = in_frame(w);
    let qb = 2.0 * (a.x * d.x + a.y * d.y);
    let qc = a.x * a.x + a.y * a.y - 1.0;
    qb * qb - 4.0 * qa(d) * qc
}

fn smaller_root(w: &[u64]) -> f64 {
    let (a, d) = in_frame(w);
    (-2.0 * (a.x * d.x + a.y * d.y) - discriminant(w).sqrt()) / (2.0 * qa(d))
}

fn segment_rows() -> Vec<Row> {
    let mut edges = Vec::new();
    let across = |ends: [f64; 4], b: [u64; 8]| [&reals(ends)[..], &b, &[8]].concat();
    let edge = |words, moved, from, to, sides, varied, equal| Edge { call: 16, words, moved, from, to, sides, varied, equal };
    // `ra < 1e-12 || rb < 1e-12`, each alone; the radius of a circle is both.
    let ellipse = |a, b| arc([0.0, 0.0, a, b, 0.0, 0.0, 0.0], CCW | CLOSED | ELLIPSE);
    let radius = |w: &[u64]| (arc_radii(&bow(w, 4)).0, 1e-12);
    let radius_b = |w: &[u64]| (arc_radii(&bow(w, 4)).1, 1e-12);
    edges.push(edge(across([-2e-12, 0.0, 2e-12, 0.0], ellipse(1.0, 1.0)), 6, 1e-13, 1e-11, radius, &[], true));
    edges.push(edge(across([0.0, -2e-12, 0.0, 2e-12], ellipse(1.0, 1.0)), 7, 1e-13, 1e-11, radius_b, &[], true));
    edges.push(edge(across([-2e-12, 0.0, 2e-12, 0.0], circle(0.0, 0.0, 1.0)), 6, 1e-13, 1e-11, radius, &[], true));
    // `qa < 1e-24`, of a segment that begins on the circle.
    edges.push(edge(across([1.0, 0.0, 1.0, 1e-13], circle(0.0, 0.0, 1.0)), 3, 1e-13, 1e-11, |w| (qa(in_frame(w).1), 1e-24), &[0, 2, 6], true));
    // `disc < 0.0`, of a line beside the circle.
    edges.push(edge(across([-2.0, 1.0, 2.0, 1.0], circle(0.0, 0.0, 1.0)), 1, 0.5, 1.5, |w| (discriminant(w), 0.0), &[3], true));
    // `sq > 1e-12`: one root or two, of a tangent of which rounding makes a secant.
    let touching = across([1.0, 5e-10, 1.0, -1e-3], circle(0.0, 0.0, 1.0));
    edges.push(edge(touching, 1, 1e-10, 1e-9, |w| (discriminant(w).sqrt(), 1e-12), &[3], true));
    // `-eps..=1.0 + eps` of a root, eps = 1e-9. The position has the clamped t.
    edges.push(edge(across([1.0, 0.0, -1e6, 0.0], circle(0.0, 0.0, 1.0)), 0, 1.0, 0.99, |w| (smaller_root(w), -1e-9), &[2], true));
    edges.push(edge(across([3.0, 0.0, 1.0, 0.0], circle(0.0, 0.0, 1.0)), 2, 1.0, 1.01, |w| (smaller_root(w), 1.0 + 1e-9), &[0], true));
    let mut rows: Vec<Row> = edges.into_iter().flat_map(Edge::rows).collect();
    // The slack of the arc's span, at its end and not at its start, and both directions.
    for (offset, marks) in [-5e-10, 5e-10, 0.9e-9, 1.1e-9, 1.5e-9].iter().flat_map(|&o| [(o, CCW), (o, 0), (o, CCW | ELLIPSE)]) {
        let bend = if marks & CCW != 0 { 1.0 } else { -1.0 };
        rows.push(row(16, &[&reals([0.5, 0.0, 2.0, 0.0]), &arc([0.0, 0.0, 1.0, 1.0, 0.0, -bend, -bend * offset], marks), &[8]]));
        rows.push(row(16, &[&reals([0.5, 0.0, 2.0, 0.0]), &arc([0.0, 0.0, 1.0, 1.0, 0.0, bend * offset, bend], marks), &[8]]));
    }
    rows
}

/// The distance of the centers and the tolerance.
fn apart(w: &[u64]) -> (f64, f64, f64, f64) {
    let (a, b) = (bow(w, 0), bow(w, 8));
    let (dx, dy) = (b.center.value.x - a.center.value.x, b.center.value.y - a.center.value.y);
    let (r1, r2) = (a.radius.value, b.radius.value);
    let d = (dx * dx + dy * dy).sqrt();
    (d, r1, r2, 1e-9 * (r1 + r2 + d))
}

fn half_chord(w: &[u64]) -> f64 {
    let (d, r1, r2, _) = apart(w);
    let along = (r1 * r1 - r2 * r2 + d * d) / (2.0 * d);
    let h2 = r1 * r1 - along * along;
    if h2 > 0.0 { h2.sqrt() } else { 0.0 }
}

fn circles_rows() -> Vec<Row> {
    let mut edges = Vec::new();
    let pair = |a: [u64; 8], b: [u64; 8]| [&a[..], &b, &[0, 8]].concat();
    let edge = |words, moved, from, to, sides, varied| Edge { call: 17, words, moved, from, to, sides, varied, equal: true };
    // `d < 1e-12`.
    edges.push(edge(pair(circle(0.0, 0.0, 1.0), circle(1e-13, 0.0, 1.0)), 8, 1e-13, 1e-11, |w| (apart(w).0, 1e-12), &[9]));
    // `d > r1 + r2 + tol`, then `d < (r1 - r2).abs() - tol` with either circle the larger.
    let outside = |w: &[u64]| { let (d, r1, r2, tol) = apart(w); (r1 + r2 + tol, d) };
    let inside = |w: &[u64]| { let (d, r1, r2, tol) = apart(w); (d, (r1 - r2).abs() - tol) };
    edges.push(edge(pair(circle(0.0, 0.0, 2.0), circle(3.0, 0.0, 1.0)), 8, 3.0, 3.1, outside, &[2]));
    edges.push(edge(pair(circle(0.0, 0.0, 2.0), circle(1.0, 0.0, 1.0)), 8, 0.9, 1.0, inside, &[2]));
    edges.push(edge(pair(circle(0.0, 0.0, 1.0), circle(1.0, 0.0, 2.0)), 8, 0.9, 1.0, inside, &[2]));
    // `h < tol`: one candidate or two, of a circle as small as the tolerance.
    edges.push(edge(pair(circle(0.0, 0.0, 2e-9), circle(1.0, 0.0, 1.0)), 2, 1e-9, 1e-8, |w| (half_chord(w), apart(w).3), &[10]));
    let mut rows: Vec<Row> = edges.into_iter().flat_map(Edge::rows).collect();
    // `h2 > 0.0`: below 0 by rounding. At 0 the root is 0 too, so that `>=` gives the same.
    for nudge in [0.0, 1e-9, -1e-9, 2e-9, -2e-9] {
        rows.push(row(17, &[&circle(0.0, 0.0, 2.0), &circle(5.0 + nudge, 0.0, 3.0), &[0, 8]]));
        rows.push(row(17, &[&circle(0.5, 0.25, 2.0), &circle(0.5, 1.25 + nudge, 1.0), &[0, 8]]));
    }
    // The slack of either arc's span: the hit at the angle of the first end.
    for o in [-5e-10, 5e-10, 0.9e-9, 1.1e-9] {
        let at = |x: f64, turn: f64| arc([x, 0.0, 5.0, 5.0, 0.0, turn - 1.0, turn + o], CCW);
        let angle = (4.0f64).routed_atan2(3.0);
        let other = (4.0f64).routed_atan2(-3.0);
        rows.push(row(17, &[&at(0.0, angle), &circle(6.0, 0.0, 5.0), &[0, 8]]));
        rows.push(row(17, &[&circle(0.0, 0.0, 5.0), &at(6.0, other), &[0, 8]]));
        rows.push(row(17, &[&arc([0.0, 0.0, 5.0, 5.0, 0.0, norm_tau(angle) + o, 4.0], CCW), &circle(6.0, 0.0, 5.0), &[0, 8]]));
    }
    rows
}

/// The same by curves: segments in both places.
fn curve_rows() -> Vec<Row> {
    let segment = |x: f64, y: f64| {
        let [a, b, c, d] = reals([-2.0, y, x, y]);
        [a, b, c, d, 0, 0, 0, SEGMENT]
    };
    let upright = { let [a, b, c, d] = reals([0.5, -1.0, 0.5, 2.0]); [a, b, c, d, 0, 0, 0, SEGMENT] };
    let turned = arc([0.25, 0.5, 2.0, 1.0, 0.5, 0.0, 3.0], CCW | CLOSED | ELLIPSE);
    let part = arc([0.0, 0.0, 1.0, 1.0, 0.0, -1.0, 1.0], CCW);
    let curves = [segment(2.0, 0.0), segment(3.0, 0.25), upright, circle(0.0, 0.0, 1.0), turned, part];
    let mut rows = Vec::new();
    for a in &curves {
        // An ellipse crosses itself in more cells than a row holds.
        for b in curves.iter().filter(|b| *b != a || *b != &turned) {
            for depth in [0, 1] {
                rows.push(row(18, &[a, b, &[depth, 2048]]));
            }
        }
    }
    rows
}

pub fn rows() -> Vec<Row> {
    let mut rows = segment_rows();
    rows.extend(circles_rows());
    rows.extend(curve_rows());
    rows
}

