//! Segments and lines: calls c to f.
use super::edge::Edge;
use super::{real, reals, Row};

fn length_squared(w: &[u64]) -> (f64, f64) {
    let (dx, dy) = (real(w, 4) - real(w, 2), real(w, 5) - real(w, 3));
    (dx * dx + dy * dy, 1e-12)
}

/// `t` of the projection, before it is clamped.
fn along(w: &[u64]) -> f64 {
    let (dx, dy) = (real(w, 4) - real(w, 2), real(w, 5) - real(w, 3));
    ((real(w, 0) - real(w, 2)) * dx + (real(w, 1) - real(w, 3)) * dy) / (dx * dx + dy * dy)
}

fn denominator(w: &[u64]) -> f64 {
    let x = |i| real(w, i);
    (x(2) - x(0)) * (x(7) - x(5)) - (x(3) - x(1)) * (x(6) - x(4))
}

fn t_a(w: &[u64]) -> f64 {
    let x = |i| real(w, i);
    ((x(4) - x(0)) * (x(7) - x(5)) - (x(5) - x(1)) * (x(6) - x(4))) / denominator(w)
}

fn t_b(w: &[u64]) -> f64 {
    let x = |i| real(w, i);
    ((x(4) - x(0)) * (x(3) - x(1)) - (x(5) - x(1)) * (x(2) - x(0))) / denominator(w)
}

pub fn rows() -> Vec<Row> {
    let mut edges = Vec::new();
    // `len2 < 1e-12`, of a point beyond the end.
    for call in [12, 13] {
        let words = reals([1.0, 0.25, 0.0, 0.0, 1e-7, 2e-7]).to_vec();
        edges.push(Edge { call, words, moved: 4, from: 1e-7, to: 1e-5, sides: length_squared, varied: &[5], equal: true });
    }
    // `clamp(0.0, 1.0)`. At an end the clamped t is the end itself, so that `<` and `<=` give the same.
    let beside = |from, to, sides| {
        let words = reals([0.0, 0.3, 0.0, 0.0, 3.0, 1.0]).to_vec();
        Edge { call: 13, words, moved: 0, from, to, sides, varied: &[1], equal: true }
    };
    edges.push(beside(-0.2, 0.0, |w| (along(w), 0.0)));
    edges.push(beside(3.0, 3.4, |w| (along(w), 1.0)));
    // `denom.abs() < 1e-12`.
    for sign in [1.0, -1.0] {
        let sides = |w: &[u64]| (denominator(w).abs(), 1e-12);
        let (from, to) = (sign * 1e-13, sign * 1e-11);
        let lines = reals([0.0, 0.0, 1.0, 0.0, 2.0, 0.0, 3.0, from]).to_vec();
        edges.push(Edge { call: 14, words: lines, moved: 7, from, to, sides, varied: &[], equal: true });
        let segments = [&reals([0.0, 0.0, 1.0, 0.0, 0.5, 0.0, 1.5, from])[..], &[4]].concat();
        edges.push(Edge { call: 15, words: segments, moved: 7, from, to, sides, varied: &[], equal: true });
    }
    // `-eps..=1.0 + eps` of both parameters, eps = 1e-9. The position has the t_a that is not clamped. One unit more or less of eps is
    // lost in 1.0 + eps.
    let first = |from, to, sides| {
        let words = [&reals([0.0, 0.0, 1.0, 0.0, from, 0.0, 0.25, 1.0])[..], &[4]].concat();
        Edge { call: 15, words, moved: 4, from, to, sides, varied: &[], equal: true }
    };
    edges.push(first(-1e-8, 0.0, |w| (t_a(w), -1e-9)));
    edges.push(first(1.0, 1.1, |w| (t_a(w), 1.0 + 1e-9)));
    let second = |from, to, sides| {
        let words = [&reals([from, 0.0, 0.25, 1.0, 0.0, 0.0, 1.0, 0.0])[..], &[4]].concat();
        Edge { call: 15, words, moved: 0, from, to, sides, varied: &[], equal: true }
    };
    edges.push(second(-1e-8, 0.0, |w| (t_b(w), -1e-9)));
    edges.push(second(1.0, 1.1, |w| (t_b(w), 1.0 + 1e-9)));
    edges.into_iter().flat_map(Edge::rows).collect()
}
