//! The sampled hunt: pairs of arcs of which one is an ellipse, calls 11 and 12.
use super::edge::Edge;
use super::{arc, circle, of, real, row, CCW, CLOSED, ELLIPSE, Row};
use crate::calls::bow;
use crate::oracle::arc_radii;
use crate::search::{implicit, narrowed, search};
use std::f64::consts::{FRAC_PI_2, PI, TAU};

/// A room that is enough at every depth.
const ROOM: u64 = 8192;

fn pair(a: [u64; 8], b: [u64; 8], depth: u64) -> Vec<u64> {
    [&a[..], &b, &[depth, ROOM]].concat()
}

fn ellipse(x: f64, y: f64, a: f64, b: f64) -> [u64; 8] {
    arc([x, y, a, b, 0.0, 0.0, 0.0], CCW | CLOSED | ELLIPSE)
}

/// How far the angles of the first two brackets are apart.
fn nearness(w: &[u64]) -> (f64, f64) {
    let angles = narrowed(&bow(w, 0), &bow(w, 8), 0).0;
    ((angles[0] - angles[1]).abs(), 1e-7)
}

fn step(w: &[u64]) -> (f64, f64) {
    (((real(w, 6) - real(w, 5)) / 256.0).abs(), 1e-15)
}

fn edges() -> Vec<Edge> {
    let mut edges = Vec::new();
    let edge = |words, moved, from, to, sides, varied| Edge { call: 17, words, moved, from, to, sides, varied, equal: true };
    // `rb_a < 1e-12 || rb_b < 1e-12`, each alone, and of a circle both.
    let first = |w: &[u64]| (arc_radii(&bow(w, 8)).0, 1e-12);
    let second = |w: &[u64]| (arc_radii(&bow(w, 8)).1, 1e-12);
    edges.push(edge(pair(ellipse(0.0, 0.0, 2.0, 1.0), ellipse(0.0, 0.0, 1.0, 3.0), 0), 10, 1e-13, 1e-11, first, &[]));
    edges.push(edge(pair(ellipse(0.0, 0.0, 2.0, 1.0), ellipse(0.0, 0.0, 3.0, 1.0), 0), 11, 1e-13, 1e-11, second, &[]));
    edges.push(edge(pair(ellipse(0.0, 0.0, 2.0, 1.0), circle(2.0, 0.0, 1.0), 0), 10, 1e-13, 1e-11, first, &[]));
    // `step.abs() < 1e-15`, with the step of depth 0 at every depth, and in both directions.
    for depth in 0..4 {
        let short = arc([0.0, 0.0, 2.0, 1.0, 0.0, 0.0, 1e-14], CCW | ELLIPSE);
        edges.push(edge(pair(short, circle(2.0, 0.0, 1.0), depth), 6, 1e-14, 1e-12, step, &[]));
    }
    let back = arc([0.0, 0.0, 2.0, 1.0, 0.0, 0.0, -1e-14], ELLIPSE);
    edges.push(edge(pair(back, circle(2.0, 0.0, 1.0), 0), 6, -1e-14, -1e-12, step, &[]));
    // `(h.t_a - ta).abs() < 1e-7`: a hole of that width near the arc's start, where angles are fine enough for equality.
    let thin = arc([0.0, 0.0, 1.0, 1.0, 0.0, 0.0, 2e-7], CCW | ELLIPSE);
    edges.push(edge(pair(thin, circle(1.0, 5.5e-8, 5e-8), 0), 10, 4.9e-8, 5.1e-8, nearness, &[9]));
    edges
}

/// Circles that touch a closed arc at a sample whose last bit tells the span, which is what is left of TAU after it was added to the
/// start, from TAU itself.
fn touching_samples() -> Vec<Row> {
    let mut rows = Vec::new();
    for start in [1000.3, -1000.3, 77.7] {
        let a = arc([0.0, 0.0, 1.0, 1.0, 0.0, start, 0.0], CCW | CLOSED | ELLIPSE);
        let samples = |span: f64| (1..256).map(move |i| start + span / 256.0 * i as f64);
        let told_apart = samples(start + TAU - start).zip(samples(TAU)).filter(|(t, u)| t != u);
        let touching = told_apart.map(|(t, _)| {
            let p = bow(&a, 0).point_at(t);
            (circle(2.0 * p.x, 2.0 * p.y, 1.0), p)
        });
        let zero = touching.filter(|(b, p)| implicit(&bow(b, 0), *p) == 0.0);
        rows.extend(zero.take(3).map(|(b, _)| of(17, pair(a, b, 0))));
    }
    assert!(rows.len() > 3);
    rows
}

pub fn rows() -> Vec<Row> {
    let mut rows: Vec<Row> = edges().into_iter().flat_map(Edge::rows).collect();
    rows.extend(touching_samples());
    let mut push = |a: [u64; 8], b: [u64; 8], depth: u64| rows.push(of(17, pair(a, b, depth)));
    for depth in 0..4 {
        // 01's gasket pair, and the hole first.
        let (flange, relief) = (ellipse(0.0, 0.0, 1000.0, 1000.0), circle(999.9247, 12.2715, 10.0));
        push(flange, relief, depth);
        push(relief, flange, depth);
        // Sample 0 is the start itself: start + step * 0 could differ from it in the sign of a zero alone, and that goes nowhere.
        // Sample values that are 0: at the start, which brackets; at a later sample, which brackets once, from its own cell on; and
        // at the last, which counts only as the end of its cell, and from depth 1 on brackets there.
        push(ellipse(0.0, 0.0, 1.0, 1.0), circle(2.0, 0.0, 1.0), depth);
        push(arc([0.0, 0.0, 1.0, 1.0, 0.0, -1.0, 1.0], CCW | ELLIPSE), circle(2.0, 0.0, 1.0), depth);
        push(arc([0.0, 0.0, 1.0, 1.0, 0.0, -1.0, 0.0], CCW | ELLIPSE), circle(2.0, 0.0, 1.0), depth);
        push(arc([0.0, 0.0, 1.0, 1.0, 0.0, 0.0, 1.0], CCW | ELLIPSE), circle(1.0, 1.0, 1.0), depth);
        // P11: an edge that ends on the rim of a round. Then the round first; the edge from the other side, clockwise; the edge turned
        // round, so that it begins on the rim.
        let (edge, round) = (arc([0.0, 0.0, 2.0, 1.0, 0.0, -1.0, 0.0], CCW | ELLIPSE), circle(2.0, 1.0, 1.0));
        push(edge, round, depth);
        push(round, edge, depth);
        push(arc([0.0, 0.0, 2.0, 1.0, 0.0, 1.0, 0.0], ELLIPSE), circle(2.0, -1.0, 1.0), depth);
        push(arc([0.0, 0.0, 2.0, 1.0, 0.0, 0.0, -1.0], ELLIPSE), round, depth);
        // The round's own span begins at the edge's end, ends there, and does not have it.
        push(edge, arc([2.0, 1.0, 1.0, 1.0, 0.0, -FRAC_PI_2, 0.0], CCW), depth);
        push(edge, arc([2.0, 1.0, 1.0, 1.0, 0.0, -PI, -FRAC_PI_2], CCW), depth);
        push(edge, arc([2.0, 1.0, 1.0, 1.0, 0.0, 0.0, 1.0], CCW), depth);
        // The edge runs against its direction, so that its end is outside its own span.
        push(arc([0.0, 0.0, 2.0, 1.0, 0.0, -1.0, 0.0], ELLIPSE), round, depth);
        // A last cell that begins at 0 and ends at 0 is one bracket: cells of 2^-28, at whose size the square of the sine is lost.
        let fine = ((256 << depth) as f64) * 2f64.powi(-28);
        push(arc([0.0, 0.0, 1.0, 1.0, 0.0, -fine, 0.0], CCW | ELLIPSE), circle(2.0, 0.0, 1.0), depth);
        // A crossing at an angle so small that 60 halvings do not use up its bits.
        push(arc([0.0, 0.0, 2.0, 1.0, 0.0, -1.0, 1.5], CCW | ELLIPSE), ellipse(0.0, 3.0000001, 4.0, 3.0), depth);
        push(arc([0.0, 0.0, 1.0, 1.0, 0.0, -0.7, 1.1], CCW | ELLIPSE), circle(1.0, 1.0 + 1e-9, 1.0), depth);
        // A closed arc that starts far from 0.
        push(arc([0.0, 0.0, 2.0, 1.0, 0.25, 1000.3, 0.0], CLOSED | ELLIPSE), circle(1.5, 0.0, 1.0), depth);
        push(arc([0.0, 0.0, 2.0, 1.0, 0.25, -1000.3, 7.0], CCW | CLOSED | ELLIPSE), circle(1.5, 0.0, 1.0), depth);
        // Both outside: a's test comes first. a runs against its own direction, b is short.
        push(arc([0.0, 0.0, 2.0, 1.0, 0.0, 0.0, 3.0], ELLIPSE), arc([1.5, 0.5, 1.0, 1.0, 0.0, 0.0, 0.01], CCW), depth);
        // Outside b alone, and a's own slack at its end.
        push(arc([0.0, 0.0, 2.0, 1.0, 0.0, 0.0, 3.0], CCW | ELLIPSE), arc([1.5, 0.5, 1.0, 1.0, 0.0, 0.0, 0.01], CCW), depth);
        push(arc([0.0, 0.0, 2.0, 1.0, 0.0, 3.0, 0.0], CCW | ELLIPSE), circle(1.5, 0.5, 1.0), depth);
        push(arc([0.0, 0.0, 2.0, 1.0, 0.0, 3.0, 0.0], ELLIPSE), circle(1.5, 0.5, 1.0), depth);
        // A double that is outside b as well is outside b.
        push(arc([0.0, 0.0, 1.0, 1.0, 0.0, 0.0, 2e-7], CCW | ELLIPSE), arc([1.0, 4e-8, 4e-8, 4e-8, 0.0, -2.0, 1.0], CCW), depth);
        push(arc([0.0, 0.0, 1.0, 1.0, 0.0, 0.0, 2e-7], CCW | ELLIPSE), arc([1.0, 4e-8, 4e-8, 4e-8, 0.0, 1.0, 2.0], CCW), depth);
        push(arc([0.0, 0.0, 1.0, 1.0, 0.0, 0.0, 2e-7], CCW | ELLIPSE), circle(1.0, 4e-8, 4e-8), depth);
    }
    // The slack of both spans: a's end and b's end at the crossing.
    for o in [-5e-10, 5e-10, 0.9e-9, 1.1e-9] {
        push(arc([0.0, 0.0, 5.0, 5.0, 0.0, FRAC_PI_2, PI + o], CCW | ELLIPSE), circle(-5.0, 0.1, 0.1), 0);
        let found = search(&bow(&ellipse(0.0, 0.0, 5.0, 5.0), 0), &bow(&circle(6.0, 0.0, 5.0), 0), 0).0[0];
        let [first, last] = [found.t_b - 1.0, found.t_b + o];
        push(ellipse(0.0, 0.0, 5.0, 5.0), arc([6.0, 0.0, 5.0, 5.0, 0.0, first, last], CCW), 0);
        push(ellipse(0.0, 0.0, 5.0, 5.0), arc([6.0, 0.0, 5.0, 5.0, 0.0, found.t_b - o, found.t_b + 1.0], CCW), 0);
    }
    // A circle for a and an ellipse for b are searched too; both partial, of every mark.
    for marks in 0..4 {
        push(arc([0.0, 0.0, 2.0, 1.0, 0.3, -1.0, 2.0], marks), arc([1.0, 0.0, 2.0, 0.5, 0.7, -2.0, 2.0], marks | ELLIPSE), 0);
        push(arc([0.0, 0.0, 2.0, 1.0, 0.3, 2.0, -1.0], marks | ELLIPSE), arc([1.0, 0.0, 2.0, 0.5, 0.7, 2.0, -2.0], marks), 1);
    }
    push(arc([0.0, 0.0, 2.0, 1.0, 0.0, 0.0, TAU], CCW | ELLIPSE), circle(2.0, 0.0, 1.0), 0);
    let mut by_curves: Vec<Row> = rows.iter().step_by(7).map(|r| row(18, &[&r.words])).collect();
    rows.append(&mut by_curves);
    rows
}
