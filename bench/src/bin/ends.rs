//! Edges of ellipses that end on a circle, and how many of them the hunt finds at their end, depth by depth. `bench/run ends [SEED]`
//!
//! Two kinds. Typed: every length is a multiple of an eighth, the edge ends at a quarter of a turn, and the circle is put so that its
//! rim goes through the point where the edge ends. Cut: a whole ellipse is asked against a circle, and ends with the parameter of a
//! hit, as a drafting program cuts it. That parameter is rounded, so that the edge's last point lies on the circle, past it or short
//! of it by a hair: its inside-outside value there says which. Nothing is held against anything here; the table is for a drafter.
use arcs::{checked, vect2d, Arc, Param};
use bench::search::{implicit, last_sample};
use bench::{oracle, seed, Random};
use std::f64::consts::FRAC_PI_2;

const EDGES: usize = 20_000;

/// A multiple of an eighth.
fn eighths(r: &mut Random, least: u64, most: u64) -> f64 {
    (least + r.below(most - least + 1)) as f64 / 8.0
}

fn signed(r: &mut Random, x: f64) -> f64 {
    if r.below(2) == 0 { x } else { -x }
}

/// The part of an ellipse that ends at an angle, one radian long.
fn edge_of(whole: Arc, end: f64) -> Arc {
    Arc { closed: false, start_angle: Param::new(end - 1.0), end_angle: Param::new(end), ..whole }
}

fn end_of(edge: &Arc) -> oracle::vect2d {
    oracle::Arc::from(*edge).point_at(last_sample(&(*edge).into()))
}

fn ellipse(r: &mut Random) -> Arc {
    let center = vect2d::new(eighths(r, 0, 1600) - 100.0, eighths(r, 0, 1600) - 100.0);
    Arc::ellipse(center, eighths(r, 8, 800), eighths(r, 8, 800), 0.0)
}

fn typed(r: &mut Random) -> (Arc, Arc) {
    let whole = ellipse(r);
    let (c, rx, ry) = (whole.center.value, whole.radius.value, whole.radius_b.value);
    let (quarter, x, y) = [(0.0, rx, 0.0), (1.0, 0.0, ry), (2.0, -rx, 0.0), (3.0, 0.0, -ry)][r.below(4) as usize];
    // A side of a triangle of 3, 4 and 5, so that the rim goes through the point without rounding.
    let k = eighths(r, 1, 100);
    let (dx, dy, radius) = [(5.0, 0.0, 5.0), (0.0, 5.0, 5.0), (3.0, 4.0, 5.0), (4.0, 3.0, 5.0)].map(|(x, y, z)| (k * x, k * y, k * z))[r.below(4) as usize];
    let round = Arc::circle(vect2d::new(c.x + x + signed(r, dx), c.y + y + signed(r, dy)), radius);
    (edge_of(whole, quarter * FRAC_PI_2), round)
}

fn cut(r: &mut Random) -> (Arc, Arc) {
    loop {
        let whole = Arc { rotation: Param::new(r.within(1.5)), ..ellipse(r) };
        let c = whole.center.value;
        let round = Arc::circle(vect2d::new(c.x + r.within(100.0), c.y + r.within(100.0)), eighths(r, 8, 800));
        let hits = checked::intersect_arcs_at(&whole, &round, 1).unwrap().hits;
        if !hits.is_empty() {
            return (edge_of(whole, hits[r.below(hits.len() as u64) as usize].t_a), round);
        }
    }
}

#[derive(Default)]
struct Row {
    edges: usize,
    found: [usize; 4],
}

fn tried(words: &str, r: &mut Random, one: fn(&mut Random) -> (Arc, Arc)) {
    let mut rows: [Row; 3] = Default::default();
    for _ in 0..EDGES {
        let (edge, round) = one(r);
        let end = end_of(&edge);
        let value = |t: f64| implicit(&round.into(), oracle::Arc::from(edge).point_at(t));
        let (last, before) = (implicit(&round.into(), end), value(edge.end_angle.value - 1e-6));
        let row = &mut rows[if last == 0.0 { 0 } else if last * before < 0.0 { 1 } else { 2 }];
        row.edges += 1;
        for depth in 0..4 {
            let hits = checked::intersect_arcs_at(&edge, &round, depth).unwrap().hits;
            // Where the two touch, values are 0 for a while before the end, and the point lies there.
            let near = |h: &arcs::CurveHit| (h.pos.x - end.x).abs() < 1e-4 && (h.pos.y - end.y).abs() < 1e-4;
            row.found[depth as usize] += hits.iter().any(near) as usize;
        }
    }
    for (place, row) in ["on the circle", "past it", "short of it"].iter().zip(rows) {
        let found: String = row.found.iter().map(|n| format!(" {n} |")).collect();
        println!("| {words} | {place} | {} |{found}", row.edges);
    }
}

fn main() {
    let r = &mut Random(seed());
    println!("| edges | their end | how many | found at depth 0 | 1 | 2 | 3 |\n|---|---|---|---|---|---|---|");
    tried("typed", r, typed);
    tried("cut at a hit", r, cut);
}
