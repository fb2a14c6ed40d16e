//! Inputs for the calls: ordinary ones and those at which a rule turns. Some are beyond the limits or no numbers at all.
use crate::calls::{limits, need, Arcs, Call};
use crate::search::{implicit, last_sample};
use crate::{oracle, original, Random};
use arcs::{vect2d, Arc, Param};
use std::f64::consts::{FRAC_PI_4, TAU};

const COORDINATE: f64 = 1_048_576.0;
const ANGLE: f64 = 1_024.0;

fn signed(r: &mut Random, size: f64) -> f64 {
    if r.below(2) == 0 { size } else { -size }
}

/// 2 to the power of minus something below n.
fn small(r: &mut Random, n: u64) -> f64 {
    2f64.powi(-(r.below(n) as i32))
}

/// A number of any size up to the limit.
fn any(r: &mut Random, limit: f64) -> f64 {
    let size = match r.below(10) {
        0 => 0.0,
        1 => limit,
        2 => f64::from_bits(limit.to_bits() - 1),
        3 => r.below(9) as f64,
        4 => r.below(17) as f64 * FRAC_PI_4,
        5 => small(r, 1075),
        6 => r.within(limit),
        7 => r.within(1.0) * small(r, 40),
        _ => r.within(100.0),
    };
    signed(r, size)
}

/// Nothing, or an offset from the last place up to the size itself.
fn nudge(r: &mut Random, size: f64) -> f64 {
    if r.below(3) == 0 { 0.0 } else { r.within(size) * small(r, 60) }
}

fn angle(r: &mut Random) -> f64 {
    match r.below(4) {
        0 => signed(r, 0.0),
        1 => r.below(33) as f64 * FRAC_PI_4 - 2.0 * TAU,
        2 => any(r, ANGLE),
        _ => r.within(3.2),
    }
}

fn radius(r: &mut Random, scale: f64) -> f64 {
    match r.below(12) {
        0 => 0.0,
        1 => -scale,
        2 => 1e-12 * (1.0 + r.within(1.0)),
        3 => any(r, COORDINATE),
        4 => 1.0 + r.below(5) as f64,
        _ => scale * (0.6 + r.within(0.5)),
    }
}

fn point(r: &mut Random, scale: f64) -> vect2d {
    match r.below(6) {
        0 => vect2d::new(0.0, 0.0),
        1 => vect2d::new(r.below(9) as f64 - 4.0, r.below(9) as f64 - 4.0),
        2 => vect2d::new(any(r, COORDINATE), any(r, COORDINATE)),
        _ => vect2d::new(r.within(scale), r.within(scale)),
    }
}

fn scale(r: &mut Random) -> f64 {
    [1.0, 1.0, 100.0, 100.0, 1000.0, 1e-3, 1e-7, 3e5][r.below(8) as usize]
}

fn arc(r: &mut Random) -> Arc {
    let scale = scale(r);
    let a = radius(r, scale);
    let b = if r.below(3) == 0 { a } else { radius(r, scale) };
    let start = angle(r);
    let end = match r.below(7) {
        0 => start,
        1 => start + signed(r, TAU),
        2 => start + nudge(r, 1.0),
        // The hunt of 256 cells leaves a span below 256e-15 alone.
        3 => start + signed(r, 256e-15) * (1.0 + r.within(8.0)),
        4 => angle(r),
        _ => start + r.within(TAU),
    };
    // The direction that the angles have, as a rule.
    let ccw = (end > start) != (r.below(6) == 0);
    Arc {
        center: Param::new(point(r, scale)),
        radius: Param::new(a),
        radius_b: Param::new(b),
        rotation: Param::new(angle(r)),
        start_angle: Param::new(start),
        end_angle: Param::new(end),
        closed: r.below(2) == 0,
        is_ellipse: r.below(2) == 0,
        ccw,
    }
}

/// By the root, which every machine rounds alike; `hypot` is a library's own.
fn distance(p: vect2d, q: vect2d) -> f64 {
    let (x, y) = (q.x - p.x, q.y - p.y);
    (x * x + y * y).sqrt()
}

fn plus(p: vect2d, x: f64, y: f64) -> vect2d {
    vect2d::new(p.x + x, p.y + y)
}

/// A point of the curve and the direction there. The original's angles serve: nothing is compared here.
fn on_curve(r: &mut Random, a: &Arc) -> (vect2d, vect2d) {
    let t = match r.below(5) {
        0 => a.start_angle.value,
        1 => a.end_angle.value,
        2 => r.below(8) as f64 * FRAC_PI_4,
        _ => r.within(3.2),
    };
    let own = original::Arc::from(*a);
    let (p, d) = (own.point_at(t), own.tangent_at(t));
    (vect2d::new(p.x, p.y), vect2d::new(d.x, d.y))
}

/// An arc that has to do with another one.
fn related(r: &mut Random, a: &Arc) -> Arc {
    let mut b = *a;
    let (c, ra) = (a.center.value, a.radius.value);
    match r.below(10) {
        0 => {}
        1 => b.radius.value = radius(r, ra),
        2 | 3 => {
            // Touching from without or from within, or nearly.
            let rb = ra * (0.1 + r.within(0.9).abs());
            let far = if r.below(2) == 0 { ra + rb } else { ra - rb };
            let at = angle(r);
            let far = far + nudge(r, ra);
            b.center.value = if r.below(2) == 0 { plus(c, far, 0.0) } else { plus(c, far * at.cos(), far * at.sin()) };
            (b.radius.value, b.radius_b.value) = (rb, rb);
        }
        4 | 5 => {
            // A small hole on the rim.
            let hole = ra * small(r, 12);
            b.center.value = on_curve(r, a).0;
            (b.radius.value, b.radius_b.value) = (hole, hole * (1.0 + nudge(r, 0.5)));
        }
        6 => {
            // The same curve, with the axes exchanged.
            (b.radius.value, b.radius_b.value) = (a.radius_b.value, a.radius.value);
            b.rotation.value += TAU / 4.0;
        }
        7 => b.center.value = plus(c, nudge(r, ra), nudge(r, ra)),
        8 => {
            (b.start_angle.value, b.end_angle.value) = (angle(r), angle(r));
            b.ccw = !a.ccw;
        }
        _ => {
            b = arc(r);
            (b.radius.value, b.radius_b.value) = (radius(r, ra), radius(r, ra));
            b.center.value = plus(c, r.within(2.0 * ra), r.within(2.0 * ra));
        }
    }
    if r.below(3) == 0 {
        b.closed = !a.closed;
    }
    b
}

/// Two arcs, one at least an ellipse, that meet at the last sample of the first: the inside-outside value there is 0.
fn meeting(r: &mut Random) -> [Arc; 2] {
    loop {
        let (mut a, mut b) = (arc(r), arc(r));
        if !a.is_ellipse && !b.is_ellipse {
            a.is_ellipse = true;
        }
        let last = oracle::Arc::from(a).point_at(last_sample(&a.into()));
        // Directions whose squares add up to 1 without rounding, or nearly.
        let (x, y) = [(1.0, 0.0), (0.0, 1.0), (0.6, 0.8), (0.8, 0.6)][r.below(4) as usize];
        if r.below(4) != 0 {
            b.rotation.value = 0.0;
        }
        let (ra, rb) = oracle::arc_radii(&b.into());
        b.center.value = vect2d::new(last.x - signed(r, x) * ra, last.y - signed(r, y) * rb);
        if r.below(2) == 0 {
            // Two edges with a common end.
            let at = oracle::arc_theta_of_pos(&b.into(), last);
            let other = at + r.within(3.2);
            (b.start_angle.value, b.end_angle.value) = if r.below(2) == 0 { (at, other) } else { (other, at) };
        }
        if implicit(&b.into(), last) == 0.0 {
            return [a, b];
        }
    }
}

fn point_about(r: &mut Random, a: &Arc) -> vect2d {
    let (c, size) = (a.center.value, a.radius.value);
    match r.below(8) {
        0 => c,
        1 => plus(c, nudge(r, size), nudge(r, size)),
        2 => on_curve(r, a).0,
        3 => {
            let p = on_curve(r, a).0;
            plus(p, nudge(r, size), nudge(r, size))
        }
        4 => plus(c, r.within(2.0) * size, 0.0),
        5 => point(r, 100.0),
        _ => plus(c, r.within(2.0) * size, r.within(2.0) * size),
    }
}

/// The ends of a segment that touches the curve, or nearly.
fn tangent_segment(r: &mut Random, a: &Arc) -> [vect2d; 2] {
    let (p, d) = on_curve(r, a);
    let p = plus(p, nudge(r, a.radius.value), nudge(r, a.radius.value));
    let (before, after) = (r.within(2.0), r.within(2.0));
    [plus(p, d.x * before, d.y * before), plus(p, d.x * after, d.y * after)]
}

/// A point that has to do with earlier ones: equal to one, beside it, level with it, in line with two.
fn point_after(r: &mut Random, earlier: &[vect2d], scale: f64) -> vect2d {
    if earlier.is_empty() {
        return point(r, scale);
    }
    let p = earlier[r.below(earlier.len() as u64) as usize];
    let q = earlier[r.below(earlier.len() as u64) as usize];
    match r.below(9) {
        0 => p,
        1 => plus(p, nudge(r, scale), nudge(r, scale)),
        2 => plus(p, r.within(scale), 0.0),
        3 => plus(p, 0.0, r.within(scale)),
        4 => {
            let k = r.within(2.0);
            vect2d::new(p.x + k * (q.x - p.x) + nudge(r, scale), p.y + k * (q.y - p.y))
        }
        _ => point(r, scale),
    }
}

/// A direction: of any length, along an axis or a chord, or mirroring an earlier one.
fn direction(r: &mut Random, points: &[vect2d], earlier: &[vect2d]) -> vect2d {
    let chord = plus(points[1], -points[0].x, -points[0].y);
    let length = if r.below(4) == 0 { small(r, 20) } else { 1.0 };
    let at = r.within(3.2);
    match (r.below(8), earlier.first()) {
        (0, _) => chord,
        (1, _) => vect2d::new(length, 0.0),
        (2, _) => vect2d::new(0.0, signed(r, length)),
        (3, _) => vect2d::new(any(r, COORDINATE), any(r, COORDINATE)),
        (4, Some(d)) => vect2d::new(-d.x, -d.y),
        (5 | 6, Some(d)) => {
            // As an arc that is symmetric about the middle of the chord leaves it.
            let k = 2.0 * (d.x * chord.x + d.y * chord.y) / (chord.x * chord.x + chord.y * chord.y).max(1e-30);
            vect2d::new(k * chord.x - d.x, k * chord.y - d.y)
        }
        _ => vect2d::new(length * at.cos(), length * at.sin()),
    }
}

/// What the letters of a call are filled with.
struct Drawing {
    arcs: Vec<Arc>,
    points: Vec<vect2d>,
    directions: Vec<vect2d>,
}

fn drawing(call: &Call, r: &mut Random) -> Drawing {
    let count = |letters: &str| call.takes.chars().filter(|&c| letters.contains(c)).count();
    let mut arcs = Vec::new();
    if call.arcs == Arcs::Meeting {
        arcs.extend(meeting(r));
    }
    while arcs.len() < count("AK") {
        let next = match arcs.first() {
            Some(first) if r.below(4) != 0 => related(r, first),
            _ => arc(r),
        };
        arcs.push(next);
    }
    if call.arcs == Arcs::Solved {
        arcs.iter_mut().for_each(|a| a.is_ellipse = false);
    } else if call.arcs == Arcs::Searched && !arcs.iter().any(|a| a.is_ellipse) {
        let one = r.below(2) as usize;
        arcs[one].is_ellipse = true;
    }
    let scale = scale(r);
    let mut points = Vec::new();
    match arcs.first() {
        Some(a) if r.below(3) == 0 => points.extend(tangent_segment(r, a)),
        Some(a) => points.extend([point_about(r, a), point_about(r, a)]),
        None => (0..count("p")).for_each(|_| points.push(point_after(r, &points, scale))),
    }
    let mut directions = Vec::new();
    for _ in 0..count("v") {
        directions.push(direction(r, &points, &directions));
    }
    Drawing { arcs, points, directions }
}

fn angle_for(r: &mut Random, arcs: &[Arc]) -> f64 {
    match (arcs.first(), r.below(4)) {
        (Some(a), 0) => a.start_angle.value + nudge(r, 1.0),
        // The slack of a span is 1e-9.
        (Some(a), 1) => a.end_angle.value + signed(r, 1e-9) + nudge(r, 1e-9),
        (Some(a), 2) => a.start_angle.value + r.within(1.0) * (a.end_angle.value - a.start_angle.value),
        _ => angle(r),
    }
}

/// A radius beside the half chord, or a bulge.
fn coordinate_for(r: &mut Random, points: &[vect2d]) -> f64 {
    let half = match points {
        [p, q, ..] => 0.5 * distance(*p, *q),
        _ => 1.0,
    };
    match r.below(6) {
        0 => half,
        1 => any(r, COORDINATE),
        2 => 1e-12 * (1.0 + r.within(1.0)),
        3 => half * (1.0 + r.within(2.0)),
        _ => r.within(2.0),
    }
}

fn push_point(w: &mut Vec<u64>, p: vect2d) {
    w.extend([p.x.to_bits(), p.y.to_bits()]);
}

fn push_arc(w: &mut Vec<u64>, a: &Arc) {
    push_point(w, a.center.value);
    w.extend([a.radius, a.radius_b, a.rotation, a.start_angle, a.end_angle].map(|n| n.value.to_bits()));
    w.push(a.ccw as u64 | (a.closed as u64) << 1 | (a.is_ellipse as u64) << 2);
}

/// A length that is enough, as a rule, or one too few.
fn room(r: &mut Random, need: u64) -> u64 {
    match r.below(12) {
        0 => need - 1,
        1 => r.below(need),
        2 | 3 => need + r.below(9),
        _ => need,
    }
}

/// Puts in a number at its limit or past it, or one that is no number.
fn spoil(call: &Call, r: &mut Random, w: &mut [u64]) {
    let limits = limits(call.takes, w);
    if limits.is_empty() {
        return;
    }
    let (i, limit) = limits[r.below(limits.len() as u64) as usize];
    let size = match r.below(6) {
        0 => f64::from_bits(0x7ff0_0000_0000_0001 + r.below(1 << 52) / 2),
        1 => f64::INFINITY,
        2 => f64::from_bits(limit.to_bits() + 1),
        3 => f64::MAX,
        _ => limit,
    };
    w[i] = signed(r, size).to_bits();
}

/// The words of one call.
pub fn case(call: &Call, r: &mut Random) -> Vec<u64> {
    let Drawing { arcs, points, directions } = drawing(call, r);
    let (mut next_arc, mut next_point, mut next_direction) = (arcs.iter(), points.iter(), directions.iter());
    let mut w = Vec::with_capacity(20);
    for letter in call.takes.chars() {
        match letter {
            'c' => w.push(coordinate_for(r, &points).to_bits()),
            'a' => w.push(angle_for(r, &arcs).to_bits()),
            'p' => push_point(&mut w, *next_point.next().unwrap()),
            'v' => push_point(&mut w, *next_direction.next().unwrap()),
            'A' => push_arc(&mut w, next_arc.next().unwrap()),
            'K' => {
                push_arc(&mut w, next_arc.next().unwrap());
                let at = w.len() - 8;
                if call.arcs == Arcs::Solved && r.below(2) == 0 {
                    let ends = if r.below(3) == 0 { [points[1], points[0]] } else { [points[0], points[1]] };
                    w.truncate(at);
                    ends.iter().for_each(|&p| push_point(&mut w, p));
                    w.extend([0, 0, 0, 8]);
                } else if at == 8 && w[7] == 8 && r.below(2) == 0 {
                    // Beside a segment an ellipse is solved too.
                    w[15] |= 4;
                }
            }
            'f' => w.push(r.below(2)),
            'd' => w.push(match r.below(24) {
                0 => 4,
                1 => u32::MAX as u64 - r.below(2),
                _ => r.below(4),
            }),
            'r' => {
                let need = need(call.takes, &w);
                w.push(room(r, need));
            }
            // Written numbers are handed on whatever they are.
            'x' => w.push(if r.below(8) == 0 { f64::INFINITY } else { any(r, COORDINATE) }.to_bits()),
            _ => {
                // The length of the room comes first and is at most 12.
                let huge = w.len() > 12 && r.below(8) == 0;
                let n = if w.len() == 12 { r.below(13) } else { r.below(6) };
                w.push(if huge { u64::MAX / (1 + r.below(4)) - n } else { n });
            }
        }
    }
    if r.below(12) == 0 {
        spoil(call, r, &mut w);
        if r.below(3) == 0 {
            spoil(call, r, &mut w);
        }
    }
    w
}
