//! The counts of the sampled search, beside a search written from its rules: N cells, halved sixty times where they bracket, one
//! fate for each bracket.
use crate::drawing::{Drawing, Drawn, Random};
use crate::text::geometry::arc_param_in_span;
use crate::text::Arc;
use arcs::{checked, vect2d, Counts, Curve, CurveHit, Param};
use std::f64::consts::TAU;

fn arc(d: &Drawn) -> arcs::Arc {
    arcs::Arc {
        center: Param::new(vect2d::new(d.center[0], d.center[1])),
        radius: Param::new(d.radius),
        radius_b: Param::new(d.radius_b),
        rotation: Param::new(d.rotation),
        start_angle: Param::new(d.start),
        end_angle: Param::new(d.end),
        closed: d.closed,
        is_ellipse: d.is_ellipse,
        ccw: d.ccw,
    }
}

/// The point of `a` at `t`, seen from `b`: in b's frame, where b is the unit circle.
fn seen(a: &Arc, b: &Arc, t: f64) -> (f64, f64) {
    let p = a.point_at(t);
    let (dx, dy) = (p.x - b.center.value.x, p.y - b.center.value.y);
    let (sin, cos) = b.rotation.value.sin_cos();
    let second = if b.is_ellipse { b.radius_b } else { b.radius };
    ((cos * dx + sin * dy) / b.radius.value, (cos * dy - sin * dx) / second.value)
}

/// The angle at which the cell is crossed.
fn halved(g: &impl Fn(f64) -> f64, mut low: f64, mut high: f64) -> f64 {
    for _ in 0..60 {
        let middle = 0.5 * (low + high);
        if g(low) * g(middle) <= 0.0 { high = middle } else { low = middle }
    }
    0.5 * (low + high)
}

/// The parameters of the hits, and the counts.
fn searched(a: &Arc, b: &Arc, depth: u32) -> (Vec<[f64; 2]>, Counts) {
    let start = a.start_angle.value;
    let end = if a.closed { start + TAU } else { a.end_angle.value };
    let cells = 256usize << depth;
    let sample = |i: usize| start + (end - start) / cells as f64 * i as f64;
    let g = |t| { let (x, y) = seen(a, b, t); x * x + y * y - 1.0 };
    let (mut hits, mut counts) = (Vec::<[f64; 2]>::new(), Counts { evaluations: cells + 1, ..Counts::default() });
    for (low, high) in (0..cells).map(|i| (sample(i), sample(i + 1))).filter(|&(low, high)| g(low) == 0.0 || g(low) * g(high) < 0.0) {
        let t = halved(&g, low, high);
        let (x, y) = seen(a, b, t);
        counts.brackets += 1;
        counts.evaluations += 61;
        match (arc_param_in_span(a, t), arc_param_in_span(b, y.atan2(x))) {
            (None, _) => counts.outside_a += 1,
            (_, None) => counts.outside_b += 1,
            (Some(t_a), _) if hits.iter().any(|h| (h[0] - t_a).abs() < 1e-7) => counts.doubles += 1,
            (Some(t_a), Some(t_b)) => hits.push([t_a, t_b]),
        }
    }
    counts.hits = hits.len();
    (hits, counts)
}

/// In four ways: the hits and counts, a lent room, and the same of curves.
fn held(a: &arcs::Arc, b: &arcs::Arc, depth: u32) -> Counts {
    let (hits, counts) = searched(&(*a).into(), &(*b).into(), depth);
    let found = checked::intersect_arcs_at(a, b, depth).unwrap();
    assert_eq!(found.counts, counts, "{a:?} {b:?}");
    assert_eq!(found.hits.len(), hits.len());
    for (hit, [t_a, t_b]) in found.hits.iter().zip(hits) {
        assert!((hit.t_a - t_a).abs() < 1e-10 && (hit.t_b - t_b).abs() < 1e-10, "{a:?} {b:?}");
    }
    let curves = (Curve::from(a), Curve::from(b));
    assert_eq!(checked::intersect(&curves.0, &curves.1, depth), Ok(found.clone()));
    let mut room = vec![0.5; checked::room_for_arcs(a, b, depth)];
    assert_eq!(checked::intersect_arcs_in(a, b, depth, &mut room), Ok(counts));
    assert_eq!(in_room(&room, counts.hits), found.hits);
    room.fill(0.5);
    assert_eq!(checked::intersect_in(&curves.0, &curves.1, depth, &mut room), Ok(counts));
    assert_eq!(in_room(&room, counts.hits), found.hits);
    counts
}

/// The hits of a room in which nothing else was written.
pub fn in_room(room: &[f64], count: usize) -> Vec<CurveHit> {
    let (hits, rest) = room.split_at(4 * count);
    assert!(rest.iter().all(|&x| x == 0.5));
    hits.chunks(4).map(|h| CurveHit { t_a: h[0], t_b: h[1], pos: vect2d::new(h[2], h[3]) }).collect()
}

/// Two ellipses that cross in four points. `a` goes round three times, and of the four `b` has the one up to the right.
fn three_turns() -> (arcs::Arc, arcs::Arc) {
    let a = Drawn { center: [1.5, -2.5], radius: 5.25, radius_b: 3.0, rotation: 0.125, start: 0.25, end: 19.0, closed: false, is_ellipse: true, ccw: true };
    let b = Drawn { center: [1.25, -2.0], radius: 2.75, radius_b: 6.0, rotation: 0.0625, start: 0.1875, end: 1.375, ..a };
    (arc(&a), arc(&b))
}

#[test]
fn six_counts_no_two_alike() {
    let (a, b) = three_turns();
    // One is found, then found twice again; three are outside b, three times each. A bracket takes 61 points.
    let expected = Counts { hits: 1, brackets: 12, outside_a: 0, outside_b: 9, doubles: 2, evaluations: 257 + 12 * 61 };
    assert_eq!(held(&a, &b, 0), expected);
    assert_eq!(held(&a, &b, 2), Counts { evaluations: 1025 + 12 * 61, ..expected });
    // The other way round the span of a is empty.
    let none = Counts { hits: 0, outside_a: 12, outside_b: 0, doubles: 0, ..expected };
    assert_eq!(held(&arcs::Arc { ccw: false, ..a }, &b, 0), none);
    // A whole a goes round once.
    assert_eq!(held(&arcs::Arc { closed: true, ..a }, &b, 0), Counts { brackets: 4, outside_b: 3, doubles: 0, evaluations: 257 + 4 * 61, ..expected });
}

#[test]
fn counts_of_other_pairs() {
    let mut random = Random(2);
    for i in 0..300 {
        let Drawing { a, b, .. } = random.drawing();
        if a.is_ellipse || b.is_ellipse {
            held(&arc(&a), &arc(&b), i % 4);
        }
    }
}
