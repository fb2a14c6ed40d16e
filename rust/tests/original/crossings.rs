//! Crossings worked out by hand, in a lent room and of curves of either kind; how much room each pair needs.
use crate::hunt::in_room;
use arcs::{checked, geometry, vect2d, Arc, Counts, Curve, CurveHit, Refusal};

fn at(x: f64, y: f64) -> vect2d {
    vect2d::new(x, y)
}

/// Numbers t_a, t_b, x, y.
fn hit([t_a, t_b, x, y]: [f64; 4]) -> CurveHit {
    CurveHit { t_a, t_b, pos: at(x, y) }
}

fn near(found: &[CurveHit], expected: &[[f64; 4]]) -> bool {
    let close = |h: &CurveHit, e: &[f64; 4]| [h.t_a, h.t_b, h.pos.x, h.pos.y].iter().zip(e).all(|(x, y)| (x - y).abs() < 1e-12);
    found.len() == expected.len() && found.iter().zip(expected).all(|(h, e)| close(h, e))
}

fn turned(hits: &[[f64; 4]]) -> Vec<[f64; 4]> {
    hits.iter().map(|&[t_a, t_b, x, y]| [t_b, t_a, x, y]).collect()
}

fn only_hits(hits: usize) -> Counts {
    Counts { hits, ..Counts::default() }
}

/// The curves' hits, and the same in a room that is just long enough; one number less is refused.
fn found(a: &Curve, b: &Curve, need: usize) -> Vec<CurveHit> {
    let found = checked::intersect(a, b, 0).unwrap();
    assert_eq!((found.counts, checked::room_for(a, b, 0)), (only_hits(found.hits.len()), need));
    let mut room = vec![0.5; need];
    assert_eq!(checked::intersect_in(a, b, 0, &mut room), Ok(found.counts));
    assert_eq!(in_room(&room, found.counts.hits), found.hits);
    assert_eq!(checked::intersect_in(a, b, 0, &mut room[1..]), Err(Refusal::RoomTooShort));
    assert_eq!(in_room(&room, found.counts.hits), found.hits);
    found.hits
}

/// They cross at (4.5, 2.25), a quarter of (8, 4) from the first end of one and five eighths of (-2, 10) from that of the other.
const A: [[f64; 2]; 2] = [[2.5, 1.25], [10.5, 5.25]];
const B: [[f64; 2]; 2] = [[5.75, -4.0], [3.75, 6.0]];
const CROSSED: [f64; 4] = [0.25, 0.625, 4.5, 2.25];

#[test]
fn two_segments() {
    let ([a1, a2], [b1, b2]) = (A.map(|[x, y]| at(x, y)), B.map(|[x, y]| at(x, y)));
    assert_eq!(geometry::intersect_segments(a1, a2, b1, b2), Some(hit(CROSSED)));
    assert_eq!(checked::intersect_segments(a1, a2, b1, b2), Ok(Some(hit(CROSSED))));
    let mut room = [0.5; 7];
    assert_eq!(checked::intersect_segments_in(a1, a2, b1, b2, &mut room), Ok(1));
    assert_eq!(in_room(&room, 1), [hit(CROSSED)]);
    let (a, b) = (Curve::Segment(a1, a2), Curve::Segment(b1, b2));
    assert_eq!(found(&a, &b, 4), [hit(CROSSED)]);
    assert_eq!(found(&b, &a, 4), turned(&[CROSSED]).into_iter().map(hit).collect::<Vec<_>>());
}

/// About (1, -2) with radius 5, which passes (4, 2) and (-3, 1).
fn round() -> Arc {
    Arc::circle(at(1.0, -2.0), 5.0)
}

#[test]
fn a_segment_and_an_arc() {
    // From a quarter of it before (4, 2) to twice as much after (-3, 1).
    let (p, q) = (at(11.0, 3.0), at(-17.0, -1.0));
    let expected = [[0.25, f64::atan2(4.0, 3.0), 4.0, 2.0], [0.5, f64::atan2(3.0, -4.0), -3.0, 1.0]];
    assert!(near(&geometry::intersect_segment_arc(p, q, &round()), &expected));
    assert!(near(&checked::intersect_segment_arc(p, q, &round()).unwrap(), &expected));
    let mut room = [0.5; 11];
    assert_eq!(checked::intersect_segment_arc_in(p, q, &round(), &mut room), Ok(2));
    assert!(near(&in_room(&room, 2), &expected));
    let (segment, arc) = (Curve::Segment(p, q), Curve::from(&round()));
    assert!(near(&found(&segment, &arc, 8), &expected));
    assert!(near(&found(&arc, &segment, 8), &turned(&expected)));
}

#[test]
fn two_circles() {
    // Both pass (4, 2): (3, 4) from one centre, (5, -12) from the other. The second crossing is the first in the mirror of the line
    // through the centres, along (-2, 16).
    let other = Arc::circle(at(-1.0, 14.0), 13.0);
    let [x, y]: [f64; 2] = [-232.0 / 260.0 - 3.0, 1856.0 / 260.0 - 4.0];
    let expected = [
        [y.atan2(x), (y - 16.0).atan2(x + 2.0), 1.0 + x, y - 2.0],
        [f64::atan2(4.0, 3.0), f64::atan2(-12.0, 5.0), 4.0, 2.0],
    ]
    .map(|[t_a, t_b, x, y]| [t_a, t_b.rem_euclid(std::f64::consts::TAU), x, y]);
    assert!(near(&geometry::intersect_arcs(&round(), &other), &expected));
    assert!(near(&checked::intersect_arcs(&round(), &other).unwrap(), &expected));
    assert!(near(&checked::intersect_arcs_at(&round(), &other, 3).unwrap().hits, &expected));
    let mut room = [0.5; 9];
    assert_eq!(checked::intersect_arcs_in(&round(), &other, 0, &mut room), Ok(only_hits(2)));
    assert!(near(&in_room(&room, 2), &expected));
    assert!(near(&found(&Curve::from(&round()), &Curve::from(&other), 8), &expected));
}

#[test]
fn one_hit_of_a_room() {
    let room = [0.5, 1.5, 2.5, 3.5, 4.5, 5.5, 6.5, 7.5, 8.5];
    assert_eq!(checked::hit(&room, 2, 0), Some(hit([0.5, 1.5, 2.5, 3.5])));
    assert_eq!(checked::hit(&room, 2, 1), Some(hit([4.5, 5.5, 6.5, 7.5])));
    assert_eq!([checked::hit(&room, 1, 1), checked::hit(&room, 0, 0), checked::hit(&room, 9, 2), checked::hit(&[], 1, 0)], [None; 4]);
}

#[test]
fn the_need_of_each_pair() {
    let (segment, circle) = (Curve::Segment(at(0.0, 1.0), at(2.0, 3.0)), Curve::from(&round()));
    let ellipse = Curve::from(&Arc::ellipse(at(1.0, 2.0), 3.0, 4.0, 0.5));
    for (depth, ellipse_need) in [(0, 1024), (1, 2048), (2, 4096), (3, 8192)] {
        let need = |a, b| checked::room_for(a, b, depth);
        assert_eq!([need(&segment, &segment), need(&segment, &circle), need(&ellipse, &segment), need(&circle, &circle)], [4, 8, 8, 8]);
        assert_eq!([need(&ellipse, &circle), need(&circle, &ellipse), need(&ellipse, &ellipse)], [ellipse_need; 3]);
    }
    assert_eq!(checked::room_for_arcs(&round(), &round(), u32::MAX), 8);
}
