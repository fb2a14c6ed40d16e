//! The checked drawings P1 to P11 and the refusals, through both modules.
use arcs::{checked, geometry, vect2d, Arc, Curve, CurveHit, Param, Refusal};
use std::f64::consts::{FRAC_PI_2, PI, TAU};

fn at(x: f64, y: f64) -> vect2d {
    vect2d::new(x, y)
}

fn hit(t_a: f64, t_b: f64, x: f64, y: f64) -> CurveHit {
    CurveHit { t_a, t_b, pos: at(x, y) }
}

fn unit_circle() -> Arc {
    Arc::circle(at(0.0, 0.0), 1.0)
}

fn flange() -> Arc {
    Arc::ellipse(at(0.0, 0.0), 1000.0, 1000.0, 0.0)
}

fn hole() -> Arc {
    Arc::circle(at(999.9247, 12.2715), 10.0)
}

/// From 0 to 3 counter-clockwise.
fn partial() -> Arc {
    Arc { closed: false, end_angle: Param::new(3.0), ..unit_circle() }
}

/// The f64 next to x, away from 0.
fn beyond(x: f64) -> f64 {
    f64::from_bits(x.to_bits() + 1)
}

#[test]
fn p1_two_segments() {
    let found = geometry::intersect_segments(at(0.0, 0.0), at(2.0, 2.0), at(0.0, 2.0), at(2.0, 0.0));
    assert_eq!(found, Some(hit(0.5, 0.5, 1.0, 1.0)));
}

#[test]
fn p2_segment_across_a_circle() {
    let found = geometry::intersect_segment_arc(at(-2.0, 0.0), at(2.0, 0.0), &unit_circle());
    assert_eq!(found, [hit(0.25, PI, -1.0, 0.0), hit(0.75, 0.0, 1.0, 0.0)]);
}

#[test]
fn p3_p4_touching_and_missing() {
    let circle = unit_circle();
    assert_eq!(geometry::intersect_segment_arc(at(-2.0, 1.0), at(2.0, 1.0), &circle), [hit(0.5, FRAC_PI_2, 0.0, 1.0)]);
    assert_eq!(geometry::intersect_segment_arc(at(-2.0, 1.5), at(2.0, 1.5), &circle), []);
}

#[test]
fn p5_p6_p7_two_circles() {
    let found = geometry::intersect_arcs(&Arc::circle(at(0.0, 0.0), 5.0), &Arc::circle(at(6.0, 0.0), 5.0));
    assert_eq!(found.iter().map(|h| h.pos).collect::<Vec<_>>(), [at(3.0, 4.0), at(3.0, -4.0)]);
    let found = geometry::intersect_arcs(&Arc::circle(at(0.0, 0.0), 2.0), &Arc::circle(at(5.0, 0.0), 3.0));
    assert_eq!(found, [hit(0.0, PI, 2.0, 0.0)]);
    assert_eq!(geometry::intersect_arcs(&unit_circle(), &Arc::circle(at(0.0, 0.0), 2.0)), []);
}

#[test]
fn p8_circle_with_a_tangent() {
    assert_eq!(geometry::circle_tangent_through(at(0.0, 0.0), at(2.0, 0.0), at(0.0, 1.0)), Some((at(1.0, 0.0), 1.0)));
}

#[test]
fn p9_three_points() {
    let (center, radius, start, end, ccw) = geometry::circumscribed_arc(at(1.0, 0.0), at(-1.0, 0.0), at(0.0, 1.0)).unwrap();
    assert_eq!([center.x.to_bits(), center.y.to_bits()], [(-0.0f64).to_bits(); 2]);
    assert_eq!((radius, start, end, ccw), (1.0, 0.0, PI, true));
}

#[test]
fn p10_the_gasket_pair() {
    let counted = |a: &Arc, b: &Arc, depth| {
        let c = checked::intersect_arcs_at(a, b, depth).unwrap().counts;
        (c.brackets, c.evaluations)
    };
    assert_eq!(counted(&flange(), &hole(), 0), (0, 257));
    assert_eq!(counted(&flange(), &hole(), 1), (2, 635));
    assert_eq!(counted(&hole(), &flange(), 0), (2, 379));
}

#[test]
fn p11_an_edge_that_ends_on_a_rim() {
    let edge = Arc {
        closed: false,
        start_angle: Param::new(-1.0),
        end_angle: Param::new(0.0),
        ..Arc::ellipse(at(0.0, 0.0), 2.0, 1.0, 0.0)
    };
    let round = Arc::circle(at(2.0, 1.0), 1.0);
    assert_eq!(geometry::intersect_arcs(&edge, &round), []);
    for depth in 0..4 {
        let found = checked::intersect_arcs_at(&edge, &round, depth).unwrap();
        let hits = (depth > 0) as usize;
        assert_eq!((found.counts.hits, found.counts.brackets), (hits, hits));
        assert_eq!(found.counts.evaluations, (256 << depth) + 1 + 61 * hits);
        assert!(found.hits.iter().all(|h| h.t_a.abs() < 1e-15 && h.pos.x == 2.0 && h.pos.y.abs() < 1e-15));
    }
}

#[test]
fn counts_hits_and_rooms_agree() {
    let (a, b) = (hole(), flange());
    let found = checked::intersect_arcs_at(&a, &b, 0).unwrap();
    assert_eq!(found.counts.hits, 2);
    assert_eq!(found.hits, geometry::intersect_arcs(&a, &b));
    let mut room = vec![7.0; checked::room_for_arcs(&a, &b, 0)];
    assert_eq!(checked::intersect_arcs_in(&a, &b, 0, &mut room), Ok(found.counts));
    assert!(room[8..].iter().all(|&x| x == 7.0));
    assert_eq!([0, 1].map(|i| checked::hit(&room, 2, i)), [Some(found.hits[0]), Some(found.hits[1])]);
    assert_eq!(checked::hit(&room, 2, 2), None);
    assert_eq!(checked::hit(&room[..7], 2, 1), None);
    assert_eq!(checked::hit(&room, usize::MAX, usize::MAX - 1), None);
}

#[test]
fn curves_of_either_kind() {
    let across = Curve::Segment(at(-2.0, 0.0), at(2.0, 0.0));
    let up = Curve::Segment(at(0.0, -2.0), at(0.0, 2.0));
    let circle = Curve::Arc(unit_circle());
    assert_eq!(checked::intersect(&across, &up, 0).unwrap().hits, [hit(0.5, 0.5, 0.0, 0.0)]);
    assert_eq!(checked::intersect(&across, &circle, 0).unwrap().hits, [hit(0.25, PI, -1.0, 0.0), hit(0.75, 0.0, 1.0, 0.0)]);
    assert_eq!(checked::intersect(&circle, &across, 0).unwrap().hits, [hit(PI, 0.25, -1.0, 0.0), hit(0.0, 0.75, 1.0, 0.0)]);
    let found = checked::intersect(&Curve::Arc(flange()), &Curve::Arc(hole()), 1).unwrap();
    assert_eq!(found, checked::intersect_arcs_at(&flange(), &hole(), 1).unwrap());
    assert_eq!(checked::intersect(&across, &up, 4), Err(Refusal::DepthAbove3));
}

#[test]
fn the_other_calls_answer() {
    let circle = unit_circle();
    assert_eq!(geometry::arc_point_at(&circle, 0.0), at(1.0, 0.0));
    assert_eq!(geometry::arc_tangent_at(&circle, 0.0), at(0.0, 1.0));
    assert_eq!(geometry::arc_start_pos(&circle), at(1.0, 0.0));
    assert_eq!(geometry::arc_end_pos(&circle), at(1.0, 0.0));
    assert_eq!(geometry::ellipse_point(at(1.0, 2.0), 3.0, 4.0, 0.0, 0.0), at(4.0, 2.0));
    assert_eq!(geometry::ellipse_tangent(3.0, 4.0, 0.0, 0.0), at(0.0, 4.0));
    assert_eq!(geometry::arc_param_at_point(&circle, at(0.0, 3.0)), FRAC_PI_2);
    assert_eq!(geometry::point_to_segment_dist(at(0.0, 3.0), at(-1.0, 0.0), at(1.0, 0.0)), 3.0);
    assert_eq!(geometry::project_onto_segment(at(0.5, 3.0), at(-1.0, 0.0), at(1.0, 0.0)), at(0.5, 0.0));
    assert_eq!(geometry::line_line_intersection(at(0.0, 0.0), at(1.0, 1.0), at(0.0, 4.0), at(1.0, 3.0)), at(2.0, 2.0));
    assert_eq!(geometry::point_to_arc_dist(at(3.0, 0.0), &circle), (2.0, at(1.0, 0.0)));
    assert_eq!(geometry::nearest_arc_param(&circle, at(0.0, 3.0)), FRAC_PI_2);
    assert_eq!(checked::norm_tau(-1e-20), Ok(TAU));
    assert_eq!(checked::arc_radii(&Arc { radius_b: Param::new(9.0), ..circle }), Ok((1.0, 1.0)));
    assert_eq!(checked::arc_theta_of_pos(&circle, at(0.0, 3.0)), Ok(FRAC_PI_2));
    let (center, start, end, rx, ry) = geometry::svg_arc_to_center(at(1.0, 0.0), at(-1.0, 0.0), 1.0, 1.0, 0.0, false, true).unwrap();
    assert_eq!((center, start, end, rx, ry), (at(0.0, 0.0), 0.0, PI, 1.0, 1.0));
    // A quarter of the unit circle lies away from the point where the normals at its ends meet.
    let fit = geometry::fit_earc_tangent(at(1.0, 0.0), at(0.0, 1.0), at(0.0, 1.0), at(-1.0, 0.0), -0.41421356);
    let (center, rx, ry, ..) = fit.unwrap();
    assert!(center.x.abs() < 1e-6 && center.y.abs() < 1e-6 && (rx - 1.0).abs() < 1e-6 && (ry - 1.0).abs() < 1e-6);
    assert_eq!((arcs::sin(0.0), arcs::cos(0.0), arcs::sin_cos(0.0)), (0.0, 1.0, (0.0, 1.0)));
    assert_eq!((arcs::atan2(0.0, -1.0), arcs::acos(-1.0), arcs::sqrt(9.0)), (PI, PI, 3.0));
}

#[test]
fn refused_with_1_before_2() {
    let both = Arc { radius: Param::new(f64::NAN), radius_b: Param::new(1e9), ..flange() };
    assert_eq!(checked::intersect_arcs_at(&both, &hole(), 4), Err(Refusal::NotANumber));
    assert_eq!(checked::norm_tau(f64::INFINITY), Err(Refusal::NotANumber));
}

#[test]
fn refused_with_2_past_the_limit() {
    let limit = 1_048_576.0;
    let dist = |x| checked::point_to_segment_dist(at(x, 0.0), at(0.0, 0.0), at(0.0, 1.0));
    assert_eq!([dist(limit), dist(-limit)], [Ok(limit), Ok(limit)]);
    assert_eq!([dist(beyond(limit)), dist(-beyond(limit))], [Err(Refusal::BeyondLimit); 2]);
    assert!(checked::norm_tau(1024.0).is_ok());
    assert_eq!(checked::norm_tau(beyond(1024.0)), Err(Refusal::BeyondLimit));
    let far = Arc { end_angle: Param::new(1025.0), ..flange() };
    assert_eq!(checked::intersect_arcs_at(&far, &hole(), 4), Err(Refusal::BeyondLimit));
}

#[test]
fn refused_with_3_then_4() {
    let (a, b) = (flange(), hole());
    assert!(checked::intersect_arcs_at(&a, &b, 3).is_ok());
    assert_eq!(checked::intersect_arcs_in(&a, &b, 4, &mut []), Err(Refusal::DepthAbove3));
    for depth in 0..4 {
        let mut room = vec![7.0; checked::room_for_arcs(&a, &b, depth) - 1];
        assert_eq!(checked::intersect_arcs_in(&a, &b, depth, &mut room), Err(Refusal::RoomTooShort));
        assert!(room.iter().all(|&x| x == 7.0));
    }
    assert_eq!(checked::intersect_segments_in(at(0.0, 0.0), at(1.0, 1.0), at(0.0, 1.0), at(1.0, 0.0), &mut [0.0; 3]), Err(Refusal::RoomTooShort));
    assert_eq!(checked::intersect_segment_arc_in(at(0.0, 0.0), at(1.0, 1.0), &b, &mut [0.0; 7]), Err(Refusal::RoomTooShort));
}

#[test]
fn refused_with_5_and_none() {
    let p = at(1.0, 1.0);
    assert_eq!(checked::svg_arc_to_center(p, p, 1.0, 1.0, 0.0, false, false), Err(Refusal::Degenerate));
    assert_eq!(geometry::svg_arc_to_center(p, p, 1.0, 1.0, 0.0, false, false), None);
    assert_eq!(checked::circumscribed_arc(at(0.0, 0.0), p, at(2.0, 2.0)), Err(Refusal::Degenerate));
    assert_eq!(geometry::circumscribed_arc(at(0.0, 0.0), p, at(2.0, 2.0)), None);
    assert_eq!(checked::circle_tangent_through(at(0.0, 0.0), p, p), Err(Refusal::Degenerate));
    assert_eq!(geometry::circle_tangent_through(at(0.0, 0.0), p, p), None);
    assert_eq!(checked::fit_earc_tangent(p, at(1.0, 0.0), p, at(0.0, 1.0), 0.5), Err(Refusal::Degenerate));
    assert_eq!(geometry::fit_earc_tangent(p, at(1.0, 0.0), p, at(0.0, 1.0), 0.5), None);
}

#[test]
fn refused_with_6_and_none() {
    assert_eq!(checked::arc_param_in_span(&partial(), 4.0), Err(Refusal::OutsideSpan));
    assert_eq!(geometry::arc_param_in_span(&partial(), 4.0), None);
    assert_eq!(geometry::arc_param_in_span(&partial(), 2.0), Some(2.0));
    assert_eq!(checked::arc_param_in_span(&partial(), f64::NAN), Err(Refusal::NotANumber));
}

#[test]
#[should_panic(expected = "refused: some number is NaN or infinite")]
fn a_nan_panics_in_words() {
    let _ = geometry::arc_point_at(&unit_circle(), f64::NAN);
}

#[test]
#[should_panic(expected = "refused: some number is beyond its limit")]
fn a_limit_panics_in_words() {
    let _ = geometry::circumscribed_arc(at(2e6, 0.0), at(0.0, 0.0), at(1.0, 1.0));
}
