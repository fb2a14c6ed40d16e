//! Every number of every call: refused as a NaN, as infinite and beyond its own limit, and taken at the limit. So a number that is
//! not passed on, or passed on for another with another limit, is seen.
use arcs::{checked, vect2d, Arc, Curve, Param, Refusal};

const SIZE: f64 = 1_048_576.0;
const ANGLE: f64 = 1_024.0;

/// The f64 next to x, away from 0.
fn beyond(x: f64) -> f64 {
    f64::from_bits(x.to_bits() + 1)
}

/// `angles` says which of the numbers are angles.
fn each<const N: usize, T>(call: impl Fn([f64; N]) -> Result<T, Refusal>, angles: &[usize]) {
    for i in 0..N {
        let limit = if angles.contains(&i) { ANGLE } else { SIZE };
        let with = |x| {
            let mut numbers = std::array::from_fn(|i| 1.0 + i as f64 / 8.0);
            numbers[i] = x;
            call(numbers).err()
        };
        assert_eq!([f64::NAN, f64::INFINITY, f64::NEG_INFINITY].map(with), [Some(Refusal::NotANumber); 3], "number {i}");
        assert_eq!([beyond(limit), -beyond(limit)].map(with), [Some(Refusal::BeyondLimit); 2], "number {i}");
        assert!([limit, -limit].map(with).iter().all(|r| !matches!(r, Some(Refusal::NotANumber | Refusal::BeyondLimit))), "number {i}");
    }
}

fn at(n: &[f64], i: usize) -> vect2d {
    vect2d::new(n[2 * i], n[2 * i + 1])
}

/// Its seven numbers from the place `i` on.
fn arc(n: &[f64], i: usize) -> Arc {
    Arc {
        center: Param::new(vect2d::new(n[i], n[i + 1])),
        radius: Param::new(n[i + 2]),
        radius_b: Param::new(n[i + 3]),
        rotation: Param::new(n[i + 4]),
        start_angle: Param::new(n[i + 5]),
        end_angle: Param::new(n[i + 6]),
        closed: false,
        is_ellipse: true,
        ccw: true,
    }
}

#[test]
fn points_and_spans() {
    each(|n: [f64; 6]| checked::ellipse_point(at(&n, 0), n[2], n[3], n[4], n[5]), &[4, 5]);
    each(|n: [f64; 4]| checked::ellipse_tangent(n[0], n[1], n[2], n[3]), &[2, 3]);
    each(|n: [f64; 8]| checked::arc_point_at(&arc(&n, 0), n[7]), &[4, 5, 6, 7]);
    each(|n: [f64; 8]| checked::arc_tangent_at(&arc(&n, 0), n[7]), &[4, 5, 6, 7]);
    each(|n: [f64; 7]| checked::arc_start_pos(&arc(&n, 0)), &[4, 5, 6]);
    each(|n: [f64; 7]| checked::arc_end_pos(&arc(&n, 0)), &[4, 5, 6]);
    each(|[v]: [f64; 1]| checked::norm_tau(v), &[0]);
    each(|n: [f64; 8]| checked::arc_param_in_span(&arc(&n, 0), n[7]), &[4, 5, 6, 7]);
    each(|n: [f64; 7]| checked::arc_radii(&arc(&n, 0)), &[4, 5, 6]);
    each(|n: [f64; 9]| checked::arc_theta_of_pos(&arc(&n, 2), at(&n, 0)), &[6, 7, 8]);
    each(|n: [f64; 9]| checked::arc_param_at_point(&arc(&n, 2), at(&n, 0)), &[6, 7, 8]);
    each(|n: [f64; 9]| checked::nearest_arc_param(&arc(&n, 2), at(&n, 0)), &[6, 7, 8]);
    each(|n: [f64; 9]| checked::point_to_arc_dist(at(&n, 0), &arc(&n, 2)), &[6, 7, 8]);
}

#[test]
fn lines_and_shapes() {
    each(|n: [f64; 6]| checked::point_to_segment_dist(at(&n, 0), at(&n, 1), at(&n, 2)), &[]);
    each(|n: [f64; 6]| checked::project_onto_segment(at(&n, 0), at(&n, 1), at(&n, 2)), &[]);
    each(|n: [f64; 8]| checked::line_line_intersection(at(&n, 0), at(&n, 1), at(&n, 2), at(&n, 3)), &[]);
    each(|n: [f64; 7]| checked::svg_arc_to_center(at(&n, 0), at(&n, 1), n[4], n[5], n[6], true, false), &[6]);
    each(|n: [f64; 6]| checked::circumscribed_arc(at(&n, 0), at(&n, 1), at(&n, 2)), &[]);
    each(|n: [f64; 6]| checked::circle_tangent_through(at(&n, 0), at(&n, 1), at(&n, 2)), &[]);
    each(|n: [f64; 9]| checked::fit_earc_tangent(at(&n, 0), at(&n, 1), at(&n, 2), at(&n, 3), n[8]), &[]);
}

#[test]
fn crossings() {
    each(|n: [f64; 8]| checked::intersect_segments(at(&n, 0), at(&n, 1), at(&n, 2), at(&n, 3)), &[]);
    each(|n: [f64; 11]| checked::intersect_segment_arc(at(&n, 0), at(&n, 1), &arc(&n, 4)), &[8, 9, 10]);
    each(|n: [f64; 14]| checked::intersect_arcs(&arc(&n, 0), &arc(&n, 7)), &[4, 5, 6, 11, 12, 13]);
    each(|n: [f64; 14]| checked::intersect_arcs_at(&arc(&n, 0), &arc(&n, 7), 1), &[4, 5, 6, 11, 12, 13]);
    let segment = |n: &[f64], i| Curve::Segment(at(n, i), at(n, i + 1));
    each(|n: [f64; 8]| checked::intersect(&segment(&n, 0), &segment(&n, 2), 0), &[]);
    each(|n: [f64; 11]| checked::intersect(&segment(&n, 0), &Curve::from(&arc(&n, 4)), 0), &[8, 9, 10]);
    each(|n: [f64; 14]| checked::intersect(&Curve::from(&arc(&n, 0)), &Curve::from(&arc(&n, 7)), 0), &[4, 5, 6, 11, 12, 13]);
}

#[test]
fn the_depth() {
    let (a, b) = (Arc::ellipse(vect2d::new(1.0, 2.0), 3.0, 4.0, 0.5), Arc::circle(vect2d::new(5.0, 6.0), 7.0));
    for depth in [4, 5, u32::MAX] {
        assert_eq!(checked::intersect_arcs_at(&a, &b, depth), Err(Refusal::DepthAbove3));
        assert_eq!(checked::intersect(&Curve::from(&b), &Curve::from(&a), depth), Err(Refusal::DepthAbove3));
    }
}

/// Each refusal by its name, its number and its words, as a call gives it.
#[test]
fn each_refusal() {
    let origin = vect2d::new(0.0, 0.0);
    let (flat, far) = (Arc { closed: false, ..Arc::ellipse(origin, 2.0, 1.0, 0.5) }, vect2d::new(2e6, 0.0));
    let given = [
        (checked::norm_tau(f64::NAN).err(), Refusal::NotANumber, 1, "some number is NaN or infinite"),
        (checked::nearest_arc_param(&flat, far).err(), Refusal::BeyondLimit, 2, "some number is beyond its limit (1,048,576, or 1,024 for an angle)"),
        (checked::intersect_arcs_at(&flat, &flat, 4).err(), Refusal::DepthAbove3, 3, "the depth is above 3"),
        (checked::intersect_arcs_in(&flat, &flat, 0, &mut []).err(), Refusal::RoomTooShort, 4, "the lent room is too short"),
        (checked::circumscribed_arc(origin, origin, origin).err(), Refusal::Degenerate, 5, "the construction is degenerate"),
        (checked::arc_param_in_span(&Arc { ccw: false, ..flat }, 1.0).err(), Refusal::OutsideSpan, 6, "the angle is outside the arc's span"),
    ];
    for (refusal, name, number, words) in given {
        assert_eq!(refusal, Some(name));
        assert_eq!((name.number(), name.to_string().as_str()), (number, words));
        let error: &dyn std::error::Error = &name;
        assert_eq!(error.to_string(), words);
    }
}
