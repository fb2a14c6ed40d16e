//! What the original has for itself alone, `norm_tau`, `arc_radii` and `arc_theta_of_pos`, and the marks of an arc, worked out by hand.
use arcs::{checked, geometry, vect2d, Arc, Param, Refusal};
use std::f64::consts::TAU;

/// The marks, each alone and none.
const PLAIN: [bool; 3] = [false; 3];
const CLOSED: [bool; 3] = [true, false, false];
const IS_ELLIPSE: [bool; 3] = [false, true, false];
const CCW: [bool; 3] = [false, false, true];

fn arc([closed, is_ellipse, ccw]: [bool; 3], start: f64, end: f64) -> Arc {
    Arc {
        center: Param::new(vect2d::new(3.0, -2.0)),
        radius: Param::new(7.0),
        radius_b: Param::new(4.0),
        rotation: Param::new(0.6),
        start_angle: Param::new(start),
        end_angle: Param::new(end),
        closed,
        is_ellipse,
        ccw,
    }
}

/// The point at `t` by the formula, of the radii `ra` and `rb`.
fn point(ra: f64, rb: f64, t: f64) -> vect2d {
    let ((sin_r, cos_r), (sin, cos)) = (0.6f64.sin_cos(), t.sin_cos());
    vect2d::new(3.0 + ra * cos * cos_r - rb * sin * sin_r, -2.0 + ra * cos * sin_r + rb * sin * cos_r)
}

fn near(x: f64, y: f64) -> bool {
    (x - y).abs() < 1e-12
}

#[test]
fn an_angle_once_round() {
    assert_eq!(checked::norm_tau(1.75), Ok(1.75));
    assert_eq!(checked::norm_tau(-1.75), Ok(TAU - 1.75));
    assert_eq!(checked::norm_tau(20.0), Ok(20.0 % TAU));
    assert_eq!(checked::norm_tau(-20.0), Ok(TAU - 20.0 % TAU));
}

#[test]
fn the_radii_by_the_mark() {
    for marks in [PLAIN, CLOSED, CCW] {
        assert_eq!(checked::arc_radii(&arc(marks, 1.25, 2.75)), Ok((7.0, 7.0)));
    }
    assert_eq!(checked::arc_radii(&arc(IS_ELLIPSE, 1.25, 2.75)), Ok((7.0, 4.0)));
}

#[test]
fn the_angle_of_a_position() {
    for t in [0.4, 1.3, 2.9, -0.8, -2.2] {
        for marks in [PLAIN, CLOSED, CCW] {
            assert!(near(checked::arc_theta_of_pos(&arc(marks, 1.25, 2.75), point(7.0, 7.0, t)).unwrap(), t), "{t}");
        }
        assert!(near(checked::arc_theta_of_pos(&arc(IS_ELLIPSE, 1.25, 2.75), point(7.0, 4.0, t)).unwrap(), t), "{t}");
        // This one reads both radii whatever the mark.
        assert!(near(geometry::arc_param_at_point(&arc(PLAIN, 1.25, 2.75), point(7.0, 4.0, t)), t), "{t}");
    }
}

#[test]
fn the_span_by_the_marks() {
    let at = |marks, start, end, theta| checked::arc_param_in_span(&arc(marks, start, end), theta);
    // Counter-clockwise from 1.25 to 2.75.
    assert_eq!([2.0, 3.0, 1.0].map(|theta| at(CCW, 1.25, 2.75, theta)), [Ok(2.0), Err(Refusal::OutsideSpan), Err(Refusal::OutsideSpan)]);
    // Clockwise from 2.75 to 1.25, and the wrong way round.
    for marks in [PLAIN, IS_ELLIPSE] {
        assert_eq!([2.0, 3.0].map(|theta| at(marks, 2.75, 1.25, theta)), [Ok(2.0), Err(Refusal::OutsideSpan)]);
        assert_eq!(at(marks, 1.25, 2.75, 2.0), Err(Refusal::OutsideSpan));
    }
    // Once round from the start, whatever the end.
    assert_eq!([2.0, 3.0].map(|theta| at(CLOSED, 1.25, 2.75, theta)), [Ok(2.0), Ok(3.0)]);
    assert!(near(at(CLOSED, 1.25, 2.75, 1.0).unwrap(), 1.0 + TAU));
}

#[test]
fn whole_circles_and_ellipses() {
    let (center, marks) = (vect2d::new(3.0, -2.0), |a: Arc| [a.closed, a.is_ellipse, a.ccw]);
    let circle = Arc::circle(center, 7.0);
    let ellipse = Arc::ellipse(center, 7.0, 4.0, 0.6);
    assert_eq!([marks(circle), marks(ellipse)], [[true, false, true], [true, true, true]]);
    let numbers = |a: Arc| [a.radius, a.radius_b, a.rotation, a.start_angle, a.end_angle].map(|p| p.value);
    assert_eq!((circle.center.value, numbers(circle)), (center, [7.0, 7.0, 0.0, 0.0, TAU]));
    assert_eq!((ellipse.center.value, numbers(ellipse)), (center, [7.0, 4.0, 0.6, 0.0, TAU]));
}
