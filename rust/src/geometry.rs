//! The functions of a drafting program by their old names and types, so that the program changes its imports.
//!
//! # Panics
//!
//! These signatures have no room for a refusal. A call with a NaN or an infinity, or with a number beyond its limit
//! (1,048,576; an angle 1,024), panics with the refusal in words. Such a number may also be one that another call gave: three
//! points nearly on a line lie on a circle beyond the limit. [`crate::checked`] has the same calls with a `Result`.
//!
//! ```
//! use arcs::{checked, geometry, vect2d, Arc, Refusal};
//!
//! let [p1, p2, p3] = [(0.0, 0.0), (100.0, 0.0), (50.0, 0.001)].map(|(x, y)| vect2d::new(x, y));
//! let (center, radius, ..) = geometry::circumscribed_arc(p1, p2, p3).unwrap();
//! assert!((radius - 1250000.0005).abs() < 1e-6);
//! // `geometry::arc_start_pos` would panic here.
//! assert_eq!(checked::arc_start_pos(&Arc::circle(center, radius)), Err(Refusal::BeyondLimit));
//! ```
//!
//! ```should_panic
//! use arcs::{geometry, vect2d, Arc};
//!
//! let _ = geometry::arc_start_pos(&Arc::circle(vect2d::new(50.0, 0.0), 1250000.0005));
//! ```
use crate::as_arc::AsArc;
use crate::checked;
use crate::refusal::Refusal;
use crate::types::vect2d;
use alloc::vec::Vec;

pub use crate::types::CurveHit;

#[inline]
#[track_caller]
fn answer<T>(result: Result<T, Refusal>) -> T {
    match result {
        Ok(answer) => answer,
        Err(refusal) => refused(refusal),
    }
}

/// None where the refusal is the one that stands for it.
#[inline]
#[track_caller]
fn unless<T>(none: Refusal, result: Result<T, Refusal>) -> Option<T> {
    match result {
        Ok(answer) => Some(answer),
        Err(refusal) if refusal == none => None,
        Err(refusal) => refused(refusal),
    }
}

#[cold]
#[track_caller]
fn refused(refusal: Refusal) -> ! {
    panic!("refused: {refusal}")
}

/// The distance from `p` to the segment from `a` to `b`.
#[inline]
#[must_use]
#[track_caller]
pub fn point_to_segment_dist(p: vect2d, a: vect2d, b: vect2d) -> f64 {
    answer(checked::point_to_segment_dist(p, a, b))
}

/// An SVG arc about its centre: (centre, start angle, end angle, rx, ry). None where the ends are less than 1e-12 apart in x and
/// in y, or a radius is below 1e-12 in size.
#[inline]
#[must_use]
#[track_caller]
pub fn svg_arc_to_center(
    p1: vect2d, p2: vect2d, rx: f64, ry: f64, rotation: f64, large_arc: bool, sweep: bool,
) -> Option<(vect2d, f64, f64, f64, f64)> {
    unless(Refusal::Degenerate, checked::svg_arc_to_center(p1, p2, rx, ry, rotation, large_arc, sweep))
}

/// The circular arc from p1 to p2 through p3: (centre, radius, start angle, end angle, ccw). None where four times the area of the
/// triangle is below 1e-12. The angles are from -PI to PI: where the end lies before the start in the arc's direction, a turn is
/// to be added or taken off before the arc is handed on.
#[inline]
#[must_use]
#[track_caller]
pub fn circumscribed_arc(p1: vect2d, p2: vect2d, p3: vect2d) -> Option<(vect2d, f64, f64, f64, bool)> {
    unless(Refusal::Degenerate, checked::circumscribed_arc(p1, p2, p3))
}

/// The distance from `p` to the arc, and the point of the arc that has it.
#[inline]
#[must_use]
#[track_caller]
pub fn point_to_arc_dist(p: vect2d, a: &(impl AsArc + ?Sized)) -> (f64, vect2d) {
    answer(checked::point_to_arc_dist(p, a))
}

/// The direction of the arc at the parametric angle `t`, for rising `t`: the derivative of [`arc_point_at`].
#[inline]
#[must_use]
#[track_caller]
pub fn arc_tangent_at(a: &(impl AsArc + ?Sized), t: f64) -> vect2d {
    answer(checked::arc_tangent_at(a, t))
}

/// The parametric angle of the direction from the centre to `p`. For a point of the curve this is its parameter.
#[inline]
#[must_use]
#[track_caller]
pub fn arc_param_at_point(a: &(impl AsArc + ?Sized), p: vect2d) -> f64 {
    answer(checked::arc_param_at_point(a, p))
}

/// The circle through `s` and `e` whose tangent at `s` is `t`: (centre, radius). None where `t` is shorter than 1e-12, or `e` less
/// than 1e-12 from that tangent.
#[inline]
#[must_use]
#[track_caller]
pub fn circle_tangent_through(s: vect2d, e: vect2d, t: vect2d) -> Option<(vect2d, f64)> {
    unless(Refusal::Degenerate, checked::circle_tangent_through(s, e, t))
}

/// The point of the arc at the parametric angle `t`.
#[inline]
#[must_use]
#[track_caller]
pub fn arc_point_at(a: &(impl AsArc + ?Sized), t: f64) -> vect2d {
    answer(checked::arc_point_at(a, t))
}

/// The point at the start angle.
#[inline]
#[must_use]
#[track_caller]
pub fn arc_start_pos(a: &(impl AsArc + ?Sized)) -> vect2d {
    answer(checked::arc_start_pos(a))
}

/// The point at the end angle.
#[inline]
#[must_use]
#[track_caller]
pub fn arc_end_pos(a: &(impl AsArc + ?Sized)) -> vect2d {
    answer(checked::arc_end_pos(a))
}

/// The point of the segment from `a` to `b` that is nearest to `p`.
#[inline]
#[must_use]
#[track_caller]
pub fn project_onto_segment(p: vect2d, a: vect2d, b: vect2d) -> vect2d {
    answer(checked::project_onto_segment(p, a, b))
}

/// Where the lines p1-p2 and p3-p4 cross; the middle between p1 and p3 where the cross product of the two differences is below
/// 1e-12 in size: lines nearly parallel, or points close together.
#[inline]
#[must_use]
#[track_caller]
pub fn line_line_intersection(p1: vect2d, p2: vect2d, p3: vect2d, p4: vect2d) -> vect2d {
    answer(checked::line_line_intersection(p1, p2, p3, p4))
}

/// The angle as a parameter of the arc's span. None outside the span of an arc that is not closed.
#[inline]
#[must_use]
#[track_caller]
pub fn arc_param_in_span(arc: &(impl AsArc + ?Sized), theta: f64) -> Option<f64> {
    unless(Refusal::OutsideSpan, checked::arc_param_in_span(arc, theta))
}

/// The crossing of two segments. None for segments that do not meet, or whose cross product is below 1e-12 in size.
///
/// ```
/// use arcs::{geometry::intersect_segments, vect2d};
///
/// let (a1, a2) = (vect2d::new(0.0, 0.0), vect2d::new(2.0, 2.0));
/// let (b1, b2) = (vect2d::new(0.0, 2.0), vect2d::new(2.0, 0.0));
/// assert_eq!(intersect_segments(a1, a2, b1, b2).unwrap().pos, vect2d::new(1.0, 1.0));
/// assert!(intersect_segments(a1, a2, a1, a2).is_none());
/// ```
#[inline]
#[must_use]
#[track_caller]
pub fn intersect_segments(a1: vect2d, a2: vect2d, b1: vect2d, b2: vect2d) -> Option<CurveHit> {
    answer(checked::intersect_segments(a1, a2, b1, b2))
}

/// The crossings of a segment with an arc, at most 2, the smaller parameter of the segment first.
#[inline]
#[must_use]
#[track_caller]
pub fn intersect_segment_arc(p1: vect2d, p2: vect2d, arc: &(impl AsArc + ?Sized)) -> Vec<CurveHit> {
    answer(checked::intersect_segment_arc(p1, p2, arc))
}

/// The crossings of two arcs. Two circles are solved; where an ellipse takes part, `a` is searched in 256 cells, and a small
/// hole, or the end of `a` where it lies on `b`, can be missed: [`checked::intersect_arcs_at`] searches finer.
#[inline]
#[must_use]
#[track_caller]
pub fn intersect_arcs(a: &(impl AsArc + ?Sized), b: &(impl AsArc + ?Sized)) -> Vec<CurveHit> {
    answer(checked::intersect_arcs(a, b))
}

/// The parameter of the arc's point nearest to `p`.
#[inline]
#[must_use]
#[track_caller]
pub fn nearest_arc_param(arc: &(impl AsArc + ?Sized), p: vect2d) -> f64 {
    answer(checked::nearest_arc_param(arc, p))
}

/// An arc of the ellipse through p1 with direction t1 and through p2 with direction t2: (centre, rx, ry, rotation, start angle,
/// end angle, ccw). The ellipse also passes `bulge` half chords from the middle of the chord, at a right angle to it; a positive
/// bulge is on the side on which the normals at p1 and p2 meet. None where no ellipse fits, or the directions are too short: give
/// unit directions. The sign of t2 is not read; the angles are as in [`circumscribed_arc`]; an ellipse whose axes are parallel to x
/// and y comes with them exchanged, as in the original.
#[inline]
#[must_use]
#[track_caller]
pub fn fit_earc_tangent(
    p1: vect2d, t1: vect2d, p2: vect2d, t2: vect2d, bulge: f64,
) -> Option<(vect2d, f64, f64, f64, f64, f64, bool)> {
    unless(Refusal::Degenerate, checked::fit_earc_tangent(p1, t1, p2, t2, bulge))
}

/// The point of a rotated ellipse at the parametric angle `t`.
#[inline]
#[must_use]
#[track_caller]
pub fn ellipse_point(center: vect2d, rx: f64, ry: f64, rot: f64, t: f64) -> vect2d {
    answer(checked::ellipse_point(center, rx, ry, rot, t))
}

/// The direction of a rotated ellipse at the parametric angle `t`: the derivative of [`ellipse_point`].
#[inline]
#[must_use]
#[track_caller]
pub fn ellipse_tangent(rx: f64, ry: f64, rot: f64, t: f64) -> vect2d {
    answer(checked::ellipse_tangent(rx, ry, rot, t))
}
