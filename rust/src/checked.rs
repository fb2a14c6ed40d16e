//! Every call of the library, with its refusals: [`Refusal`] says when each is given.
//!
//! A call takes any number and never panics. The numbers are tested before anything else, so a call with a NaN is refused
//! with [`Refusal::NotANumber`] whatever else is wrong with it.
//!
//! ```
//! use arcs::{checked, vect2d, Arc, Refusal};
//!
//! let circle = Arc::circle(vect2d::new(0.0, 0.0), 1.0);
//! assert_eq!(checked::nearest_arc_param(&circle, vect2d::new(3.0, 0.0)), Ok(0.0));
//! assert_eq!(checked::nearest_arc_param(&circle, vect2d::new(2e6, 0.0)), Err(Refusal::BeyondLimit));
//! ```
use crate::as_arc::AsArc;
use crate::ffi;
use crate::refusal::Refusal;
use crate::types::{vect2d, Counts, Crossings, Curve, CurveHit};
use alloc::{vec, vec::Vec};

/// The numbers of a hit: t_a, t_b, x, y.
const HIT: usize = 4;

/// The mark by which the exports know a segment.
const SEGMENT: u32 = 8;

fn result<T>(refusal: u32, answer: T) -> Result<T, Refusal> {
    if refusal == 0 { Ok(answer) } else { Err(Refusal::of(refusal)) }
}

/// What a call writes to N numbers lent to it.
#[inline]
fn given<const N: usize>(call: impl FnOnce(*mut f64, usize) -> u32) -> Result<[f64; N], Refusal> {
    let mut out = [0.0; N];
    let refusal = call(out.as_mut_ptr(), N);
    result(refusal, out)
}

/// The seven numbers of an arc and its marks.
#[inline]
fn arc(a: &(impl AsArc + ?Sized)) -> ([f64; 7], u32) {
    let a = a.as_arc();
    (a.numbers(), a.marks())
}

#[inline]
fn number(out: [f64; 1]) -> f64 {
    out[0]
}

#[inline]
fn pair(out: [f64; 2]) -> vect2d {
    vect2d::new(out[0], out[1])
}

/// The point of a rotated ellipse at the parametric angle `t`.
#[inline]
pub fn ellipse_point(center: vect2d, rx: f64, ry: f64, rot: f64, t: f64) -> Result<vect2d, Refusal> {
    // SAFETY: `given` lends a pointer and its length.
    given(|out, len| unsafe { ffi::arcs_ellipse_point(center.x, center.y, rx, ry, rot, t, out, len) }).map(pair)
}

/// The direction of a rotated ellipse at the parametric angle `t`: the derivative of [`ellipse_point`].
#[inline]
pub fn ellipse_tangent(rx: f64, ry: f64, rot: f64, t: f64) -> Result<vect2d, Refusal> {
    // SAFETY: `given` lends a pointer and its length.
    given(|out, len| unsafe { ffi::arcs_ellipse_tangent(rx, ry, rot, t, out, len) }).map(pair)
}

/// The point of the arc at the parametric angle `t`.
#[inline]
pub fn arc_point_at(a: &(impl AsArc + ?Sized), t: f64) -> Result<vect2d, Refusal> {
    let (n, marks) = arc(a);
    // SAFETY: `given` lends a pointer and its length; the other pointer is that of `n`.
    given(|out, len| unsafe { ffi::arcs_arc_point_at(n.as_ptr(), n.len(), marks, t, out, len) }).map(pair)
}

/// The direction of the arc at the parametric angle `t`, for rising `t`: the derivative of [`arc_point_at`].
#[inline]
pub fn arc_tangent_at(a: &(impl AsArc + ?Sized), t: f64) -> Result<vect2d, Refusal> {
    let (n, marks) = arc(a);
    // SAFETY: as in `arc_point_at`.
    given(|out, len| unsafe { ffi::arcs_arc_tangent_at(n.as_ptr(), n.len(), marks, t, out, len) }).map(pair)
}

/// The point at the start angle.
#[inline]
pub fn arc_start_pos(a: &(impl AsArc + ?Sized)) -> Result<vect2d, Refusal> {
    let (n, marks) = arc(a);
    // SAFETY: as in `arc_point_at`.
    given(|out, len| unsafe { ffi::arcs_arc_start_pos(n.as_ptr(), n.len(), marks, out, len) }).map(pair)
}

/// The point at the end angle.
#[inline]
pub fn arc_end_pos(a: &(impl AsArc + ?Sized)) -> Result<vect2d, Refusal> {
    let (n, marks) = arc(a);
    // SAFETY: as in `arc_point_at`.
    given(|out, len| unsafe { ffi::arcs_arc_end_pos(n.as_ptr(), n.len(), marks, out, len) }).map(pair)
}

/// `v % TAU`, plus TAU where that is below 0. A tiny negative angle gives TAU itself.
#[inline]
pub fn norm_tau(v: f64) -> Result<f64, Refusal> {
    // SAFETY: `given` lends a pointer and its length.
    given(|out, len| unsafe { ffi::arcs_norm_tau(v, out, len) }).map(number)
}

/// The angle as a parameter of the arc's span, or [`Refusal::OutsideSpan`]. A closed arc takes every angle.
///
/// ```
/// use arcs::{checked, vect2d, Arc, Param, Refusal};
///
/// let half = Arc { closed: false, end_angle: Param::new(3.0), ..Arc::circle(vect2d::new(0.0, 0.0), 1.0) };
/// assert_eq!(checked::arc_param_in_span(&half, 2.0), Ok(2.0));
/// assert_eq!(checked::arc_param_in_span(&half, 4.0), Err(Refusal::OutsideSpan));
/// ```
#[inline]
pub fn arc_param_in_span(a: &(impl AsArc + ?Sized), theta: f64) -> Result<f64, Refusal> {
    let (n, marks) = arc(a);
    // SAFETY: as in `arc_point_at`.
    given(|out, len| unsafe { ffi::arcs_arc_param_in_span(n.as_ptr(), n.len(), marks, theta, out, len) }).map(number)
}

/// The radii by which segments, two circles and the second arc of a search are crossed: a circle's `radius` stands for both. The
/// first arc of a search takes `radius_b` as it is.
#[inline]
pub fn arc_radii(a: &(impl AsArc + ?Sized)) -> Result<(f64, f64), Refusal> {
    let (n, marks) = arc(a);
    // SAFETY: as in `arc_point_at`.
    given(|out, len| unsafe { ffi::arcs_arc_radii(n.as_ptr(), n.len(), marks, out, len) }).map(|[ra, rb]| (ra, rb))
}

/// The parametric angle of a position on the curve or near it, by the radii of [`arc_radii`]. The NaN 7ff8000000000000 where
/// such a radius is 0 and so is that local coordinate.
#[inline]
pub fn arc_theta_of_pos(a: &(impl AsArc + ?Sized), p: vect2d) -> Result<f64, Refusal> {
    let (n, marks) = arc(a);
    // SAFETY: as in `arc_point_at`.
    given(|out, len| unsafe { ffi::arcs_arc_theta_of_pos(n.as_ptr(), n.len(), marks, p.x, p.y, out, len) }).map(number)
}

/// The parametric angle of the direction from the centre to `p`. For a point of the curve this is its parameter.
#[inline]
pub fn arc_param_at_point(a: &(impl AsArc + ?Sized), p: vect2d) -> Result<f64, Refusal> {
    let (n, marks) = arc(a);
    // SAFETY: as in `arc_point_at`.
    given(|out, len| unsafe { ffi::arcs_arc_param_at_point(n.as_ptr(), n.len(), marks, p.x, p.y, out, len) }).map(number)
}

/// The distance from `p` to the segment from `a` to `b`.
#[inline]
pub fn point_to_segment_dist(p: vect2d, a: vect2d, b: vect2d) -> Result<f64, Refusal> {
    // SAFETY: `given` lends a pointer and its length.
    given(|out, len| unsafe { ffi::arcs_point_to_segment_dist(p.x, p.y, a.x, a.y, b.x, b.y, out, len) }).map(number)
}

/// The point of the segment from `a` to `b` that is nearest to `p`.
#[inline]
pub fn project_onto_segment(p: vect2d, a: vect2d, b: vect2d) -> Result<vect2d, Refusal> {
    // SAFETY: `given` lends a pointer and its length.
    given(|out, len| unsafe { ffi::arcs_project_onto_segment(p.x, p.y, a.x, a.y, b.x, b.y, out, len) }).map(pair)
}

/// Where the lines p1-p2 and p3-p4 cross; the middle between p1 and p3 where the cross product of the two differences is below
/// 1e-12 in size: lines nearly parallel, or points close together.
#[inline]
pub fn line_line_intersection(p1: vect2d, p2: vect2d, p3: vect2d, p4: vect2d) -> Result<vect2d, Refusal> {
    // SAFETY: `given` lends a pointer and its length.
    given(|out, len| unsafe { ffi::arcs_line_line_intersection(p1.x, p1.y, p2.x, p2.y, p3.x, p3.y, p4.x, p4.y, out, len) }).map(pair)
}

/// The distance from `p` to the arc, and the point of the arc that has it.
#[inline]
pub fn point_to_arc_dist(p: vect2d, a: &(impl AsArc + ?Sized)) -> Result<(f64, vect2d), Refusal> {
    let (n, marks) = arc(a);
    // SAFETY: as in `arc_point_at`.
    given(|out, len| unsafe { ffi::arcs_point_to_arc_dist(p.x, p.y, n.as_ptr(), n.len(), marks, out, len) })
        .map(|[d, x, y]| (d, vect2d::new(x, y)))
}

/// The parameter of the arc's point nearest to `p`.
#[inline]
pub fn nearest_arc_param(a: &(impl AsArc + ?Sized), p: vect2d) -> Result<f64, Refusal> {
    let (n, marks) = arc(a);
    // SAFETY: as in `arc_point_at`.
    given(|out, len| unsafe { ffi::arcs_nearest_arc_param(n.as_ptr(), n.len(), marks, p.x, p.y, out, len) }).map(number)
}

/// An SVG arc about its centre: centre, start angle, end angle, rx, ry. The radii grow where they are too short.
#[inline]
pub fn svg_arc_to_center(
    p1: vect2d, p2: vect2d, rx: f64, ry: f64, rotation: f64, large_arc: bool, sweep: bool,
) -> Result<(vect2d, f64, f64, f64, f64), Refusal> {
    given(|out, len| {
        // SAFETY: `given` lends a pointer and its length.
        unsafe { ffi::arcs_svg_arc_to_center(p1.x, p1.y, p2.x, p2.y, rx, ry, rotation, large_arc as u32, sweep as u32, out, len) }
    })
    .map(|[x, y, start, end, rx, ry]| (vect2d::new(x, y), start, end, rx, ry))
}

/// The circular arc from p1 to p2 through p3: centre, radius, start angle, end angle, whether counter-clockwise. The angles are from
/// -PI to PI: where the end lies before the start in the arc's direction, a turn is to be added or taken off before it is handed on.
#[inline]
pub fn circumscribed_arc(p1: vect2d, p2: vect2d, p3: vect2d) -> Result<(vect2d, f64, f64, f64, bool), Refusal> {
    // SAFETY: `given` lends a pointer and its length.
    given(|out, len| unsafe { ffi::arcs_circumscribed_arc(p1.x, p1.y, p2.x, p2.y, p3.x, p3.y, out, len) })
        .map(|[x, y, radius, start, end, ccw]| (vect2d::new(x, y), radius, start, end, ccw != 0.0))
}

/// The circle through `s` and `e` whose tangent at `s` is `t`: centre and radius.
///
/// ```
/// use arcs::{checked, vect2d, Refusal};
///
/// let (s, up) = (vect2d::new(0.0, 0.0), vect2d::new(0.0, 1.0));
/// assert_eq!(checked::circle_tangent_through(s, vect2d::new(2.0, 0.0), up), Ok((vect2d::new(1.0, 0.0), 1.0)));
/// assert_eq!(checked::circle_tangent_through(s, vect2d::new(0.0, 2.0), up), Err(Refusal::Degenerate));
/// ```
#[inline]
pub fn circle_tangent_through(s: vect2d, e: vect2d, t: vect2d) -> Result<(vect2d, f64), Refusal> {
    // SAFETY: `given` lends a pointer and its length.
    given(|out, len| unsafe { ffi::arcs_circle_tangent_through(s.x, s.y, e.x, e.y, t.x, t.y, out, len) })
        .map(|[x, y, radius]| (vect2d::new(x, y), radius))
}

/// An arc of the ellipse through p1 with direction t1 and through p2 with direction t2: centre, rx, ry, rotation, start angle,
/// end angle, whether counter-clockwise. The ellipse also passes `bulge` half chords from the middle of the chord, at a right
/// angle to it; a positive bulge is on the side on which the normals at p1 and p2 meet. Give unit directions; the sign of t2 is not
/// read. The angles are as in [`circumscribed_arc`]; an ellipse whose axes are parallel to x and y comes with them exchanged, as in
/// the original.
#[inline]
#[allow(clippy::type_complexity)] // the tuple is the original's
pub fn fit_earc_tangent(
    p1: vect2d, t1: vect2d, p2: vect2d, t2: vect2d, bulge: f64,
) -> Result<(vect2d, f64, f64, f64, f64, f64, bool), Refusal> {
    // SAFETY: `given` lends a pointer and its length.
    given(|out, len| unsafe { ffi::arcs_fit_earc_tangent(p1.x, p1.y, t1.x, t1.y, p2.x, p2.y, t2.x, t2.y, bulge, out, len) })
        .map(|[x, y, rx, ry, rotation, start, end, ccw]| (vect2d::new(x, y), rx, ry, rotation, start, end, ccw != 0.0))
}

// Crossings. Each comes in two forms: `.._in` writes the hits to a lent room, four numbers a hit (t_a, t_b, x, y), leaves the
// numbers after them alone and, where it refuses, all of them; the other lends a room of its own.

fn hits(room: &[f64], count: usize) -> Vec<CurveHit> {
    room.chunks_exact(HIT).take(count).map(|h| CurveHit { t_a: h[0], t_b: h[1], pos: vect2d::new(h[2], h[3]) }).collect()
}

/// The crossing of two segments, if any.
#[inline]
pub fn intersect_segments(a1: vect2d, a2: vect2d, b1: vect2d, b2: vect2d) -> Result<Option<CurveHit>, Refusal> {
    let mut room = [0.0; HIT];
    let count = intersect_segments_in(a1, a2, b1, b2, &mut room)?;
    let [t_a, t_b, x, y] = room;
    Ok((count == 1).then_some(CurveHit { t_a, t_b, pos: vect2d::new(x, y) }))
}

/// The crossing of two segments, to a room of at least 4 numbers; how many there are.
#[inline]
pub fn intersect_segments_in(a1: vect2d, a2: vect2d, b1: vect2d, b2: vect2d, room: &mut [f64]) -> Result<usize, Refusal> {
    let mut count = 0;
    // SAFETY: the pointers and lengths are those of `room` and of one number.
    let refusal = unsafe {
        ffi::arcs_intersect_segments(
            a1.x, a1.y, a2.x, a2.y, b1.x, b1.y, b2.x, b2.y, room.as_mut_ptr(), room.len(), &mut count, 1,
        )
    };
    result(refusal, count as usize)
}

/// The crossings of a segment with an arc, at most 2, the smaller parameter of the segment first.
pub fn intersect_segment_arc(p1: vect2d, p2: vect2d, a: &(impl AsArc + ?Sized)) -> Result<Vec<CurveHit>, Refusal> {
    let mut room = [0.0; 2 * HIT];
    let count = intersect_segment_arc_in(p1, p2, a, &mut room)?;
    Ok(hits(&room, count))
}

/// The crossings of a segment with an arc, to a room of at least 8 numbers; how many there are.
#[inline]
pub fn intersect_segment_arc_in(p1: vect2d, p2: vect2d, a: &(impl AsArc + ?Sized), room: &mut [f64]) -> Result<usize, Refusal> {
    let (n, marks) = arc(a);
    let mut count = 0;
    // SAFETY: the pointers and lengths are those of `n`, of `room` and of one number.
    let refusal = unsafe {
        ffi::arcs_intersect_segment_arc(
            p1.x, p1.y, p2.x, p2.y, n.as_ptr(), n.len(), marks, room.as_mut_ptr(), room.len(), &mut count, 1,
        )
    };
    result(refusal, count as usize)
}

/// The crossings of two arcs. Two circles are solved; where an ellipse takes part, `a` is searched in 256 cells.
pub fn intersect_arcs(a: &(impl AsArc + ?Sized), b: &(impl AsArc + ?Sized)) -> Result<Vec<CurveHit>, Refusal> {
    let (a, b) = (a.as_arc(), b.as_arc());
    if a.is_ellipse || b.is_ellipse {
        // The need of depth 0, without a heap.
        let mut room = [0.0; 256 * HIT];
        return intersect_arcs_in(&a, &b, 0, &mut room).map(|c| hits(&room, c.hits));
    }
    let mut room = [0.0; 2 * HIT];
    intersect_arcs_in(&a, &b, 0, &mut room).map(|c| hits(&room, c.hits))
}

/// The crossings of two arcs, with `a` searched in 256 times 2^depth cells where an ellipse takes part. A greater depth
/// sees smaller holes; each depth more takes about twice as long. From depth 1 on the end of `a` is found too where it
/// lies exactly on `b`.
///
/// ```
/// use arcs::{checked, vect2d, Arc};
///
/// let flange = Arc::ellipse(vect2d::new(0.0, 0.0), 1000.0, 1000.0, 0.0);
/// let hole = Arc::circle(vect2d::new(999.9247, 12.2715), 10.0);
/// assert_eq!(checked::intersect_arcs_at(&flange, &hole, 0)?.hits.len(), 0);
/// assert_eq!(checked::intersect_arcs_at(&flange, &hole, 1)?.hits.len(), 2);
/// # Ok::<(), arcs::Refusal>(())
/// ```
pub fn intersect_arcs_at(a: &(impl AsArc + ?Sized), b: &(impl AsArc + ?Sized), depth: u32) -> Result<Crossings, Refusal> {
    let (a, b) = (a.as_arc(), b.as_arc());
    let mut room = vec![0.0; room_for_arcs(&a, &b, depth)];
    intersect_arcs_in(&a, &b, depth, &mut room).map(|counts| Crossings { hits: hits(&room, counts.hits), counts })
}

/// The crossings of two arcs, to a room of at least [`room_for_arcs`] numbers.
#[inline]
pub fn intersect_arcs_in(a: &(impl AsArc + ?Sized), b: &(impl AsArc + ?Sized), depth: u32, room: &mut [f64]) -> Result<Counts, Refusal> {
    let ((m, a_marks), (n, b_marks)) = (arc(a), arc(b));
    counted(|counts, len| {
        // SAFETY: `counted` lends a pointer and its length; the others are those of `m`, `n` and `room`.
        unsafe {
            ffi::arcs_intersect_arcs(
                m.as_ptr(), m.len(), a_marks, n.as_ptr(), n.len(), b_marks, depth, room.as_mut_ptr(), room.len(), counts, len,
            )
        }
    })
}

/// The numbers that a room for the hits of two arcs must have.
#[must_use]
pub fn room_for_arcs(a: &(impl AsArc + ?Sized), b: &(impl AsArc + ?Sized), depth: u32) -> usize {
    // A depth above 3 is refused before the room is looked at.
    if a.as_arc().is_ellipse || b.as_arc().is_ellipse { (256 * HIT) << depth.min(3) } else { 2 * HIT }
}

/// The crossings of two curves of either kind. The depth is tested for every pair.
///
/// ```
/// use arcs::{checked, vect2d, Arc, Curve};
///
/// let across = Curve::Segment(vect2d::new(-2.0, 0.0), vect2d::new(2.0, 0.0));
/// let circle = Curve::Arc(Arc::circle(vect2d::new(0.0, 0.0), 1.0));
/// let found = checked::intersect(&circle, &across, 0)?;
/// assert_eq!(found.hits[0].pos, vect2d::new(-1.0, 0.0));
/// assert_eq!(found.hits[0].t_b, 0.25);
/// # Ok::<(), arcs::Refusal>(())
/// ```
pub fn intersect(a: &Curve, b: &Curve, depth: u32) -> Result<Crossings, Refusal> {
    let mut room = vec![0.0; room_for(a, b, depth)];
    intersect_in(a, b, depth, &mut room).map(|counts| Crossings { hits: hits(&room, counts.hits), counts })
}

/// The crossings of two curves of either kind, to a room of at least [`room_for`] numbers.
pub fn intersect_in(a: &Curve, b: &Curve, depth: u32, room: &mut [f64]) -> Result<Counts, Refusal> {
    let ((m, m_len, a_marks), (n, n_len, b_marks)) = (lent(a), lent(b));
    counted(|counts, len| {
        // SAFETY: `counted` lends a pointer and its length; `m` and `n` have at least the lengths of `lent`.
        unsafe {
            ffi::arcs_intersect(m.as_ptr(), m_len, a_marks, n.as_ptr(), n_len, b_marks, depth, room.as_mut_ptr(), room.len(), counts, len)
        }
    })
}

/// The numbers that a room for the hits of two curves must have.
#[must_use]
pub fn room_for(a: &Curve, b: &Curve, depth: u32) -> usize {
    match (a, b) {
        (Curve::Arc(a), Curve::Arc(b)) => room_for_arcs(a, b, depth),
        (Curve::Segment(..), Curve::Segment(..)) => HIT,
        _ => 2 * HIT,
    }
}

/// A curve's numbers, how many they are, and its marks.
fn lent(c: &Curve) -> ([f64; 7], usize, u32) {
    match c {
        Curve::Segment(p, q) => ([p.x, p.y, q.x, q.y, 0.0, 0.0, 0.0], 4, SEGMENT),
        Curve::Arc(a) => (a.numbers(), 7, a.marks()),
    }
}

#[inline]
fn counted(call: impl FnOnce(*mut u64, usize) -> u32) -> Result<Counts, Refusal> {
    let mut counts = [0; 6];
    let refusal = call(counts.as_mut_ptr(), counts.len());
    let [hits, brackets, outside_a, outside_b, doubles, evaluations] = counts.map(|n| n as usize);
    result(refusal, Counts { hits, brackets, outside_a, outside_b, doubles, evaluations })
}

/// The hit `i` (the first is 0) of `count` hits in a room that a call has written. None for an index not below the count, or
/// where its four numbers do not all fit in the room.
#[must_use]
pub fn hit(room: &[f64], count: usize, i: usize) -> Option<CurveHit> {
    let (mut out, mut len) = ([0.0; HIT], 0);
    // SAFETY: the pointers and lengths are those of `room`, of `out` and of one number.
    unsafe { ffi::arcs_hit(room.as_ptr(), room.len(), count, i, out.as_mut_ptr(), out.len(), &mut len, 1) };
    let [t_a, t_b, x, y] = out;
    (len == HIT as u64).then_some(CurveHit { t_a, t_b, pos: vect2d::new(x, y) })
}
