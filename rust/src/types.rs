//! What the calls take and give back.
use crate::as_arc::AsArc;
use crate::geometry;
use alloc::vec::Vec;

/// A position or a direction.
#[allow(non_camel_case_types)]
#[derive(Clone, Copy, Debug, Default, PartialEq)]
pub struct vect2d {
    /// To the right.
    pub x: f64,
    /// Upwards.
    pub y: f64,
}

impl vect2d {
    /// The position (x, y), or the direction.
    #[inline]
    #[must_use]
    pub fn new(x: f64, y: f64) -> Self {
        vect2d { x, y }
    }
}

/// A number or a position that a drafting program may vary. Here it is the value alone: [`Param::new`] and [`Param::fixed`]
/// give the same, and whether it may vary is for the program's solver to keep.
#[derive(Clone, Copy, Debug, Default, PartialEq)]
pub struct Param<T> {
    /// What it is now.
    pub value: T,
}

impl<T> Param<T> {
    /// A value that the program's solver may vary.
    #[inline]
    #[must_use]
    pub fn new(value: T) -> Self {
        Param { value }
    }

    /// A value that the program's solver may not vary.
    #[inline]
    #[must_use]
    pub fn fixed(value: T) -> Self {
        Param { value }
    }
}

/// An arc of a circle or of an ellipse. A program whose own arc has more fields lets it stand for this one: [`AsArc`].
///
/// Angles are parametric: the point at `t` is the centre plus `radius * cos t` and `radius_b * sin t` along axes turned by
/// `rotation`. A circle is meant to have `radius_b` equal to `radius`.
#[derive(Clone, Copy, Debug, PartialEq)]
pub struct Arc {
    /// The middle of the circle or ellipse.
    pub center: Param<vect2d>,
    /// The radius, along the turned x axis.
    pub radius: Param<f64>,
    /// The radius along the turned y axis.
    pub radius_b: Param<f64>,
    /// How far the axes are turned, counter-clockwise.
    pub rotation: Param<f64>,
    /// The parametric angle at which it begins.
    pub start_angle: Param<f64>,
    /// The parametric angle at which it ends.
    pub end_angle: Param<f64>,
    /// The whole curve, from the start angle once round.
    pub closed: bool,
    /// An ellipse, even if its radii are equal: crossings with it are searched, not solved.
    pub is_ellipse: bool,
    /// From start to end counter-clockwise. A closed arc goes so whatever its mark.
    pub ccw: bool,
}

/// The last four are the original's; they panic as [`crate::geometry`] does.
impl Arc {
    /// A whole circle that starts at the angle 0.
    #[must_use]
    pub fn circle(center: vect2d, radius: f64) -> Self {
        Arc { is_ellipse: false, ..Arc::ellipse(center, radius, radius, 0.0) }
    }

    /// A whole ellipse that starts at the angle 0.
    #[must_use]
    pub fn ellipse(center: vect2d, radius: f64, radius_b: f64, rotation: f64) -> Self {
        Arc {
            center: Param::new(center),
            radius: Param::new(radius),
            radius_b: Param::new(radius_b),
            rotation: Param::new(rotation),
            start_angle: Param::new(0.0),
            end_angle: Param::new(core::f64::consts::TAU),
            closed: true,
            is_ellipse: true,
            ccw: true,
        }
    }

    /// The point at the parametric angle `t`: [`geometry::arc_point_at`].
    #[inline]
    #[must_use]
    #[track_caller]
    pub fn point_at(&self, t: f64) -> vect2d {
        geometry::arc_point_at(self, t)
    }

    /// The direction at the parametric angle `t`, for rising `t`: [`geometry::arc_tangent_at`].
    #[inline]
    #[must_use]
    #[track_caller]
    pub fn tangent_at(&self, t: f64) -> vect2d {
        geometry::arc_tangent_at(self, t)
    }

    /// The point at the start angle.
    #[inline]
    #[must_use]
    #[track_caller]
    pub fn start_pos(&self) -> vect2d {
        geometry::arc_start_pos(self)
    }

    /// The point at the end angle.
    #[inline]
    #[must_use]
    #[track_caller]
    pub fn end_pos(&self) -> vect2d {
        geometry::arc_end_pos(self)
    }

    /// The seven numbers in the order of the exports.
    #[inline]
    pub(crate) fn numbers(&self) -> [f64; 7] {
        let c = self.center.value;
        [c.x, c.y, self.radius.value, self.radius_b.value, self.rotation.value, self.start_angle.value, self.end_angle.value]
    }

    #[inline]
    pub(crate) fn marks(&self) -> u32 {
        self.ccw as u32 | (self.closed as u32) << 1 | (self.is_ellipse as u32) << 2
    }
}

/// A curve of a drawing: a segment by its two ends, or an arc.
#[derive(Clone, Copy, Debug, PartialEq)]
pub enum Curve {
    /// From the first position to the second.
    Segment(vect2d, vect2d),
    /// An arc, or a whole circle or ellipse.
    Arc(Arc),
}

impl<A: AsArc + ?Sized> From<&A> for Curve {
    fn from(a: &A) -> Self {
        Curve::Arc(a.as_arc())
    }
}

/// One crossing of two curves. A parameter goes from 0 to 1 on a segment, and is the angle on an arc.
#[derive(Clone, Copy, Debug, PartialEq)]
pub struct CurveHit {
    /// The parameter on the first curve.
    pub t_a: f64,
    /// The parameter on the second curve.
    pub t_b: f64,
    /// Where they cross.
    pub pos: vect2d,
}

/// What the sampled search of two arcs counted. All but the hits are 0 where nothing is sampled: two circles, or a segment.
///
/// A bracket is a cell of the first arc whose ends lie on different sides of the second, or whose first end lies on it, and from
/// depth 1 on the last cell also where its last end does; a cell that is crossed twice is none. Each has one fate, so
/// `hits + outside_a + outside_b + doubles == brackets` where an ellipse takes part.
#[derive(Clone, Copy, Debug, Default, PartialEq, Eq)]
pub struct Counts {
    /// The crossings found.
    pub hits: usize,
    /// The cells that catch a crossing.
    pub brackets: usize,
    /// Brackets whose crossing is outside the first arc's span.
    pub outside_a: usize,
    /// Brackets whose crossing is in the first arc's span and outside the second's.
    pub outside_b: usize,
    /// Brackets whose crossing was found before.
    pub doubles: usize,
    /// How many points of the first arc were worked out.
    pub evaluations: usize,
}

/// The hits of two curves, with what the search counted.
#[derive(Clone, Debug, PartialEq)]
pub struct Crossings {
    /// The crossings, in the order in which they were found.
    pub hits: Vec<CurveHit>,
    /// What the search counted.
    pub counts: Counts,
}
