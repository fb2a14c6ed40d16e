//! A program's own arc in the place of [`Arc`].
use crate::types::{vect2d, Arc};
use core::ops::Deref;

/// What every call takes for an arc: [`Arc`] itself, a program's own arc with more fields, and whatever dereferences to
/// either (a reference, a `Box`, an `Rc`, a guard), as `&Arc` takes it by deref coercion.
///
/// A program implements it once, and its calls stay as they are:
///
/// ```
/// use arcs::geometry::intersect_arcs;
/// use arcs::{vect2d, Arc, ArcMethods, AsArc, Param};
///
/// struct Drawn {
///     center: vect2d,
///     radius: f64,
///     layer: String,
/// }
///
/// impl AsArc for Drawn {
///     fn as_arc(&self) -> Arc {
///         Arc::circle(self.center, self.radius)
///     }
/// }
///
/// impl ArcMethods for Drawn {}
///
/// let rim = Drawn { center: vect2d::new(0.0, 0.0), radius: 5.0, layer: "rim".into() };
/// let hole = Box::new(Drawn { center: vect2d::new(6.0, 0.0), radius: 5.0, layer: "holes".into() });
/// assert_eq!(intersect_arcs(&rim, &hole)[0].pos, vect2d::new(3.0, 4.0));
/// assert_eq!(hole.start_pos(), vect2d::new(11.0, 0.0));
/// ```
///
/// Its cost is that of copying nine fields. Three things it cannot do. Where only the parameter's type said what an argument is
/// (`arc_start_pos(&read().into())`), the program has to name it. It is implemented in the crate that declares the arc: an arc
/// of another crate needs a wrapper. And an arc that dereferences to a type of another crate cannot implement it.
#[diagnostic::on_unimplemented(
    message = "`{Self}` does not stand for an arc",
    note = "implement `arcs::AsArc` for the program's own arc"
)]
pub trait AsArc {
    /// The arc that it stands for.
    #[must_use]
    fn as_arc(&self) -> Arc;
}

impl AsArc for Arc {
    #[inline]
    fn as_arc(&self) -> Arc {
        *self
    }
}

impl<P: Deref> AsArc for P
where
    P::Target: AsArc,
{
    #[inline]
    fn as_arc(&self) -> Arc {
        (**self).as_arc()
    }
}

/// The methods of [`Arc`] for a program's own arc: `impl arcs::ArcMethods for Own {}` beside its [`AsArc`].
///
/// Not for all that is `AsArc`: were it so of a `Box<Own>` or a `&mut Own` too, it would hide methods of these names that
/// `Own` has itself. So those of `Own` always come first.
///
/// # Panics
///
/// As [`crate::geometry`].
pub trait ArcMethods: AsArc {
    /// As [`Arc::point_at`].
    #[inline]
    #[must_use]
    #[track_caller]
    fn point_at(&self, t: f64) -> vect2d {
        self.as_arc().point_at(t)
    }

    /// As [`Arc::tangent_at`].
    #[inline]
    #[must_use]
    #[track_caller]
    fn tangent_at(&self, t: f64) -> vect2d {
        self.as_arc().tangent_at(t)
    }

    /// As [`Arc::start_pos`].
    #[inline]
    #[must_use]
    #[track_caller]
    fn start_pos(&self) -> vect2d {
        self.as_arc().start_pos()
    }

    /// As [`Arc::end_pos`].
    #[inline]
    #[must_use]
    #[track_caller]
    fn end_pos(&self) -> vect2d {
        self.as_arc().end_pos()
    }
}
