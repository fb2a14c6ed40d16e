//! A program's own arc, with a parameter of its own and more fields, as arael's has them.
use arcs::{vect2d, ArcMethods, AsArc};

#[derive(Clone, Debug, PartialEq)]
pub struct Param<T> {
    pub value: T,
    pub varies: bool,
}

impl<T> Param<T> {
    pub fn new(value: T) -> Self {
        Param { value, varies: true }
    }

    pub fn fixed(value: T) -> Self {
        Param { value, varies: false }
    }
}

#[derive(Clone, Debug, PartialEq)]
pub struct Arc {
    pub name: String,
    pub construction: bool,
    pub center: Param<vect2d>,
    pub radius: Param<f64>,
    pub radius_b: Param<f64>,
    pub rotation: Param<f64>,
    pub start_angle: Param<f64>,
    pub end_angle: Param<f64>,
    pub closed: bool,
    pub is_ellipse: bool,
    pub ccw: bool,
}

impl AsArc for Arc {
    fn as_arc(&self) -> arcs::Arc {
        arcs::Arc {
            center: arcs::Param::new(self.center.value),
            radius: arcs::Param::new(self.radius.value),
            radius_b: arcs::Param::new(self.radius_b.value),
            rotation: arcs::Param::new(self.rotation.value),
            start_angle: arcs::Param::new(self.start_angle.value),
            end_angle: arcs::Param::new(self.end_angle.value),
            closed: self.closed,
            is_ellipse: self.is_ellipse,
            ccw: self.ccw,
        }
    }
}

impl ArcMethods for Arc {}

pub fn rest() -> Arc {
    Arc {
        name: "outline".into(),
        construction: true,
        center: Param::new(vect2d::new(0.0, 0.0)),
        radius: Param::new(1.0),
        radius_b: Param::new(1.0),
        rotation: Param::fixed(0.0),
        start_angle: Param::new(0.0),
        end_angle: Param::new(0.0),
        closed: true,
        is_ellipse: false,
        ccw: true,
    }
}

/// An arc with methods of its own by the names of [`ArcMethods`].
struct Named(f64);

impl Named {
    fn start_pos(&self) -> &'static str {
        "its own"
    }
}

impl AsArc for Named {
    fn as_arc(&self) -> arcs::Arc {
        arcs::Arc::circle(vect2d::new(0.0, 0.0), self.0)
    }
}

impl ArcMethods for Named {}

#[test]
fn a_programs_own_methods_come_first() {
    let mut named = Named(2.0);
    assert_eq!(named.start_pos(), "its own");
    let shared = &named;
    assert_eq!(shared.start_pos(), "its own");
    let unique = &mut named;
    assert_eq!(unique.start_pos(), "its own");
    assert_eq!(std::rc::Rc::new(Named(3.0)).start_pos(), "its own");
    let boxed = Box::new(named);
    assert_eq!(boxed.start_pos(), "its own");
    assert_eq!(boxed.end_pos().x, 2.0);
    assert_eq!(arcs::geometry::arc_start_pos(&boxed).x, 2.0);
}

#[test]
fn an_arc_behind_a_trait_object() {
    let shapes: [Box<dyn AsArc>; 2] = [Box::new(Named(2.0)), Box::new(rest())];
    assert_eq!(shapes.each_ref().map(|s| arcs::geometry::arc_start_pos(&**s).x), [2.0, 1.0]);
    assert_eq!(shapes.each_ref().map(|s| arcs::geometry::arc_start_pos(s).x), [2.0, 1.0]);
    assert_eq!(arcs::Curve::from(&shapes[0]), arcs::Curve::Arc(arcs::Arc::circle(vect2d::new(0.0, 0.0), 2.0)));
}
