// What the original's text needs of its own crates, and no more: the vector, a parameter with its value, the arc.
#[allow(non_camel_case_types)]
#[derive(Clone, Copy, Debug)]
pub struct vect2d {
    pub x: f64,
    pub y: f64,
}

impl vect2d {
    pub fn new(x: f64, y: f64) -> Self {
        vect2d { x, y }
    }
}

#[derive(Clone, Copy, Debug)]
pub struct Param<T> {
    pub value: T,
}

#[derive(Clone, Copy, Debug)]
pub struct Arc {
    pub center: Param<vect2d>,
    pub radius: Param<f64>,
    pub radius_b: Param<f64>,
    pub rotation: Param<f64>,
    pub start_angle: Param<f64>,
    pub end_angle: Param<f64>,
    pub closed: bool,
    pub is_ellipse: bool,
    pub ccw: bool,
}

impl From<arcs::vect2d> for vect2d {
    fn from(p: arcs::vect2d) -> vect2d {
        vect2d::new(p.x, p.y)
    }
}

impl From<arcs::Arc> for Arc {
    fn from(a: arcs::Arc) -> Arc {
        Arc {
            center: Param { value: a.center.value.into() },
            radius: Param { value: a.radius.value },
            radius_b: Param { value: a.radius_b.value },
            rotation: Param { value: a.rotation.value },
            start_angle: Param { value: a.start_angle.value },
            end_angle: Param { value: a.end_angle.value },
            closed: a.closed,
            is_ellipse: a.is_ellipse,
            ccw: a.ccw,
        }
    }
}
