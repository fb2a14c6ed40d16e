/// Point on a rotated ellipse at parametric angle `t`.
pub fn ellipse_point(center: vect2d, rx: f64, ry: f64, rot: f64, t: f64) -> vect2d {
    let ct = t.cos();
    let st = t.sin();
    let cr = rot.cos();
    let sr = rot.sin();
    vect2d::new(
        center.x + rx * ct * cr - ry * st * sr,
        center.y + rx * ct * sr + ry * st * cr,
    )
}

/// Tangent direction of a rotated ellipse at parametric angle `t`
/// (derivative of [`ellipse_point`] with respect to `t`).
pub fn ellipse_tangent(rx: f64, ry: f64, rot: f64, t: f64) -> vect2d {
    let ct = t.cos();
    let st = t.sin();
    let cr = rot.cos();
    let sr = rot.sin();
    vect2d::new(
        -rx * st * cr - ry * ct * sr,
        -rx * st * sr + ry * ct * cr,
    )
}

impl Arc {
    /// Point on the arc/ellipse at parametric angle `t`.
    pub fn point_at(&self, t: f64) -> vect2d {
        ellipse_point(self.center.value, self.radius.value, self.radius_b.value,
                      self.rotation.value, t)
    }

    /// Tangent direction at parametric angle `t`.
    pub fn tangent_at(&self, t: f64) -> vect2d {
        ellipse_tangent(self.radius.value, self.radius_b.value, self.rotation.value, t)
    }

    /// Position of the arc's start endpoint.
    pub fn start_pos(&self) -> vect2d {
        self.point_at(self.start_angle.value)
    }

    /// Position of the arc's end endpoint.
    pub fn end_pos(&self) -> vect2d {
        self.point_at(self.end_angle.value)
    }
}
