//! The hunt at every depth, in plain Rust: the original's loop with 01's N = 256 times 2^depth cells and 02's rule for the last of
//! them, and counts. Points, spans and angles are the oracle's.
use crate::oracle::{arc_param_in_span, arc_radii, arc_theta_of_pos, vect2d, Arc, CurveHit};
use crate::Routed;
use arcs::Counts;
use std::f64::consts::TAU;

/// 0 on b, negative inside.
pub fn implicit(b: &Arc, p: vect2d) -> f64 {
    let (ra, rb) = arc_radii(b);
    let (cos_r, sin_r) = (b.rotation.value.routed_cos(), b.rotation.value.routed_sin());
    let dx = p.x - b.center.value.x;
    let dy = p.y - b.center.value.y;
    let xl = (cos_r * dx + sin_r * dy) / ra;
    let yl = (-sin_r * dx + cos_r * dy) / rb;
    xl * xl + yl * yl - 1.0
}

/// The angle of the last sample, which is the same at every depth: a step times the number of steps is the span, bit for bit.
pub fn last_sample(a: &Arc) -> f64 {
    let start = a.start_angle.value;
    let end = if a.closed { start + TAU } else { a.end_angle.value };
    start + (end - start)
}

/// The angles to which the brackets are narrowed, in order, and how many points were looked at for them.
pub fn narrowed(a: &Arc, b: &Arc, depth: u32) -> (Vec<f64>, usize) {
    let (mut angles, mut evaluations) = (Vec::new(), 0);
    let (ra, rb) = arc_radii(b);
    let start = a.start_angle.value;
    let end = if a.closed { start + TAU } else { a.end_angle.value };
    let n = 256 << depth;
    // "uses the step of depth 0 at every depth"
    if ra < 1e-12 || rb < 1e-12 || ((end - start) / 256.0).abs() < 1e-15 {
        return (angles, 0);
    }
    let step = (end - start) / n as f64;
    let mut g = |t: f64| {
        evaluations += 1;
        implicit(b, a.point_at(t))
    };
    let (mut before, mut g_before) = (start, g(start));
    for i in 1..=n {
        let t = start + step * i as f64;
        let g_t = g(t);
        // 02, K5: "At depths 1 to 3 the last cell shall also bracket when its end value is 0."
        let ends_on_b = depth > 0 && i == n && g_t == 0.0;
        if g_before == 0.0 || g_before * g_t < 0.0 || ends_on_b {
            let (mut low, mut high, mut g_low) = (before, t, g_before);
            for _ in 0..60 {
                let mid = 0.5 * (low + high);
                let g_mid = g(mid);
                if g_low * g_mid <= 0.0 {
                    high = mid;
                } else {
                    (low, g_low) = (mid, g_mid);
                }
            }
            angles.push(0.5 * (low + high));
        }
        (before, g_before) = (t, g_t);
    }
    // The point at each of these angles is one more.
    let points = angles.len();
    (angles, evaluations + points)
}

/// The hits and counts of a pair in which an ellipse takes part.
pub fn search(a: &Arc, b: &Arc, depth: u32) -> (Vec<CurveHit>, Counts) {
    let (angles, evaluations) = narrowed(a, b, depth);
    let (mut hits, mut counts) = (Vec::<CurveHit>::new(), Counts { brackets: angles.len(), evaluations, ..Counts::default() });
    for middle in angles {
        let pos = a.point_at(middle);
        match (arc_param_in_span(a, middle), arc_param_in_span(b, arc_theta_of_pos(b, pos))) {
            (None, _) => counts.outside_a += 1,
            (_, None) => counts.outside_b += 1,
            (Some(t_a), _) if hits.iter().any(|h| (h.t_a - t_a).abs() < 1e-7) => counts.doubles += 1,
            (Some(t_a), Some(t_b)) => hits.push(CurveHit { t_a, t_b, pos }),
        }
    }
    counts.hits = hits.len();
    (hits, counts)
}
