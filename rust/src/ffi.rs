//! The exports of the static library, as include/arcs.h has them. A slice is a pointer and a length. All but those that
//! return an f64 give back the refusal's number, 0 for none; a refused call writes nothing.
//!
//! No call has a demand on its numbers or lengths, nor keeps a pointer. So a call is sound where each pointer, with its
//! length, is that of a Rust slice.

extern "C" {
    pub fn arcs_sqrt(x: f64) -> f64;
    pub fn arcs_sin(x: f64) -> f64;
    pub fn arcs_cos(x: f64) -> f64;
    pub fn arcs_sin_cos(x: f64, out: *mut f64, out_len: usize) -> u32;
    pub fn arcs_atan2(y: f64, x: f64) -> f64;
    pub fn arcs_acos(c: f64) -> f64;

    pub fn arcs_ellipse_point(cx: f64, cy: f64, rx: f64, ry: f64, rot: f64, t: f64, out: *mut f64, out_len: usize) -> u32;
    pub fn arcs_ellipse_tangent(rx: f64, ry: f64, rot: f64, t: f64, out: *mut f64, out_len: usize) -> u32;
    pub fn arcs_arc_point_at(a: *const f64, a_len: usize, a_marks: u32, t: f64, out: *mut f64, out_len: usize) -> u32;
    pub fn arcs_arc_tangent_at(a: *const f64, a_len: usize, a_marks: u32, t: f64, out: *mut f64, out_len: usize) -> u32;
    pub fn arcs_arc_start_pos(a: *const f64, a_len: usize, a_marks: u32, out: *mut f64, out_len: usize) -> u32;
    pub fn arcs_arc_end_pos(a: *const f64, a_len: usize, a_marks: u32, out: *mut f64, out_len: usize) -> u32;

    pub fn arcs_norm_tau(v: f64, out: *mut f64, out_len: usize) -> u32;
    pub fn arcs_arc_param_in_span(a: *const f64, a_len: usize, a_marks: u32, theta: f64, out: *mut f64, out_len: usize) -> u32;
    pub fn arcs_arc_radii(a: *const f64, a_len: usize, a_marks: u32, out: *mut f64, out_len: usize) -> u32;
    pub fn arcs_arc_theta_of_pos(a: *const f64, a_len: usize, a_marks: u32, px: f64, py: f64, out: *mut f64, out_len: usize) -> u32;
    pub fn arcs_arc_param_at_point(a: *const f64, a_len: usize, a_marks: u32, px: f64, py: f64, out: *mut f64, out_len: usize) -> u32;

    pub fn arcs_point_to_segment_dist(px: f64, py: f64, ax: f64, ay: f64, bx: f64, by: f64, out: *mut f64, out_len: usize) -> u32;
    pub fn arcs_project_onto_segment(px: f64, py: f64, ax: f64, ay: f64, bx: f64, by: f64, out: *mut f64, out_len: usize) -> u32;
    pub fn arcs_line_line_intersection(
        x1: f64, y1: f64, x2: f64, y2: f64, x3: f64, y3: f64, x4: f64, y4: f64, out: *mut f64, out_len: usize,
    ) -> u32;

    pub fn arcs_intersect_segments(
        ax1: f64, ay1: f64, ax2: f64, ay2: f64, bx1: f64, by1: f64, bx2: f64, by2: f64,
        room: *mut f64, room_len: usize, counts: *mut u64, counts_len: usize,
    ) -> u32;
    pub fn arcs_intersect_segment_arc(
        x1: f64, y1: f64, x2: f64, y2: f64, a: *const f64, a_len: usize, a_marks: u32,
        room: *mut f64, room_len: usize, counts: *mut u64, counts_len: usize,
    ) -> u32;
    pub fn arcs_intersect_arcs(
        a: *const f64, a_len: usize, a_marks: u32, b: *const f64, b_len: usize, b_marks: u32, depth: u32,
        room: *mut f64, room_len: usize, counts: *mut u64, counts_len: usize,
    ) -> u32;
    pub fn arcs_intersect(
        a: *const f64, a_len: usize, a_marks: u32, b: *const f64, b_len: usize, b_marks: u32, depth: u32,
        room: *mut f64, room_len: usize, counts: *mut u64, counts_len: usize,
    ) -> u32;
    pub fn arcs_hit(
        room: *const f64, room_len: usize, count: usize, i: usize, out: *mut f64, out_len: usize, counts: *mut u64, counts_len: usize,
    ) -> u32;

    pub fn arcs_point_to_arc_dist(px: f64, py: f64, a: *const f64, a_len: usize, a_marks: u32, out: *mut f64, out_len: usize) -> u32;
    pub fn arcs_nearest_arc_param(a: *const f64, a_len: usize, a_marks: u32, px: f64, py: f64, out: *mut f64, out_len: usize) -> u32;

    pub fn arcs_svg_arc_to_center(
        x1: f64, y1: f64, x2: f64, y2: f64, rx: f64, ry: f64, rotation: f64, large_arc: u32, sweep: u32, out: *mut f64, out_len: usize,
    ) -> u32;
    pub fn arcs_circumscribed_arc(x1: f64, y1: f64, x2: f64, y2: f64, x3: f64, y3: f64, out: *mut f64, out_len: usize) -> u32;
    pub fn arcs_circle_tangent_through(sx: f64, sy: f64, ex: f64, ey: f64, tx: f64, ty: f64, out: *mut f64, out_len: usize) -> u32;
    pub fn arcs_fit_earc_tangent(
        x1: f64, y1: f64, tx1: f64, ty1: f64, x2: f64, y2: f64, tx2: f64, ty2: f64, bulge: f64, out: *mut f64, out_len: usize,
    ) -> u32;
}

#[cfg(test)]
mod tests {
    use super::*;

    const UNIT: [f64; 7] = [0.0, 0.0, 1.0, 1.0, 0.0, 0.0, 0.0];
    const MARK: f64 = 7.0;

    /// Refused with 4 one place short, with nothing written; answered with just enough.
    fn needs<const N: usize>(call: impl Fn(*mut f64, usize) -> u32) {
        for len in 0..N {
            let mut out = [MARK; N];
            assert_eq!(call(out.as_mut_ptr(), len), 4);
            assert_eq!(out, [MARK; N]);
        }
        assert_eq!(call([MARK; N].as_mut_ptr(), N), 0);
    }

    #[test]
    fn a_short_place_for_numbers() {
        let (a, n) = (UNIT.as_ptr(), UNIT.len());
        unsafe {
            needs::<2>(|out, len| arcs_sin_cos(1.0, out, len));
            needs::<2>(|out, len| arcs_ellipse_point(0.0, 0.0, 1.0, 1.0, 0.0, 0.0, out, len));
            needs::<2>(|out, len| arcs_ellipse_tangent(1.0, 1.0, 0.0, 0.0, out, len));
            needs::<2>(|out, len| arcs_arc_point_at(a, n, 3, 0.0, out, len));
            needs::<2>(|out, len| arcs_arc_tangent_at(a, n, 3, 0.0, out, len));
            needs::<2>(|out, len| arcs_arc_start_pos(a, n, 3, out, len));
            needs::<2>(|out, len| arcs_arc_end_pos(a, n, 3, out, len));
            needs::<1>(|out, len| arcs_norm_tau(1.0, out, len));
            needs::<1>(|out, len| arcs_arc_param_in_span(a, n, 3, 0.0, out, len));
            needs::<2>(|out, len| arcs_arc_radii(a, n, 3, out, len));
            needs::<1>(|out, len| arcs_arc_theta_of_pos(a, n, 3, 1.0, 0.0, out, len));
            needs::<1>(|out, len| arcs_arc_param_at_point(a, n, 3, 1.0, 0.0, out, len));
            needs::<1>(|out, len| arcs_point_to_segment_dist(0.0, 0.0, 1.0, 0.0, 2.0, 0.0, out, len));
            needs::<2>(|out, len| arcs_project_onto_segment(0.0, 0.0, 1.0, 0.0, 2.0, 0.0, out, len));
            needs::<2>(|out, len| arcs_line_line_intersection(0.0, 0.0, 1.0, 0.0, 0.0, 1.0, 1.0, 2.0, out, len));
            needs::<3>(|out, len| arcs_point_to_arc_dist(2.0, 0.0, a, n, 3, out, len));
            needs::<1>(|out, len| arcs_nearest_arc_param(a, n, 3, 2.0, 0.0, out, len));
            needs::<6>(|out, len| arcs_svg_arc_to_center(1.0, 0.0, -1.0, 0.0, 1.0, 1.0, 0.0, 0, 1, out, len));
            needs::<6>(|out, len| arcs_circumscribed_arc(1.0, 0.0, -1.0, 0.0, 0.0, 1.0, out, len));
            needs::<3>(|out, len| arcs_circle_tangent_through(0.0, 0.0, 2.0, 0.0, 0.0, 1.0, out, len));
            needs::<8>(|out, len| arcs_fit_earc_tangent(1.0, 0.0, 0.0, 1.0, 0.0, 1.0, -1.0, 0.0, 0.4, out, len));
        }
    }

    /// 1, 2 and 3 come before 4, and 4 before 5 and 6.
    #[test]
    fn the_order_of_refusals() {
        let partial = [0.0, 0.0, 1.0, 1.0, 0.0, 0.0, 1.0];
        let mut out = [MARK; 6];
        let at = out.as_mut_ptr();
        unsafe {
            let in_line = |x3, len| arcs_circumscribed_arc(0.0, 0.0, 1.0, 0.0, x3, 0.0, at, len);
            assert_eq!([in_line(2.0, 6), in_line(2.0, 5), in_line(f64::NAN, 5), in_line(2e6, 5)], [5, 4, 1, 2]);
            let outside = |theta, len| arcs_arc_param_in_span(partial.as_ptr(), 7, 1, theta, at, len);
            assert_eq!([outside(3.0, 1), outside(3.0, 0), outside(f64::NAN, 0), outside(1025.0, 0)], [6, 4, 1, 2]);
        }
        assert_eq!(out, [MARK; 6]);
    }

    /// Refused with 4 where a count has no place, with nothing written.
    fn counts<const N: usize>(call: impl Fn(*mut f64, usize, *mut u64, usize) -> u32) {
        for len in 0..N {
            let (mut room, mut counts) = ([MARK; 8], [7; N]);
            assert_eq!(call(room.as_mut_ptr(), 8, counts.as_mut_ptr(), len), 4);
            assert_eq!((room, counts), ([MARK; 8], [7; N]));
        }
        let (mut room, mut counts) = ([MARK; 8], [7; N]);
        assert_eq!(call(room.as_mut_ptr(), 8, counts.as_mut_ptr(), N), 0);
        assert!(counts[0] > 0 && room[0] != MARK);
    }

    #[test]
    fn a_short_place_for_counts() {
        let (a, n) = (UNIT.as_ptr(), UNIT.len());
        let across = [-2.0, 0.0, 2.0, 0.0];
        unsafe {
            counts::<1>(|room, len, counts, places| arcs_intersect_segments(0.0, 0.0, 2.0, 2.0, 0.0, 2.0, 2.0, 0.0, room, len, counts, places));
            counts::<1>(|room, len, counts, places| arcs_intersect_segment_arc(-2.0, 0.0, 2.0, 0.0, a, n, 3, room, len, counts, places));
            counts::<6>(|room, len, counts, places| arcs_intersect(across.as_ptr(), 4, 8, a, n, 3, 0, room, len, counts, places));
            let b = [1.0, 0.0, 1.0, 1.0, 0.0, 0.0, 0.0];
            counts::<6>(|room, len, counts, places| arcs_intersect_arcs(a, n, 3, b.as_ptr(), 7, 3, 0, room, len, counts, places));
            let hits = [1.0, 2.0, 3.0, 4.0];
            counts::<1>(|out, len, counts, places| arcs_hit(hits.as_ptr(), 4, 1, 0, out, len, counts, places));
            needs::<4>(|out, len| arcs_hit(hits.as_ptr(), 4, 1, 0, out, len, &mut 0, 1));
        }
    }

    /// A number that was not lent is a NaN.
    #[test]
    fn an_arc_with_too_few_numbers() {
        let mut out = [MARK; 2];
        assert_eq!(unsafe { arcs_arc_point_at(UNIT.as_ptr(), 6, 3, 0.0, out.as_mut_ptr(), 2) }, 1);
        assert_eq!(out, [MARK; 2]);
    }
}
