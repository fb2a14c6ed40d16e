//! The conic fit: call 19.
use super::edge::Edge;
use super::{of, real, reals, Row};
use crate::Random;

/// The inner numbers of the fit that are tested, without the tests.
struct Steps {
    chord_len: f64,
    denom: f64,
    center_side: f64,
    m_val: f64,
    /// The conic's entries 00, 01, 11.
    a: f64,
    b: f64,
    c: f64,
    det2: f64,
    ev1: f64,
    ev2: f64,
    rx_sq: f64,
    ry_sq: f64,
}

fn steps(w: &[u64]) -> Steps {
    let [x1, y1, tx1, ty1, x2, y2, tx2, ty2, bulge] = [0, 1, 2, 3, 4, 5, 6, 7, 8].map(|i| real(w, i));
    let (dx, dy) = (x2 - x1, y2 - y1);
    let chord_len = (dx * dx + dy * dy).sqrt();
    let half = chord_len / 2.0;
    let l1 = [ty1, -tx1, -(ty1 * x1 - tx1 * y1)];
    let l2 = [ty2, -tx2, -(ty2 * x2 - tx2 * y2)];
    let m = [dy, -dx, -(dy * x1 - dx * y1)];
    let m_len = (m[0] * m[0] + m[1] * m[1]).sqrt();
    let m = m.map(|n| n / m_len);
    let at = |l: [f64; 3], x: f64, y: f64| l[0] * x + l[1] * y + l[2];
    let (n1, n2) = ([-ty1, tx1], [-ty2, tx2]);
    let denom = n1[0] * n2[1] - n1[1] * n2[0];
    let s = (dx * n2[1] - dy * n2[0]) / denom;
    let center_side = at(m, x1 + s * n1[0], y1 + s * n1[1]);
    let sign = if denom.abs() > 1e-12 && center_side >= 0.0 { -1.0 } else { 1.0 };
    let (perp_x, perp_y) = (-(dy / chord_len), dx / chord_len);
    let mid = ((x1 + x2) / 2.0 + perp_x * sign * bulge * half, (y1 + y2) / 2.0 + perp_y * sign * bulge * half);
    let m_val = at(m, mid.0, mid.1);
    let lambda = -(at(l1, mid.0, mid.1) * at(l2, mid.0, mid.1)) / (m_val * m_val);
    let q = |i: usize, j: usize| (l1[i] * l2[j] + l2[i] * l1[j]) / 2.0 + lambda * m[i] * m[j];
    let (a, b, c, d, e, f) = (q(0, 0), q(0, 1), q(1, 1), q(0, 2), q(1, 2), q(2, 2));
    let det2 = a * c - b * b;
    let (cx, cy) = ((b * e - c * d) / det2, (b * d - a * e) / det2);
    let disc = ((a - c) * (a - c) + 4.0 * b * b).sqrt();
    let (ev1, ev2) = ((a + c + disc) / 2.0, (a + c - disc) / 2.0);
    let f_prime = f + d * cx + e * cy;
    Steps { chord_len, denom, center_side, m_val, a, b, c, det2, ev1, ev2, rx_sq: -f_prime / ev1, ry_sq: -f_prime / ev2 }
}

impl Steps {
    /// Whether the tests before that of the radii are passed.
    fn has_axes(&self) -> bool {
        self.m_val.abs() >= 1e-12 && self.det2 > 1e-12 && self.ev1.abs() >= 1e-12 && self.ev2.abs() >= 1e-12
    }
}

/// The first drawn fits with some property: small arcs far from the origin, in which rounding decides.
#[track_caller]
fn drawn(property: impl Fn(&Steps) -> bool, count: usize) -> Vec<Row> {
    let mut random = Random(1);
    let mut found = Vec::new();
    for _ in 0..5_000_000 {
        let mut r = |size: f64| random.within(size);
        let far = [1.0, 1e3, 1e5, 1e6][(r(2.0) + 2.0) as usize];
        let size = [1.0, 1e-3, 1e3, 1e-6][(r(2.0) + 2.0) as usize];
        let (x, y) = (r(far), r(far));
        let words = reals([x, y, r(100.0), r(100.0), x + r(size), y + r(size), r(100.0), r(100.0), r(3.0)]).to_vec();
        if property(&steps(&words)) {
            found.push(of(25, words));
            if found.len() == count {
                return found;
            }
        }
    }
    panic!("no such fit was drawn");
}

/// The first fits with some property among those at a parabola: the bulge is moved to where the determinant turns, and there rounding
/// decides on the signs of the eigenvalues.
#[track_caller]
fn at_parabola(property: impl Fn(&Steps) -> bool, count: usize) -> Vec<Row> {
    let mut random = Random(1);
    let mut found = Vec::new();
    for _ in 0..20_000 {
        let mut r = |size: f64| random.within(size);
        let mut words = reals([r(10.0), r(10.0), r(1e3), r(1e3), r(10.0), r(10.0), r(1e3), r(1e3), 0.0]).to_vec();
        let mut elliptic = |bulge: f64| {
            words[8] = bulge.to_bits();
            steps(&words).det2 > 0.0
        };
        let (mut low, mut high) = (0.01f64.to_bits(), 8f64.to_bits());
        if elliptic(0.01) == elliptic(8.0) {
            continue;
        }
        while high - low > 1 {
            let middle = (low + high) / 2;
            if elliptic(f64::from_bits(middle)) == elliptic(0.01) { low = middle } else { high = middle }
        }
        for bits in low - 200..low + 200 {
            words[8] = bits;
            if property(&steps(&words)) {
                found.push(of(25, words.clone()));
                break;
            }
        }
        if found.len() == count {
            return found;
        }
    }
    panic!("no such fit was drawn");
}

pub fn rows() -> Vec<Row> {
    let mut edges = Vec::new();
    let edge = |numbers: [f64; 9], moved, from, to, sides, varied, equal| {
        Edge { call: 25, words: reals(numbers).to_vec(), moved, from, to, sides, varied, equal }
    };
    // `chord_len < 1e-12`, of half an ellipse so high that its bulge passes. m_len is the root of the same sum of squares, and so its
    // test cannot be told from none, and a lower bound in one of both tests gives the same.
    edges.push(edge([0.0, 0.0, 0.0, 1.0, 1e-13, 0.0, 0.0, -1.0, 4.0], 4, 1e-13, 1e-11, |w| (steps(w).chord_len, 1e-12), &[5], true));
    // `denom.abs() > 1e-12`: below it the sign is 1, above it the center's side decides.
    for sign in [1.0, -1.0] {
        let (from, to) = (sign * 1e-13, sign * 1e-11);
        edges.push(edge([0.0, 0.0, 0.0, 1.0, 2.0, 0.0, from, -1.0, 0.75], 6, from, to, |w| (steps(w).denom.abs(), 1e-12), &[], true));
    }
    // `center_side >= 0.0`: the normal at the first point runs along the chord, so that it is 0; and turned to either side.
    edges.push(edge([0.0, 0.0, 0.0, 1.0, 2.0, 0.0, 0.5, -1.0, 0.75], 2, -0.1, 0.1, |w| (steps(w).center_side, 0.0), &[], true));
    // `m_val.abs() < 1e-12`, of a small flat ellipse and of either sign.
    for sign in [1.0, -1.0] {
        let (from, to) = (sign * 1e-5, sign * 1e-3);
        edges.push(edge([0.0, 0.0, 0.0, 1.0, 2e-8, 0.0, 0.0, -1.0, from], 8, from, to, |w| (steps(w).m_val.abs(), 1e-12), &[4], true));
    }
    // `det2 <= 1e-12`.
    edges.push(edge([0.0, 0.0, 0.0, 1e-4, 2.0, 0.0, 0.0, -1e-3, 1.0], 3, 1e-4, 1e-2, |w| (steps(w).det2, 1e-12), &[8], true));
    // `ev1.abs() < 1e-12 || ev2.abs() < 1e-12`, each alone. det2 is above 1e-12 before, and so the other eigenvalue above 1; then the
    // smaller is a multiple of 2^-53 and 1e-12 is none, so that `<=` gives the same.
    edges.push(edge([0.0, 0.0, 0.0, 1e-6, 2.0, 0.0, 0.0, -1e-6, 7e-7], 3, 0.5e-6, 2e-6, |w| (steps(w).ev1.abs(), 1e-12), &[], false));
    edges.push(edge([0.0, 0.0, 0.0, 1e-6, 2.0, 0.0, 0.0, 1e-6, 7e-7], 3, 0.5e-6, 2e-6, |w| (steps(w).ev2.abs(), 1e-12), &[], false));
    // `b.abs() > 1e-12` of the rotation.
    edges.push(edge([0.0, 0.0, 0.0, 1.0, 2.0, 0.0, 0.0, -1.0, 0.5], 2, 1e-13, 1e-11, |w| (steps(w).b.abs(), 1e-12), &[8], true));
    // `a <= c` where b vanishes.
    edges.push(edge([0.0, 0.0, 0.0, 1.0, 2.0, 0.0, 0.0, -1.0, 1.0], 8, 0.9, 1.1, |w| { let s = steps(w); (s.a, s.c) }, &[], true));
    edges.push(edge([0.0, 0.0, 0.0, 1.0, 2.0, 0.0, 0.0, 1.0, 1.0], 8, 0.9, 1.1, |w| { let s = steps(w); (s.a, s.c) }, &[], true));
    let mut rows: Vec<Row> = edges.into_iter().flat_map(Edge::rows).collect();
    // `rx_sq <= 0.0 || ry_sq <= 0.0`: both, one alone, and 0. They have one sign but where rounding decides,
    // and are 0 at once, so that `<` in one of both tests gives the same.
    rows.extend(drawn(|s| s.has_axes() && s.rx_sq < 0.0 && s.ry_sq < 0.0, 2));
    rows.extend(at_parabola(|s| s.has_axes() && s.rx_sq < 0.0 && s.ry_sq > 0.0, 2));
    rows.extend(at_parabola(|s| s.has_axes() && s.rx_sq > 0.0 && s.ry_sq < 0.0, 2));
    rows.extend(drawn(|s| s.has_axes() && s.rx_sq == 0.0, 2));
    // `dot > 0.0`: t1 one way and the other. It is 0 only where t1 is, and then the conic is refused before.
    for sign in [1.0, -1.0] {
        for bulge in [0.4, -0.4, 1.0, 2.5] {
            rows.push(of(25, reals([1.0, 0.0, 0.0, sign, 0.0, 1.0, -sign, 0.0, bulge]).to_vec()));
            rows.push(of(25, reals([1.0, 0.25, 0.5, sign, -1.0, 0.0, 0.25, -sign, bulge]).to_vec()));
        }
    }
    rows
}
