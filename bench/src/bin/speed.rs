//! Every routine against the machine's or the standard library's, and every public call against the original as it stands, on the same
//! arguments, in one run. `bench/run speed [SEED]` prints the table of docs/SPEED.md, which says what a bar is, and ends with 1 where
//! something is above its own. The calls go through the crate in rust/, as a drafting program's do.
use arcs::{checked, geometry, vect2d, Arc, Param};
use bench::table::Table;
use bench::{compare, compare_waiting, original, rooted, seed, Random};
use std::f64::consts::{PI, TAU};
use std::hint::black_box;

/// So many that the processor does not learn by heart which way a branch goes.
const MANY: usize = 16_384;
/// Of the slow calls, so that a round is short.
const FEW: usize = 40;
const ROUNDS: usize = 20;
const MORE_ROUNDS: usize = 300;
/// Of the routines. With few arguments the processor learns by heart which way the standard library's branches go.
const ARGUMENTS: usize = 65_536;

/// What the calls are made of.
struct Drawing<V, A> {
    p: [V; 4],
    /// Directions in which an arc leaves p[0] and meets p[1].
    d: [V; 2],
    bulge: f64,
    a: A,
    b: A,
    rx: f64,
    ry: f64,
    t: f64,
    large: bool,
    sweep: bool,
}

type Own = Drawing<vect2d, Arc>;
type Theirs = Drawing<original::vect2d, original::Arc>;
type Both = (Vec<Own>, Vec<Theirs>);

impl From<&Own> for Theirs {
    fn from(own: &Own) -> Theirs {
        Theirs {
            p: own.p.map(|p| p.into()),
            d: own.d.map(|d| d.into()),
            a: own.a.into(),
            b: own.b.into(),
            bulge: own.bulge,
            rx: own.rx,
            ry: own.ry,
            t: own.t,
            large: own.large,
            sweep: own.sweep,
        }
    }
}

fn point(r: &mut Random, size: f64) -> vect2d {
    vect2d::new(r.within(size), r.within(size))
}

fn circle(r: &mut Random) -> Arc {
    Arc::circle(point(r, 40.0), 40.0 + r.within(30.0))
}

fn ellipse(r: &mut Random) -> Arc {
    Arc::ellipse(point(r, 40.0), 50.0 + r.within(40.0), 30.0 + r.within(25.0), r.within(3.0))
}

fn part_of(r: &mut Random, a: Arc) -> Arc {
    let start = r.within(3.0);
    Arc { start_angle: Param::new(start), end_angle: Param::new(start + 3.0 + r.within(2.5)), closed: false, ..a }
}

/// Whole or in part.
fn some(r: &mut Random, a: Arc) -> Arc {
    if r.below(2) == 0 { a } else { part_of(r, a) }
}

fn drawing(r: &mut Random, a: Arc, b: Arc) -> Own {
    let p = [0; 4].map(|_| point(r, 100.0));
    // An arc that leaves its chord at some angle and meets it at nearly the same.
    let chord = (p[1].y - p[0].y).atan2(p[1].x - p[0].x);
    let off = 0.8 + r.within(0.6);
    let d = [chord + off, chord - off + r.within(0.1)].map(|t| vect2d::new(t.cos(), t.sin()));
    // Nearly a circle's, on the side away from the centre.
    let bulge = -(off / 2.0).tan() * (1.0 + r.within(0.2));
    Drawing { p, d, bulge, a, b, rx: 60.0 + r.within(40.0), ry: 60.0 + r.within(40.0), t: r.within(PI), large: r.below(2) == 0, sweep: r.below(2) == 0 }
}

/// Times a call by its name in both, or two calls. What the call takes of a drawing is copied out before.
macro_rules! time {
    ($table:ident, $words:expr, $bar:expr, $drawings:expr, $rounds:expr, |$x:ident| ($($name:ident = $value:expr),*) => $call:ident($($argument:expr),*)) => {
        time!($table, $words, $bar, $drawings, $rounds, |$x| ($($name = $value),*) => geometry::$call($($argument),*), original::$call($($argument),*))
    };
    ($table:ident, $words:expr, $bar:expr, $drawings:expr, $rounds:expr, |$x:ident| ($($name:ident = $value:expr),*) => $own:expr, $theirs:expr) => {{
        let ours: Vec<_> = $drawings.0.iter().map(|$x| ($($value,)*)).collect();
        let others: Vec<_> = $drawings.1.iter().map(|$x| ($($value,)*)).collect();
        let compared = compare(
            $rounds,
            &ours,
            |($($name,)*)| { let _ = black_box($own); 0.0 },
            &others,
            |($($name,)*)| { let _ = black_box($theirs); 0.0 },
        );
        $table.row($words, $bar, compared);
    }};
}

fn points_and_lines(table: &mut Table, all: &Both) {
    time!(table, "ellipse_point", None, all, ROUNDS, |x| (c = x.p[0], rx = x.rx, ry = x.ry, r = x.t, t = x.bulge) => ellipse_point(c, rx, ry, r, t));
    time!(table, "ellipse_tangent", None, all, ROUNDS, |x| (rx = x.rx, ry = x.ry, r = x.t, t = x.bulge) => ellipse_tangent(rx, ry, r, t));
    time!(table, "arc_point_at", None, all, ROUNDS, |x| (a = x.a, t = x.t) => arc_point_at(&a, t));
    time!(table, "arc_tangent_at", None, all, ROUNDS, |x| (a = x.a, t = x.t) => arc_tangent_at(&a, t));
    time!(table, "arc_start_pos", None, all, ROUNDS, |x| (a = x.a) => arc_start_pos(&a));
    time!(table, "arc_end_pos", None, all, ROUNDS, |x| (a = x.a) => arc_end_pos(&a));
    time!(table, "norm_tau", None, all, ROUNDS, |x| (t = x.t) => checked::norm_tau(t), original::norm_tau(t));
    time!(table, "arc_param_in_span", None, all, ROUNDS, |x| (a = x.a, t = x.t) => arc_param_in_span(&a, t));
    time!(table, "arc_radii", None, all, ROUNDS, |x| (a = x.a) => checked::arc_radii(&a), original::arc_radii(&a));
    time!(table, "arc_theta_of_pos", None, all, ROUNDS, |x| (a = x.a, p = x.p[0]) => checked::arc_theta_of_pos(&a, p), original::arc_theta_of_pos(&a, p));
    time!(table, "arc_param_at_point", None, all, ROUNDS, |x| (a = x.a, p = x.p[0]) => arc_param_at_point(&a, p));
    time!(table, "point_to_segment_dist", None, all, ROUNDS, |x| (p = x.p[0], a = x.p[1], b = x.p[2]) => point_to_segment_dist(p, a, b));
    time!(table, "project_onto_segment", None, all, ROUNDS, |x| (p = x.p[0], a = x.p[1], b = x.p[2]) => project_onto_segment(p, a, b));
    time!(table, "line_line_intersection", None, all, ROUNDS, |x| (p = x.p) => line_line_intersection(p[0], p[1], p[2], p[3]));
    time!(table, "intersect_segments", None, all, ROUNDS, |x| (p = x.p) => intersect_segments(p[0], p[1], p[2], p[3]));
    time!(table, "intersect_segment_arc", Some(1.4), all, ROUNDS, |x| (p = x.p[0], q = x.p[1], a = x.a) => intersect_segment_arc(p, q, &a));
}

fn shapes(table: &mut Table, all: &Both) {
    time!(table, "svg_arc_to_center", Some(2.5), all, ROUNDS, |x| (p = x.p[0], q = x.p[1], rx = x.rx, ry = x.ry, r = x.t, large = x.large, sweep = x.sweep) =>
        svg_arc_to_center(p, q, rx, ry, r, large, sweep));
    time!(table, "circumscribed_arc", Some(2.5), all, ROUNDS, |x| (p = x.p[0], q = x.p[1], r = x.p[2]) => circumscribed_arc(p, q, r));
    time!(table, "circle_tangent_through", None, all, ROUNDS, |x| (p = x.p[0], q = x.p[1], d = x.d[0]) => circle_tangent_through(p, q, d));
    time!(table, "fit_earc_tangent", Some(2.5), all, ROUNDS, |x| (p = x.p[0], q = x.p[1], d = x.d, h = x.bulge) => fit_earc_tangent(p, d[0], q, d[1], h));
}

/// The calls that are one root and little else, with the original's own code and the proved root in it.
fn roots_alone(table: &mut Table, all: &Both) {
    let theirs = |p: &vect2d| rooted::vect2d::new(p.x, p.y);
    let three: Vec<_> = all.0.iter().map(|x| [&x.p[0], &x.p[1], &x.p[2]].map(theirs)).collect();
    let plain: Vec<_> = all.1.iter().map(|x| (x.p[0], x.p[1], x.p[2])).collect();
    let compared = compare(
        ROUNDS,
        &three,
        |[p, a, b]| black_box(rooted::point_to_segment_dist(p, a, b)),
        &plain,
        |(p, a, b)| black_box(original::point_to_segment_dist(p, a, b)),
    );
    table.row("point_to_segment_dist, the original with the proved root", None, compared);
    let three: Vec<_> = all.0.iter().map(|x| [&x.p[0], &x.p[1], &x.d[0]].map(theirs)).collect();
    let plain: Vec<_> = all.1.iter().map(|x| (x.p[0], x.p[1], x.d[0])).collect();
    let compared = compare(
        ROUNDS,
        &three,
        |[p, q, d]| { let _ = black_box(rooted::circle_tangent_through(p, q, d)); 0.0 },
        &plain,
        |(p, q, d)| { let _ = black_box(original::circle_tangent_through(p, q, d)); 0.0 },
    );
    table.row("circle_tangent_through, the original with the proved root", None, compared);
}

fn distances(table: &mut Table, all: &Both, words: &str, rounds: usize, bar: f64) {
    time!(table, &format!("point_to_arc_dist, {words}"), Some(bar), all, rounds, |x| (p = x.p[0], a = x.a) => point_to_arc_dist(p, &a));
    time!(table, &format!("nearest_arc_param, {words}"), Some(bar), all, rounds, |x| (p = x.p[0], a = x.a) => nearest_arc_param(&a, p));
}

fn routines(table: &mut Table, r: &mut Random) {
    let xs: Vec<f64> = (0..4096).map(|_| f64::from_bits(r.bits() >> 12 | (0x3f0 + r.below(32)) << 52)).collect();
    table.row("sqrt", Some(15.0), compare(200, &xs, arcs::sqrt, &xs, |x: f64| x.sqrt()));
    table.row("sqrt, each waiting for the one before", None, compare_waiting(200, &xs, arcs::sqrt, |x: f64| x.sqrt()));
    for (size, bar, below) in [("TAU", Some(1.25), TAU), ("PI", None, PI), ("1,024", None, 1024.0)] {
        let xs: Vec<f64> = (0..ARGUMENTS).map(|_| r.within(below)).collect();
        let own = |x| {
            let (s, c) = arcs::sin_cos(x);
            s + c
        };
        let theirs = |x: f64| {
            let (s, c) = x.sin_cos();
            s + c
        };
        table.row(&format!("sin_cos, size below {size}"), bar, compare(ROUNDS, &xs, own, &xs, theirs));
        table.row(&format!("sin, size below {size}"), None, compare(ROUNDS, &xs, arcs::sin, &xs, f64::sin));
        table.row(&format!("cos, size below {size}"), None, compare(ROUNDS, &xs, arcs::cos, &xs, f64::cos));
    }
    let points: Vec<(f64, f64)> = (0..ARGUMENTS).map(|_| (r.within(1000.0), r.within(1000.0))).collect();
    table.row("atan2, all quadrants", Some(1.5), compare(ROUNDS, &points, |(y, x)| arcs::atan2(y, x), &points, |(y, x): (f64, f64)| y.atan2(x)));
    let cs: Vec<f64> = (0..ARGUMENTS).map(|_| r.within(1.0)).collect();
    table.row("acos, -1 to 1", Some(2.5), compare(ROUNDS, &cs, arcs::acos, &cs, f64::acos));
    table.row("acos, each waiting for the one before", None, compare_waiting(ROUNDS, &cs, arcs::acos, f64::acos));
}

/// A rim and a hole on it, as in the drawing that began all this: the hole is small beside a cell.
fn rim_and_hole(r: &mut Random) -> (Arc, Arc) {
    let at = r.within(PI);
    (Arc::ellipse(vect2d::new(0.0, 0.0), 1000.0, 1000.0, 0.0), Arc::circle(vect2d::new(1000.0 * at.cos(), 1000.0 * at.sin()), 10.0))
}

/// Drawings with so many pairs of a kind.
fn pairs(r: &mut Random, count: usize, pair: impl Fn(&mut Random) -> (Arc, Arc)) -> Both {
    let one = |_| {
        let (a, b) = pair(r);
        drawing(r, a, b)
    };
    let own: Vec<Own> = (0..count).map(one).collect();
    let theirs = own.iter().map(Theirs::from).collect();
    (own, theirs)
}

fn main() {
    let r = &mut Random(seed());
    let table = &mut Table::new();
    routines(table, r);
    let mixed = pairs(r, MANY, |r| {
        let a = if r.below(2) == 0 { circle(r) } else { ellipse(r) };
        (some(r, a), circle(r))
    });
    points_and_lines(table, &mixed);

    let circles = pairs(r, MANY, |r| (circle(r), circle(r)));
    time!(table, "intersect_arcs, two circles", Some(1.6), circles, ROUNDS, |x| (a = x.a, b = x.b) => intersect_arcs(&a, &b));
    let kinds: [(&str, f64, fn(&mut Random) -> (Arc, Arc)); 4] = [
        ("two whole ellipses", 1.3, |r| (ellipse(r), ellipse(r))),
        ("ellipse and circle", 1.3, |r| (ellipse(r), circle(r))),
        ("two partial ellipses", 1.45, |r| {
            let (a, b) = (ellipse(r), ellipse(r));
            (part_of(r, a), part_of(r, b))
        }),
        ("a rim and a hole", 1.3, rim_and_hole),
    ];
    for (words, bar, pair) in kinds {
        let all = pairs(r, FEW, pair);
        time!(table, &format!("hunt, {words}"), Some(bar), all, MORE_ROUNDS, |x| (a = x.a, b = x.b) => intersect_arcs(&a, &b));
    }

    let kinds: [(&str, fn(&mut Random, Arc) -> Arc); 2] = [("whole", |_, a| a), ("partial", part_of)];
    for (words, span) in kinds {
        let alone = |r: &mut Random, a| (span(r, a), a);
        let circles = pairs(r, MANY, |r| {
            let a = circle(r);
            alone(r, a)
        });
        distances(table, &circles, &format!("{words} circle"), ROUNDS, 2.5);
        let ellipses = pairs(r, FEW, |r| {
            let a = ellipse(r);
            alone(r, a)
        });
        distances(table, &ellipses, &format!("{words} ellipse"), MORE_ROUNDS, 1.5);
    }
    shapes(table, &mixed);
    roots_alone(table, &mixed);
    std::mem::take(table).end();
}
