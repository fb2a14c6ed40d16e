//! "It changes its imports and no call": calls.rs under the original's imports, under this crate's, and under this crate's with an
//! `Arc` of the program's own.
use crate::drawing::{Drawing, Random};

mod original {
    use crate::drawing::{Drawing, Drawn};
    use crate::text::earc_fit::fit_earc_tangent;
    use crate::text::geometry::*;
    use arael::vect::vect2d;
    use arael_sketch_solver::*;

    fn rest() -> Arc {
        arcs::Arc::circle(arcs::vect2d::new(0.0, 0.0), 1.0).into()
    }

    include!("calls.rs");
}

mod swapped {
    use crate::drawing::{Drawing, Drawn};
    use arcs::earc_fit::fit_earc_tangent;
    use arcs::geometry::*;
    use arcs::vect::vect2d;
    use arcs::*;

    fn rest() -> Arc {
        Arc::circle(vect2d::new(0.0, 0.0), 1.0)
    }

    include!("calls.rs");
}

mod own_arc {
    use crate::drawing::{Drawing, Drawn};
    use crate::own::{rest, Arc, Param};
    use arcs::earc_fit::fit_earc_tangent;
    use arcs::geometry::*;
    use arcs::vect::vect2d;
    use arcs::{ellipse_point, ellipse_tangent, ArcMethods};

    include!("calls.rs");
}

const DRAWINGS: usize = 400;

fn drawings() -> impl Iterator<Item = Drawing> {
    let mut random = Random(1);
    std::iter::repeat_with(move || random.drawing()).take(DRAWINGS)
}

/// How far from the original's an answer may be. The routines of angles are within 2^-44; the drawings' sizes and ratios take that to
/// less than 1,024 times as much. A noise of that size under a root is 2^-22: where the radii of an SVG arc grow its centre's
/// distance from the chord is the root of nearly nothing; the nearest point is sought by distances, which are flat there.
fn bound(call: &str) -> f64 {
    match call {
        "arc_param_in_span" | "point_to_segment_dist" | "project_onto_segment" | "line_line_intersection" | "intersect_segments"
        | "circle_tangent_through" | "circumscribed_arc" => 0.0,
        "svg_arc_to_center" | "nearest_arc_param" | "point_to_arc_dist's point" => 4.0 * 2f64.powi(-22),
        _ => 1024.0 * 2f64.powi(-44),
    }
}

fn bits(answers: &[(&str, Vec<f64>)]) -> Vec<u64> {
    answers.iter().flat_map(|(_, numbers)| numbers).map(|x| x.to_bits()).collect()
}

#[test]
fn the_types_are_the_originals() {
    original::signatures();
    swapped::signatures();
    own_arc::signatures();
}

#[test]
fn an_own_arc_has_the_same_bits() {
    for d in drawings() {
        assert_eq!(bits(&swapped::answers(&d)), bits(&own_arc::answers(&d)), "{d:?}");
    }
}

#[test]
fn the_originals_answers() {
    let mut answered = std::collections::BTreeMap::new();
    for d in drawings() {
        for ((call, ours), (_, theirs)) in swapped::answers(&d).into_iter().zip(original::answers(&d)) {
            assert_eq!(ours.len(), theirs.len(), "{call} of {d:?}");
            let near = ours.iter().zip(&theirs).all(|(x, y)| (x - y).abs() <= bound(call));
            assert!(near, "{call} of {d:?}: {ours:?}, not {theirs:?}");
            *answered.entry(call).or_insert(0) += usize::from(!ours.is_empty());
        }
    }
    assert!(answered.values().all(|&times| times >= DRAWINGS / 8), "{answered:?}");
}

#[test]
fn an_arc_given_in_every_way() {
    for d in drawings().take(40) {
        for ways in [original::ways(&d), swapped::ways(&d), own_arc::ways(&d)] {
            assert!(ways.iter().all(|answers| *answers == ways[0]), "{d:?}");
        }
        assert!(original::handed_on(&d) && swapped::handed_on(&d) && own_arc::handed_on(&d), "{d:?}");
    }
}

#[test]
fn from_many_threads_at_once() {
    let alone: Vec<_> = drawings().take(100).map(|d| bits(&swapped::answers(&d))).collect();
    std::thread::scope(|scope| {
        for _ in 0..4 {
            scope.spawn(|| assert!(drawings().zip(&alone).all(|(d, expected)| bits(&swapped::answers(&d)) == *expected)));
        }
    });
}
