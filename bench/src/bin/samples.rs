//! Writes the rows that the program `replay_calls` is run on: inputs of all public calls, and the oracle's answers. The inputs that
//! bench/src/directed chooses come first, then those that are drawn.
//! `bench/run samples 1 > crates/replay_calls/stdin`; 1 is the seed of the inputs.
//!
//! One call a line, fields parted by one tab. Every field is a whole number in lower-case hex digits:
//!
//! - the number of the call;
//! - what is lent: how many numbers of the first arc or curve, of the second, how many numbers of `out`, how many counts; a call
//!   that has none of them does not look;
//! - n, how many inputs follow;
//! - n inputs;
//! - the refusal, 0 for none;
//! - m, how many outputs follow, 0 where the call is refused;
//! - m outputs.
//!
//! A number is its bits, every NaN given back being 7ff8000000000000; marks, flags, counts, lengths and the depth are whole
//! numbers. An arc is eight inputs: center x, center y, radius, radius_b, rotation, start, end, marks (1 ccw, 2 closed,
//! 4 ellipse). A curve is an arc, or where its marks have 8 a segment: x1, y1, x2, y2 and three numbers that count for nothing.
//! `room` is how many numbers are lent for hits. What is lent and not written must keep its old numbers.
//!
//! | number | call | inputs | outputs |
//! |---|---|---|---|
//! | 1 | ellipse_point | center x, y, rx, ry, rot, t | x, y |
//! | 2 | ellipse_tangent | rx, ry, rot, t | x, y |
//! | 3, 4 | arc_point_at, arc_tangent_at | arc, t | x, y |
//! | 5, 6 | arc_start_pos, arc_end_pos | arc | x, y |
//! | 7 | norm_tau | v | angle |
//! | 8 | arc_param_in_span | arc, theta | angle |
//! | 9 | arc_radii | arc | both radii |
//! | a, b | arc_theta_of_pos, arc_param_at_point | arc, x, y | angle |
//! | c | point_to_segment_dist | x, y of p, a, b | distance |
//! | d | project_onto_segment | x, y of p, a, b | x, y |
//! | e | line_line_intersection | x, y of p1, p2, p3, p4 | x, y |
//! | f | intersect_segments | x, y of a1, a2, b1, b2; room | hits; t_a, t_b, x, y of each |
//! | 10 | intersect_segment_arc | x, y of p1, p2; arc; room | hits; t_a, t_b, x, y of each |
//! | 11 | intersect_arcs | arc, arc, depth, room | hits, brackets, outside a, outside b, doubles, evaluations; t_a, t_b, x, y of each hit |
//! | 12 | intersect | curve, curve, depth, room | as 11 |
//! | 13 | hit | twelve numbers, how many of them are the room, count, index | 4; t_a, t_b, x, y, or 0 |
//! | 14 | point_to_arc_dist | x, y, arc | distance, x, y |
//! | 15 | nearest_arc_param | arc, x, y | angle |
//! | 16 | svg_arc_to_center | x, y of p1, p2; rx, ry, rotation, large, sweep | center x, y, start, end, rx, ry |
//! | 17 | circumscribed_arc | x, y of p1, p2, p3 | center x, y, radius, start, end, ccw as 1.0 or 0.0 |
//! | 18 | circle_tangent_through | x, y of s, e, t | center x, y, radius |
//! | 19 | fit_earc_tangent | x, y of p1, t1, p2, t2; bulge | center x, y, rx, ry, rotation, start, end, ccw as 1.0 or 0.0 |
use bench::calls::{Call, Lent, CALLS, ENOUGH};
use bench::{cases::case, directed, seed, Random};

/// How many are drawn a call.
const EACH: usize = 70;
/// Of the slow pairs.
const SEARCHED: usize = 60;
/// The longest answer that is kept: six counts and 16 hits.
const LONGEST: usize = 70;

fn line(call: &Call, words: &[u64], lent: Lent) -> Option<String> {
    let told = call.told_in(words, lent);
    let fields = |words: &[u64]| words.iter().map(|w| format!("\t{w:x}")).collect::<String>();
    (told.numbers.len() <= LONGEST).then(|| {
        let Lent { a, b, out, counts } = lent;
        let head = format!("{:x}\t{a:x}\t{b:x}\t{out:x}\t{counts:x}\t{:x}", call.number, words.len());
        format!("{head}{}\t{:x}\t{:x}{}", fields(words), told.refusal, told.numbers.len(), fields(&told.numbers))
    })
}

fn main() {
    for row in directed::rows() {
        println!("{}", line(directed::call(row.call), &row.words, row.lent).expect("a chosen row has a short answer"));
    }
    let mut random = Random(seed());
    for call in CALLS {
        let count = if call.arcs.slow() { SEARCHED } else { EACH };
        let lines = std::iter::repeat_with(|| line(call, &case(call, &mut random), ENOUGH)).flatten().take(count);
        lines.for_each(|line| println!("{line}"));
    }
}
