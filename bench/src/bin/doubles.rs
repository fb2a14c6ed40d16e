//! How many earlier hits the hunt's double test looks at, from the oldest on and from the newest on, and how long the library's hunts
//! take. `bench/run doubles [SEED]`; with an earlier library in turn `bench/beside COMMIT doubles [SEED]`.
//!
//! The counts are worked out here, from the brackets of 01's rule, for both orders: the library has no such count. Ends with 1 where a
//! hunt of the library has other hits or doubles, and where the earlier library leaves another room or other counts.
use arcs::{checked, vect2d, Arc, Param};
use bench::calls::{arc, words_of, Arcs, CALLS};
use bench::earlier::Earlier;
use bench::oracle::{self, arc_param_in_span, arc_theta_of_pos};
use bench::{cases::case, search::narrowed, seed, Random};
use std::f64::consts::{PI, TAU};
use std::hint::black_box;
use std::time::Instant;

const ROUNDS: usize = 100;
/// From which those with a double are taken.
const INPUTS: usize = 20_000;

type Hunt = (Arc, Arc, u32);

#[derive(Default)]
struct Looked {
    hits: usize,
    doubles: usize,
    /// Doubles of the newest hit.
    of_newest: usize,
    oldest_first: usize,
    newest_first: usize,
}

/// The angles on a that come to the double test: those in the spans of both.
fn tested(a: &oracle::Arc, b: &oracle::Arc, depth: u32) -> Vec<f64> {
    let on_both = |t| {
        let t_a = arc_param_in_span(a, t)?;
        arc_param_in_span(b, arc_theta_of_pos(b, a.point_at(t))).map(|_| t_a)
    };
    narrowed(a, b, depth).0.into_iter().filter_map(on_both).collect()
}

fn looked(&(a, b, depth): &Hunt) -> Looked {
    let (mut all, mut hits) = (Looked::default(), Vec::new());
    for t in tested(&a.into(), &b.into(), depth) {
        let near = |h: &f64| (h - t).abs() < 1e-7;
        let (oldest, newest) = (hits.iter().position(near), hits.iter().rev().position(near));
        all.oldest_first += oldest.map_or(hits.len(), |i| i + 1);
        all.newest_first += newest.map_or(hits.len(), |i| i + 1);
        all.of_newest += (newest == Some(0)) as usize;
        if newest.is_some() {
            all.doubles += 1;
        } else {
            hits.push(t);
        }
    }
    all.hits = hits.len();
    all
}

/// Of the need of depth 3.
fn room() -> [f64; 8192] {
    [-1.0; 8192]
}

/// Whether a hunt has these hits and doubles in the library, and in the earlier one the same counts and the same room.
fn same(&(a, b, depth): &Hunt, one: &Looked, earlier: Option<&Earlier>) -> bool {
    let mut own = room();
    let Ok(counts) = checked::intersect_arcs_in(&a, &b, depth, &mut own) else { return false };
    let as_earlier = earlier.map_or(true, |earlier| {
        let mut theirs = room();
        let told = earlier.intersect_arcs(&a, &b, depth, &mut theirs);
        told == (0, words_of(counts)) && own.map(f64::to_bits) == theirs.map(f64::to_bits)
    });
    (counts.hits, counts.doubles) == (one.hits, one.doubles) && as_earlier
}

fn micros<T>(hunt: impl FnOnce() -> T) -> f64 {
    let from = Instant::now();
    black_box(hunt());
    from.elapsed().as_nanos() as f64 / 1000.0
}

/// Drawings of a kind, and for each round the time of all of them, by the library and by the earlier one.
struct Row {
    words: String,
    hunts: Vec<Hunt>,
    rounds: Vec<[f64; 2]>,
}

impl Row {
    fn new(words: impl Into<String>, hunts: Vec<Hunt>) -> Row {
        assert!(!hunts.is_empty(), "no drawing is of this kind");
        Row { words: words.into(), hunts, rounds: Vec::new() }
    }

    fn time(&mut self, room: &mut [f64], earlier: Option<&Earlier>) {
        let mut round = [0.0; 2];
        for (a, b, depth) in &self.hunts {
            round[0] += micros(|| checked::intersect_arcs_in(a, b, *depth, room));
            if let Some(earlier) = earlier {
                round[1] += micros(|| earlier.intersect_arcs(a, b, *depth, room));
            }
        }
        self.rounds.push(round);
    }

    /// The fastest round of the library, that of the earlier one, and the middle of their ratios, round by round.
    fn timed(&self) -> (f64, f64, f64) {
        let fastest = |i: usize| self.rounds.iter().map(|round| round[i]).fold(f64::INFINITY, f64::min);
        let mut ratios: Vec<f64> = self.rounds.iter().map(|[own, theirs]| own / theirs).collect();
        ratios.sort_by(f64::total_cmp);
        (fastest(0), fastest(1), ratios[ratios.len() / 2])
    }

    /// Gives how many of the hunts differ.
    fn print(&self, earlier: Option<&Earlier>) -> usize {
        let (mut all, mut differ) = (Looked::default(), 0);
        for hunt in &self.hunts {
            let one = looked(hunt);
            differ += !same(hunt, &one, earlier) as usize;
            all.hits += one.hits;
            all.doubles += one.doubles;
            all.of_newest += one.of_newest;
            all.oldest_first += one.oldest_first;
            all.newest_first += one.newest_first;
        }
        let (own, theirs, ratio) = self.timed();
        let before = earlier.map_or("|".into(), |_| format!("{theirs:.0} us | {ratio:.3}"));
        let Looked { hits, doubles, of_newest, oldest_first, newest_first } = all;
        println!("| {} | {} | {hits} | {doubles} | {of_newest} | {oldest_first} | {newest_first} | {own:.0} us | {before} |", self.words, self.hunts.len());
        differ
    }
}

/// A point ellipse on the unit circle, from 0 to an end or whole: every sample is a zero, so that every cell brackets.
fn point_on_the_circle(end: Option<f64>) -> (Arc, Arc) {
    let point = Arc::ellipse(vect2d::new(1.0, 0.0), 0.0, 0.0, 0.0);
    let point = end.map_or(point, |end| Arc { end_angle: Param::new(end), closed: false, ..point });
    (point, Arc::circle(vect2d::new(0.0, 0.0), 1.0))
}

/// An ellipse, and a circle inside its end that touches it there, at a sample, and crosses it before and behind.
fn touching(r: &mut Random) -> Hunt {
    let ellipse = Arc { start_angle: Param::new(-PI), ..Arc::ellipse(vect2d::new(0.0, 0.0), 2.0, 1.0, 0.0) };
    let radius = 1.25 + r.within(0.7);
    (ellipse, Arc::circle(vect2d::new(2.0 - radius, 0.0), radius), r.below(4) as u32)
}

/// An input of the oracle's that is not refused.
fn drawn(r: &mut Random) -> Hunt {
    let call = CALLS.iter().find(|call| call.number == 17 && call.arcs == Arcs::Searched).unwrap();
    loop {
        let words = case(call, r);
        if (call.own)(&words).refusal == 0 {
            return (arc(&words, 0), arc(&words, 8), words[16] as u32);
        }
    }
}

/// Whether the first curve's span goes over some points twice.
fn past_a_turn((a, _, _): &Hunt) -> bool {
    !a.closed && (a.end_angle.value - a.start_angle.value).abs() > TAU
}

/// Those of many that have a double.
fn with_doubles(r: &mut Random, one: fn(&mut Random) -> Hunt) -> Vec<Hunt> {
    (0..INPUTS).map(|_| one(r)).filter(|hunt| looked(hunt).doubles > 0).collect()
}

fn main() {
    let r = &mut Random(seed());
    let mut rows = Vec::new();
    for depth in 0..4 {
        let (a, b) = point_on_the_circle(None);
        rows.push(Row::new(format!("a point on the circle, depth {depth}"), vec![(a, b, depth)]));
    }
    for depth in 0..4 {
        // Cells narrower than 1e-7, so that a hit has doubles in the cells behind it.
        let (a, b) = point_on_the_circle(Some(4e-8 * f64::from(256 << depth)));
        rows.push(Row::new(format!("the same over a short span, depth {depth}"), vec![(a, b, depth)]));
    }
    rows.push(Row::new("a circle that touches an ellipse", with_doubles(r, touching)));
    let (past, within) = with_doubles(r, drawn).into_iter().partition(past_a_turn);
    rows.push(Row::new("inputs of the oracle, the span a turn at most", within));
    rows.push(Row::new("inputs of the oracle, the span past a turn", past));

    // All rows in each round, so that a machine that is slow for a while slows none of them alone.
    let (earlier, room) = (Earlier::named(), &mut room());
    for _ in 0..ROUNDS {
        rows.iter_mut().for_each(|row| row.time(room, earlier.as_ref()));
    }
    println!("| drawing | hunts | hits | doubles | of the newest hit | looked at, oldest first | newest first | time | earlier | ratio |");
    println!("|---|---|---|---|---|---|---|---|---|---|");
    let differ: usize = rows.iter().map(|row| row.print(earlier.as_ref())).sum();
    if differ > 0 {
        println!("{differ} hunts differ");
        std::process::exit(1);
    }
}
