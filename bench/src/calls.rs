//! Every public call, worked out by the library and by the oracle.
//!
//! A call's inputs are words: a number as its bits, a whole number as itself. `takes` says what they are, a letter each:
//!
//! | letter | words |
//! |---|---|
//! | c, a | a number with the limit of a coordinate, of an angle |
//! | p, v | a position or a direction: x, y |
//! | A | an arc: center x and y, radius, radius_b, rotation, start, end; marks (1 ccw, 2 closed, 4 ellipse) |
//! | K | a curve: an arc, or with the mark 8 a segment, which has the first four numbers |
//! | f | 1 for true, 0 for false |
//! | d | the depth |
//! | r | how many numbers the lent room has |
//! | x, n | a number of a room that is written already; a length, a count or an index: none of them is tested |
//!
//! Outputs are words too: numbers as bits (ccw as 1.0 or 0.0); for crossings the counts, and then the hits. The library's bits are
//! taken as they are; where the oracle gives a NaN it says 7ff8000000000000, whatever the machine made of it.
use crate::{bits, oracle, search::search, NAN};
use arcs::{checked, vect2d, Arc, Counts, Curve, Param, Refusal};

pub struct Call {
    pub number: u32,
    pub name: &'static str,
    pub takes: &'static str,
    /// Which arcs the cases have.
    pub arcs: Arcs,
    pub own: fn(&[u64]) -> Told,
    /// Asked only where 1 to 4 do not refuse.
    pub oracle: fn(&[u64]) -> Told,
}

#[derive(Clone, Copy, PartialEq)]
pub enum Arcs {
    Any,
    /// The pair is solved: two circles; beside a segment an ellipse too.
    Solved,
    /// An ellipse takes part: the pair is searched.
    Searched,
    /// The pair is searched, and the last sample of the first arc lies on the second.
    Meeting,
}

impl Arcs {
    /// A search takes longer than what is solved: fewer of them are made.
    pub fn slow(self) -> bool {
        matches!(self, Arcs::Searched | Arcs::Meeting)
    }
}

/// What a call gives back.
#[derive(Clone, Debug, PartialEq)]
pub struct Told {
    pub refusal: u32,
    pub numbers: Vec<u64>,
    /// Whether the room has kept its old numbers after the hits, bit for bit.
    pub kept: bool,
}

/// What stands in a room that is lent: a NaN, since the numbers in it are not tested, with bits that no answer has.
const LENT: u64 = 0x7ff8_0000_00c0_ffee;

// Reading words.

fn real(w: &[u64], i: usize) -> f64 {
    f64::from_bits(w[i])
}

fn position(w: &[u64], i: usize) -> vect2d {
    vect2d::new(real(w, i), real(w, i + 1))
}

pub fn arc(w: &[u64], i: usize) -> Arc {
    let n = |k| Param::new(real(w, i + k));
    Arc {
        center: Param::new(position(w, i)),
        radius: n(2),
        radius_b: n(3),
        rotation: n(4),
        start_angle: n(5),
        end_angle: n(6),
        ccw: w[i + 7] & 1 != 0,
        closed: w[i + 7] & 2 != 0,
        is_ellipse: w[i + 7] & 4 != 0,
    }
}

fn curve(w: &[u64], i: usize) -> Curve {
    if w[i + 7] & 8 != 0 { Curve::Segment(position(w, i), position(w, i + 2)) } else { Curve::Arc(arc(w, i)) }
}

// Writing what is told.

trait Numbers {
    fn give(self, to: &mut Vec<u64>);
}

impl Numbers for f64 {
    fn give(self, to: &mut Vec<u64>) {
        to.push(self.to_bits());
    }
}

impl Numbers for bool {
    fn give(self, to: &mut Vec<u64>) {
        (self as u32 as f64).give(to);
    }
}

impl Numbers for vect2d {
    fn give(self, to: &mut Vec<u64>) {
        (self.x, self.y).give(to);
    }
}

impl Numbers for oracle::vect2d {
    fn give(self, to: &mut Vec<u64>) {
        (self.x, self.y).give(to);
    }
}

macro_rules! numbers_of_tuple {
    ($($part:ident)+) => {
        impl<$($part: Numbers),+> Numbers for ($($part,)+) {
            #[allow(non_snake_case)]
            fn give(self, to: &mut Vec<u64>) {
                let ($($part,)+) = self;
                $($part.give(to);)+
            }
        }
    };
}
numbers_of_tuple!(A B);
numbers_of_tuple!(A B C);
numbers_of_tuple!(A B C D E);
numbers_of_tuple!(A B C D E F G);

fn refused(refusal: u32) -> Told {
    Told { refusal, numbers: Vec::new(), kept: true }
}

/// Bit for bit.
fn given(x: impl Numbers) -> Told {
    let mut told = refused(0);
    x.give(&mut told.numbers);
    told
}

/// What the library gives.
fn result(r: Result<impl Numbers, Refusal>) -> Told {
    r.map_or_else(|refusal| refused(refusal.number()), given)
}

/// What the oracle gives. 01: a NaN "that is found is [..] given as bits 7ff8000000000000".
fn answer(x: impl Numbers) -> Told {
    with_one_nan(given(x))
}

fn with_one_nan(told: Told) -> Told {
    let numbers = told.numbers.iter().map(|&word| bits(f64::from_bits(word))).collect();
    Told { numbers, ..told }
}

fn or_refused(refusal: u32, r: Option<impl Numbers>) -> Told {
    r.map_or_else(|| refused(refusal), answer)
}

pub fn words_of(c: Counts) -> [u64; 6] {
    [c.hits, c.brackets, c.outside_a, c.outside_b, c.doubles, c.evaluations].map(|n| n as u64)
}

/// Lends a room of so many numbers to the library. The call's counts come first, the number of hits at their head.
fn lending<const N: usize>(len: u64, call: impl FnOnce(&mut [f64]) -> Result<[u64; N], Refusal>) -> Told {
    let mut room = vec![f64::from_bits(LENT); len as usize];
    let (mut told, hits) = match call(&mut room) {
        Ok(counts) => (Told { numbers: counts.to_vec(), ..refused(0) }, 4 * counts[0] as usize),
        Err(refusal) => (refused(refusal.number()), 0),
    };
    told.numbers.extend(room[..hits].iter().map(|x| x.to_bits()));
    told.kept = room[hits..].iter().all(|x| x.to_bits() == LENT);
    told
}

fn found(counts: &[u64], hits: &[oracle::CurveHit]) -> Told {
    let mut told = Told { numbers: counts.to_vec(), ..refused(0) };
    hits.iter().for_each(|h| (h.t_a, h.t_b, h.pos).give(&mut told.numbers));
    with_one_nan(told)
}

fn closed(hits: &[oracle::CurveHit]) -> Told {
    found(&words_of(Counts { hits: hits.len(), ..Counts::default() }), hits)
}

fn two_arcs(a: oracle::Arc, b: oracle::Arc, depth: u64) -> Told {
    if !a.is_ellipse && !b.is_ellipse {
        return closed(&oracle::intersect_arcs(&a, &b));
    }
    let (hits, counts) = search(&a, &b, depth as u32);
    // At depth 0 the original's own text gives the hits.
    let hits = if depth == 0 { oracle::intersect_arcs(&a, &b) } else { hits };
    found(&words_of(counts), &hits)
}

fn two_curves(a: Curve, b: Curve, depth: u64) -> Told {
    match (a, b) {
        (Curve::Segment(a1, a2), Curve::Segment(b1, b2)) => {
            closed(oracle::intersect_segments(a1.into(), a2.into(), b1.into(), b2.into()).as_slice())
        }
        (Curve::Segment(p1, p2), Curve::Arc(b)) => closed(&oracle::intersect_segment_arc(p1.into(), p2.into(), &b.into())),
        (Curve::Arc(a), Curve::Segment(p1, p2)) => {
            let exchanged = |h: &oracle::CurveHit| oracle::CurveHit { t_a: h.t_b, t_b: h.t_a, pos: h.pos };
            let hits = oracle::intersect_segment_arc(p1.into(), p2.into(), &a.into());
            closed(&hits.iter().map(exchanged).collect::<Vec<_>>())
        }
        (Curve::Arc(a), Curve::Arc(b)) => two_arcs(a.into(), b.into(), depth),
    }
}

fn own_hit(w: &[u64]) -> Told {
    let room: Vec<f64> = (0..w[12] as usize).map(|i| real(w, i)).collect();
    counted(checked::hit(&room, w[13] as usize, w[14] as usize).map_or(refused(0), |h| given((h.t_a, h.t_b, h.pos))))
}

/// How many numbers there are, then these.
fn counted(mut told: Told) -> Told {
    told.numbers.insert(0, told.numbers.len() as u64);
    told
}

/// "an index not below the stated number of hits, or whose four numbers do not all fit in the room, gets the empty part"; else the
/// caller's own numbers, bit for bit.
fn oracle_hit(w: &[u64]) -> Told {
    let (room, count, i) = (w[12] as u128, w[13] as u128, w[14] as u128);
    if i >= count || 4 * i + 4 > room {
        return counted(refused(0));
    }
    let at = 4 * i as usize;
    counted(given((position(w, at), position(w, at + 2))))
}

// The refusals.

/// Where the numbers that a call tests stand, each with its limit.
pub fn limits(takes: &str, w: &[u64]) -> Vec<(usize, f64)> {
    let mut found = Vec::new();
    let mut i = 0;
    for letter in takes.chars() {
        let (coordinates, angles, words) = match letter {
            'c' => (1, 0, 1),
            'a' => (0, 1, 1),
            'p' | 'v' => (2, 0, 2),
            'K' if w[i + 7] & 8 != 0 => (4, 0, 8),
            'A' | 'K' => (4, 3, 8),
            _ => (0, 0, 1),
        };
        found.extend((i..i + coordinates).map(|k| (k, 1_048_576.0)));
        found.extend((i + coordinates..i + coordinates + angles).map(|k| (k, 1_024.0)));
        i += words;
    }
    found
}

/// The need of a call's room: 4 numbers for two segments, 8 for segment and arc or two circles, 1,024 times 2^depth where an
/// ellipse takes part in an arc pair. 0 where no room is lent.
pub fn need(takes: &str, w: &[u64]) -> u64 {
    let of_arcs = |a: &Arc, b: &Arc| if a.is_ellipse || b.is_ellipse { 1024 << w[16].min(3) } else { 8 };
    match takes {
        "ppppr" => 4,
        "ppAr" => 8,
        "AAdr" => of_arcs(&arc(w, 0), &arc(w, 8)),
        "KKdr" => match (curve(w, 0), curve(w, 8)) {
            (Curve::Segment(..), Curve::Segment(..)) => 4,
            (Curve::Arc(a), Curve::Arc(b)) => of_arcs(&a, &b),
            _ => 8,
        },
        _ => 0,
    }
}

/// How many numbers are lent of the first arc or curve, of the second and of `out`, and how many counts. A call that has none of
/// them does not look.
#[derive(Clone, Copy)]
pub struct Lent {
    pub a: u64,
    pub b: u64,
    pub out: u64,
    pub counts: u64,
}

/// Enough for every call.
pub const ENOUGH: Lent = Lent { a: 7, b: 7, out: 8, counts: 6 };

/// How many numbers a call writes to `out`, as include/arcs.h says; 0 of a call that has a room.
pub fn outputs(number: u32) -> u64 {
    match number {
        7 | 8 | 10..=12 | 21 => 1,
        20 | 24 => 3,
        19 => 4,
        22 | 23 => 6,
        25 => 8,
        15..=18 => 0,
        _ => 2,
    }
}

/// How many counts a call writes.
pub fn counts(number: u32) -> u64 {
    match number {
        15 | 16 | 19 => 1,
        17 | 18 => 6,
        _ => 0,
    }
}

/// "A number that the caller has not lent is the NaN": the words with it in such places.
fn as_lent(takes: &str, w: &[u64], lent: Lent) -> Vec<u64> {
    let (mut words, mut i, mut lengths) = (w.to_vec(), 0, [lent.a, lent.b].into_iter());
    for letter in takes.chars() {
        if "AK".contains(letter) {
            let from = i + lengths.next().unwrap().min(7) as usize;
            words[from..i + 7].fill(NAN);
        }
        i += match letter {
            'A' | 'K' => 8,
            'p' | 'v' => 2,
            _ => 1,
        };
    }
    words
}

/// 1 over all the numbers, then 2, 3, and 4 for every room that is lent.
fn refusal(call: &Call, w: &[u64], lent: Lent) -> u32 {
    let takes = call.takes;
    let limits = limits(takes, w);
    let depth = if takes.ends_with("dr") { w[w.len() - 2] } else { 0 };
    let room = if takes.ends_with('r') { w[w.len() - 1] } else { 0 };
    if limits.iter().any(|&(i, _)| !real(w, i).is_finite()) {
        1
    } else if limits.iter().any(|&(i, limit)| real(w, i).abs() > limit) {
        2
    } else if depth > 3 {
        3
    } else if room < need(takes, w) || lent.out < outputs(call.number) || lent.counts < counts(call.number) {
        4
    } else {
        0
    }
}

impl Call {
    /// What the oracle tells, refusals included, where enough is lent.
    pub fn told(&self, w: &[u64]) -> Told {
        self.told_in(w, ENOUGH)
    }

    pub fn told_in(&self, w: &[u64], lent: Lent) -> Told {
        match refusal(self, &as_lent(self.takes, w, lent), lent) {
            0 => (self.oracle)(w),
            no => refused(no),
        }
    }
}

const fn call(number: u32, name: &'static str, takes: &'static str, own: fn(&[u64]) -> Told, oracle: fn(&[u64]) -> Told) -> Call {
    Call { number, name, takes, arcs: Arcs::Any, own, oracle }
}

fn own_arcs(w: &[u64]) -> Told {
    lending(w[17], |room| checked::intersect_arcs_in(&arc(w, 0), &arc(w, 8), w[16] as u32, room).map(words_of))
}

fn oracle_arcs(w: &[u64]) -> Told {
    two_arcs(arc(w, 0).into(), arc(w, 8).into(), w[16])
}

fn own_curves(w: &[u64]) -> Told {
    lending(w[17], |room| checked::intersect_in(&curve(w, 0), &curve(w, 8), w[16] as u32, room).map(words_of))
}

fn oracle_curves(w: &[u64]) -> Told {
    two_curves(curve(w, 0), curve(w, 8), w[16])
}

/// A position for the oracle.
fn at(w: &[u64], i: usize) -> oracle::vect2d {
    position(w, i).into()
}

/// An arc for the oracle.
pub fn bow(w: &[u64], i: usize) -> oracle::Arc {
    arc(w, i).into()
}

/// All of them. Pairs of arcs have a row for those that are solved, one for those that are searched, and at the end one for those
/// whose first arc ends on the second.
pub static CALLS: &[Call] = &[
    call(
        1, "ellipse_point", "pccaa",
        |w| result(checked::ellipse_point(position(w, 0), real(w, 2), real(w, 3), real(w, 4), real(w, 5))),
        |w| answer(oracle::ellipse_point(at(w, 0), real(w, 2), real(w, 3), real(w, 4), real(w, 5))),
    ),
    call(
        2, "ellipse_tangent", "ccaa",
        |w| result(checked::ellipse_tangent(real(w, 0), real(w, 1), real(w, 2), real(w, 3))),
        |w| answer(oracle::ellipse_tangent(real(w, 0), real(w, 1), real(w, 2), real(w, 3))),
    ),
    call(
        3, "arc_point_at", "Aa",
        |w| result(checked::arc_point_at(&arc(w, 0), real(w, 8))),
        |w| answer(oracle::arc_point_at(&bow(w, 0), real(w, 8))),
    ),
    call(
        4, "arc_tangent_at", "Aa",
        |w| result(checked::arc_tangent_at(&arc(w, 0), real(w, 8))),
        |w| answer(oracle::arc_tangent_at(&bow(w, 0), real(w, 8))),
    ),
    call(5, "arc_start_pos", "A", |w| result(checked::arc_start_pos(&arc(w, 0))), |w| answer(oracle::arc_start_pos(&bow(w, 0)))),
    call(6, "arc_end_pos", "A", |w| result(checked::arc_end_pos(&arc(w, 0))), |w| answer(oracle::arc_end_pos(&bow(w, 0)))),
    call(7, "norm_tau", "a", |w| result(checked::norm_tau(real(w, 0))), |w| answer(oracle::norm_tau(real(w, 0)))),
    call(
        8, "arc_param_in_span", "Aa",
        |w| result(checked::arc_param_in_span(&arc(w, 0), real(w, 8))),
        |w| or_refused(6, oracle::arc_param_in_span(&bow(w, 0), real(w, 8))),
    ),
    call(9, "arc_radii", "A", |w| result(checked::arc_radii(&arc(w, 0))), |w| answer(oracle::arc_radii(&bow(w, 0)))),
    call(
        10, "arc_theta_of_pos", "Ap",
        |w| result(checked::arc_theta_of_pos(&arc(w, 0), position(w, 8))),
        |w| answer(oracle::arc_theta_of_pos(&bow(w, 0), at(w, 8))),
    ),
    call(
        11, "arc_param_at_point", "Ap",
        |w| result(checked::arc_param_at_point(&arc(w, 0), position(w, 8))),
        |w| answer(oracle::arc_param_at_point(&bow(w, 0), at(w, 8))),
    ),
    call(
        12, "point_to_segment_dist", "ppp",
        |w| result(checked::point_to_segment_dist(position(w, 0), position(w, 2), position(w, 4))),
        |w| answer(oracle::point_to_segment_dist(at(w, 0), at(w, 2), at(w, 4))),
    ),
    call(
        13, "project_onto_segment", "ppp",
        |w| result(checked::project_onto_segment(position(w, 0), position(w, 2), position(w, 4))),
        |w| answer(oracle::project_onto_segment(at(w, 0), at(w, 2), at(w, 4))),
    ),
    call(
        14, "line_line_intersection", "pppp",
        |w| result(checked::line_line_intersection(position(w, 0), position(w, 2), position(w, 4), position(w, 6))),
        |w| answer(oracle::line_line_intersection(at(w, 0), at(w, 2), at(w, 4), at(w, 6))),
    ),
    call(
        15, "intersect_segments", "ppppr",
        |w| {
            let [a1, a2, b1, b2] = [0, 2, 4, 6].map(|i| position(w, i));
            lending(w[8], |room| checked::intersect_segments_in(a1, a2, b1, b2, room).map(|hits| [hits as u64]))
        },
        |w| {
            let hit = oracle::intersect_segments(at(w, 0), at(w, 2), at(w, 4), at(w, 6));
            found(&[hit.is_some() as u64], hit.as_slice())
        },
    ),
    call(
        16, "intersect_segment_arc", "ppAr",
        |w| {
            lending(w[12], |room| {
                checked::intersect_segment_arc_in(position(w, 0), position(w, 2), &arc(w, 4), room).map(|hits| [hits as u64])
            })
        },
        |w| {
            let hits = oracle::intersect_segment_arc(at(w, 0), at(w, 2), &bow(w, 4));
            found(&[hits.len() as u64], &hits)
        },
    ),
    Call { arcs: Arcs::Solved, ..call(17, "intersect_arcs, two circles", "AAdr", own_arcs, oracle_arcs) },
    Call { arcs: Arcs::Searched, ..call(17, "intersect_arcs, the hunt", "AAdr", own_arcs, oracle_arcs) },
    Call { arcs: Arcs::Solved, ..call(18, "intersect, closed form", "KKdr", own_curves, oracle_curves) },
    Call { arcs: Arcs::Searched, ..call(18, "intersect, the hunt", "KKdr", own_curves, oracle_curves) },
    call(19, "hit", "xxxxxxxxxxxxnnn", own_hit, oracle_hit),
    call(
        20, "point_to_arc_dist", "pA",
        |w| result(checked::point_to_arc_dist(position(w, 0), &arc(w, 2))),
        |w| answer(oracle::point_to_arc_dist(at(w, 0), &bow(w, 2))),
    ),
    call(
        21, "nearest_arc_param", "Ap",
        |w| result(checked::nearest_arc_param(&arc(w, 0), position(w, 8))),
        |w| answer(oracle::nearest_arc_param(&bow(w, 0), at(w, 8))),
    ),
    call(
        22, "svg_arc_to_center", "ppccaff",
        |w| result(checked::svg_arc_to_center(position(w, 0), position(w, 2), real(w, 4), real(w, 5), real(w, 6), w[7] != 0, w[8] != 0)),
        |w| or_refused(5, oracle::svg_arc_to_center(at(w, 0), at(w, 2), real(w, 4), real(w, 5), real(w, 6), w[7] != 0, w[8] != 0)),
    ),
    call(
        23, "circumscribed_arc", "ppp",
        |w| result(checked::circumscribed_arc(position(w, 0), position(w, 2), position(w, 4))),
        |w| or_refused(5, oracle::circumscribed_arc(at(w, 0), at(w, 2), at(w, 4))),
    ),
    call(
        24, "circle_tangent_through", "ppv",
        |w| result(checked::circle_tangent_through(position(w, 0), position(w, 2), position(w, 4))),
        |w| or_refused(5, oracle::circle_tangent_through(at(w, 0), at(w, 2), at(w, 4))),
    ),
    call(
        25, "fit_earc_tangent", "pvpvc",
        |w| result(checked::fit_earc_tangent(position(w, 0), position(w, 2), position(w, 4), position(w, 6), real(w, 8))),
        |w| or_refused(5, oracle::fit_earc_tangent(at(w, 0), at(w, 2), at(w, 4), at(w, 6), real(w, 8))),
    ),
    Call { arcs: Arcs::Meeting, ..call(17, "intersect_arcs, a ends on b", "AAdr", own_arcs, oracle_arcs) },
    Call { arcs: Arcs::Meeting, ..call(18, "intersect, a ends on b", "KKdr", own_curves, oracle_curves) },
];
