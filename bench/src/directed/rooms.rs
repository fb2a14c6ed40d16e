//! What is lent: rooms, counts, `out` and the numbers of an arc, of every length that matters; depths; marks and flags.
use super::limits::{self, ordinary};
use super::{arc, call, circle, of, reals, row, Row, CCW, CLOSED, ELLIPSE, SEGMENT};
use crate::calls::{counts, need, outputs, Lent, ENOUGH};

/// The same row with other lengths.
fn lending(r: &Row, lent: Lent) -> Row {
    Row { call: r.call, words: r.words.clone(), lent }
}

fn with(r: &Row, i: usize, word: u64) -> Row {
    limits::with(r, &[(i, word)])
}

/// Too few numbers of an arc, and just enough; of a segment four are enough.
fn fewer_numbers() -> Vec<Row> {
    let mut rows = Vec::new();
    for r in ordinary() {
        let takes = call(r.call).takes;
        let curves = takes.chars().filter(|c| "AK".contains(*c)).count();
        for k in [0, 1, 3, 4, 5, 6, 12] {
            if curves > 0 {
                rows.push(lending(&r, Lent { a: k, ..ENOUGH }));
            }
            if curves > 1 {
                rows.push(lending(&r, Lent { b: k, ..ENOUGH }));
            }
        }
        // 1 before 2: a number beyond its limit, another not lent.
        if curves > 0 {
            rows.push(lending(&with(&r, 0, 2e6f64.to_bits()), Lent { a: 6, ..ENOUGH }));
        }
    }
    rows
}

/// Rows that are refused with 5 or 6.
fn refused_late() -> Vec<Row> {
    let partial = arc([0.0, 0.0, 1.0, 1.0, 0.0, 0.0, 1.0], CCW);
    vec![
        row(8, &[&partial, &reals([3.0])]),
        row(22, &[&reals([1.0, 1.0, 1.0, 1.0, 1.0, 1.0, 0.0]), &[0, 0]]),
        row(23, &[&reals([0.0, 0.0, 1.0, 0.0, 2.0, 0.0])]),
        row(24, &[&reals([0.0, 0.0, 1.0, 0.0, 1.0, 0.0])]),
        row(25, &[&reals([0.0, 0.0, 1.0, 0.0, 1.0, 0.0, 1.0, 0.0, 0.5])]),
    ]
}

/// `out` of need and shorter: 4 after 1 and 2, before 5 and 6.
fn short_out() -> Vec<Row> {
    let mut rows = Vec::new();
    for r in ordinary().into_iter().chain(refused_late()).filter(|r| outputs(r.call) > 0) {
        let n = outputs(r.call);
        for out in [n, n - 1, 0] {
            rows.push(lending(&r, Lent { out, ..ENOUGH }));
        }
        for bad in [f64::NAN, 2e6] {
            rows.push(lending(&with(&r, 0, bad.to_bits()), Lent { out: n - 1, ..ENOUGH }));
        }
    }
    rows
}

/// Rooms of the need and one less, of every kind of pair at every depth; counts likewise; depths beyond the deepest.
fn short_rooms() -> Vec<Row> {
    let mut rows = Vec::new();
    for r in ordinary().into_iter().filter(|r| call(r.call).takes.ends_with('r')) {
        let (takes, last, n) = (call(r.call).takes, r.words.len() - 1, counts(r.call));
        let deepest = if takes.ends_with("dr") { 3 } else { 0 };
        for depth in 0..=deepest {
            let r = if deepest > 0 { with(&r, last - 1, depth) } else { of(r.call, r.words.clone()) };
            let need = need(takes, &r.words);
            for room in [need, need - 1, need + 1] {
                rows.push(with(&r, last, room));
            }
        }
        rows.push(with(&r, last, 0));
        for counts in [n, n - 1, 0] {
            rows.push(lending(&r, Lent { counts, ..ENOUGH }));
        }
        let bad = [with(&r, 0, f64::NAN.to_bits()), with(&r, 0, 2e6f64.to_bits()), with(&r, last, 0)];
        rows.extend(bad.iter().map(|r| lending(r, Lent { counts: n - 1, ..ENOUGH })));
        if deepest > 0 {
            for depth in [4, 5, 1 << 31, u32::MAX as u64] {
                rows.push(with(&r, last - 1, depth));
            }
            rows.push(lending(&with(&r, last - 1, 4), Lent { counts: n - 1, ..ENOUGH }));
        }
    }
    rows
}

/// Marks above 15, of which the higher digits are not looked at, and 8, which only call 12 reads; flags above 1.
fn marks_and_flags() -> Vec<Row> {
    let mut rows = Vec::new();
    let numbers = [0.5, -0.25, 2.0, 1.0, 0.25, 0.5, 2.5];
    for marks in (0..16).chain([16, 17, 19, 21, 23, 31, 0x8000_0001, 0xffff_fff0, 0xffff_ffff]) {
        let a = arc(numbers, marks);
        rows.push(row(8, &[&a, &reals([0.75])]));
        rows.push(row(9, &[&a]));
        rows.push(row(20, &[&reals([1.0, 2.0]), &a]));
        rows.push(row(21, &[&a, &reals([1.0, 2.0])]));
        rows.push(row(16, &[&reals([-3.0, 0.125, 3.0, 0.25]), &a, &[8]]));
        rows.push(row(17, &[&a, &circle(1.0, 0.0, 2.0), &[0, 1024]]));
        rows.push(row(17, &[&circle(1.0, 0.0, 2.0), &a, &[0, 1024]]));
        rows.push(row(18, &[&a, &circle(1.0, 0.0, 2.0), &[0, 1024]]));
        rows.push(row(18, &[&circle(1.0, 0.0, 2.0), &a, &[0, 1024]]));
    }
    for large in [0, 1, 2, 3, 0x8000_0000, u32::MAX as u64] {
        for sweep in [0, 1, 2, 4, 256, u32::MAX as u64] {
            rows.push(row(22, &[&reals([1.0, 0.5, -1.0, 0.25, 2.0, 1.5, 0.25]), &[large, sweep]]));
        }
    }
    // Of a segment only four numbers count.
    for i in 4..7 {
        let mut words = row(18, &[&[reals([-3.0, 0.125, 3.0, 0.25]).to_vec(), vec![0, 0, 0, SEGMENT]].concat(), &circle(0.0, 0.0, 1.0), &[0, 8]]).words;
        words[i] = f64::NAN.to_bits();
        rows.push(of(18, words));
    }
    rows.push(row(18, &[&arc(numbers, SEGMENT | CCW | CLOSED | ELLIPSE), &circle(0.0, 0.0, 1.0), &[0, 8]]));
    rows
}

/// A hit by its index: below the number of hits and not, in a room that has all its four numbers and not.
fn hits() -> Vec<Row> {
    let mut rows = Vec::new();
    let numbers = reals([0.25, 0.5, 1.0, 2.0, -0.0, f64::INFINITY, f64::NAN, -1.0, 3.0, 4.0, 5.0, 6.0]);
    let huge = u64::MAX;
    let asked = [(12, 3, 0), (12, 3, 1), (12, 3, 2), (12, 3, 3), (12, 2, 2), (12, 0, 0), (12, 1, 0), (11, 3, 2), (8, 3, 2), (8, 2, 1), (7, 2, 1), (4, 1, 0), (3, 1, 0), (0, 1, 0)];
    let beyond = [(12, huge, 2), (12, huge, 3), (12, huge, huge - 1), (12, huge, huge), (12, huge, 1 << 62), (12, huge, (1 << 62) + 1), (12, huge, 1 << 63), (12, 4, 3)];
    for (room, count, i) in asked.into_iter().chain(beyond) {
        let r = row(19, &[&numbers, &[room, count, i]]);
        rows.push(of(19, r.words.clone()));
        if i < 2 {
            for lent in [Lent { out: 4, ..ENOUGH }, Lent { out: 3, ..ENOUGH }, Lent { out: 0, ..ENOUGH }, Lent { counts: 1, ..ENOUGH }, Lent { counts: 0, ..ENOUGH }] {
                rows.push(lending(&r, lent));
            }
        }
    }
    rows
}

pub fn rows() -> Vec<Row> {
    let mut rows = fewer_numbers();
    for part in [short_out, short_rooms, marks_and_flags, hits] {
        rows.extend(part());
    }
    rows
}
