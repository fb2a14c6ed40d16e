//! Rows that are chosen and not drawn, so that the stored answers tell a right definition from one that is wrong by little.
//!
//! For every test of the original and every rule of 01: inputs on both sides of it and next to it, and where inputs can tell
//! `<` from `<=`, one at which both sides are equal. A file has the tests of its functions in the order of their text. Where
//! no input tells two readings apart, a comment says why.
mod constructions;
mod crossings;
mod distances;
mod edge;
mod fit;
mod hunt;
mod limits;
mod lines;
mod rooms;
mod spans;

use crate::calls::{Call, Lent, CALLS, ENOUGH};

/// The number of a call, its words, and what is lent to it.
pub struct Row {
    pub call: u32,
    pub words: Vec<u64>,
    pub lent: Lent,
}

/// What the oracle is asked by. A pair of arcs has two entries in the list of calls, with one oracle.
pub fn call(number: u32) -> &'static Call {
    CALLS.iter().find(|c| c.number == number).unwrap()
}

fn row(call: u32, parts: &[&[u64]]) -> Row {
    of(call, parts.concat())
}

/// A row to which enough is lent.
fn of(call: u32, words: Vec<u64>) -> Row {
    Row { call, words, lent: ENOUGH }
}

fn reals<const N: usize>(numbers: [f64; N]) -> [u64; N] {
    numbers.map(f64::to_bits)
}

fn real(w: &[u64], i: usize) -> f64 {
    f64::from_bits(w[i])
}

const CCW: u64 = 1;
const CLOSED: u64 = 2;
const ELLIPSE: u64 = 4;
const SEGMENT: u64 = 8;

/// Center x and y, radius, radius_b, rotation, start, end; marks.
fn arc(numbers: [f64; 7], marks: u64) -> [u64; 8] {
    let [a, b, c, d, e, f, g] = reals(numbers);
    [a, b, c, d, e, f, g, marks]
}

/// A closed circle that starts at 0.
fn circle(x: f64, y: f64, radius: f64) -> [u64; 8] {
    arc([x, y, radius, radius, 0.0, 0.0, 0.0], CCW | CLOSED)
}

pub fn rows() -> Vec<Row> {
    let mut rows = Vec::new();
    for part in [lines::rows, spans::rows, crossings::rows, hunt::rows, distances::rows, constructions::rows, fit::rows, limits::rows, rooms::rows] {
        rows.extend(part());
    }
    rows
}
