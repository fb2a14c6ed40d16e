//! Every number of every call alone a NaN, infinite, next beyond its limit and at it; then which refusal comes first.
use super::{arc, circle, of, reals, row, CCW, CLOSED, ELLIPSE, Row, SEGMENT};
use crate::calls::{limits, Call, CALLS};

fn segment(ends: [f64; 4]) -> [u64; 8] {
    let [a, b, c, d] = reals(ends);
    [a, b, c, d, 0, 0, 0, SEGMENT]
}

/// An ordinary row of each call, and of each kind of pair of curves.
pub fn ordinary() -> Vec<Row> {
    let bent = arc([0.5, -0.25, 2.0, 1.0, 0.25, 0.5, 2.5], CCW);
    let ellipse = arc([1.0, 0.25, 2.0, 1.5, 0.5, 0.0, 1.0], CCW | CLOSED | ELLIPSE);
    let ends = segment([-3.0, 0.125, 3.0, 0.25]);
    let numbers = |call: u32| -> Vec<Row> {
        match call {
            1 => vec![row(1, &[&reals([0.5, -0.25, 2.0, 1.0, 0.25, 0.75])])],
            2 => vec![row(2, &[&reals([2.0, 1.0, 0.25, 0.75])])],
            3 | 4 | 8 => vec![row(call, &[&bent, &reals([0.75])])],
            5 | 6 | 9 => vec![row(call, &[&bent])],
            7 => vec![row(7, &[&reals([0.75])])],
            10 | 11 => vec![row(call, &[&bent, &reals([1.0, 2.0])])],
            12 | 13 => vec![row(call, &[&reals([1.0, 2.0, -0.5, 0.25, 3.0, 0.5])])],
            14 => vec![row(14, &[&reals([0.0, 0.0, 2.0, 1.0, 0.0, 1.0, 2.0, 0.5])])],
            15 => vec![row(15, &[&reals([0.0, 0.0, 2.0, 1.0, 0.0, 1.0, 2.0, 0.5]), &[4]])],
            16 => vec![row(16, &[&reals([-3.0, 0.125, 3.0, 0.25]), &bent, &[8]])],
            17 => vec![row(17, &[&bent, &circle(1.0, 0.0, 2.0), &[0, 8]]), row(17, &[&bent, &ellipse, &[0, 1024]])],
            18 => [(ends, ends, 4), (ends, bent, 8), (bent, ends, 8), (bent, circle(1.0, 0.0, 2.0), 8), (ellipse, bent, 1024)]
                .map(|(a, b, room)| row(18, &[&a, &b, &[0, room]]))
                .into(),
            20 => vec![row(20, &[&reals([1.0, 2.0]), &bent])],
            21 => vec![row(21, &[&bent, &reals([1.0, 2.0])])],
            22 => vec![row(22, &[&reals([1.0, 0.5, -1.0, 0.25, 2.0, 1.5, 0.25]), &[0, 1]])],
            23 => vec![row(23, &[&reals([1.0, 0.0, -1.0, 0.25, 0.5, 2.0])])],
            24 => vec![row(24, &[&reals([0.0, 0.5, 2.0, 1.0, 1.0, 3.0])])],
            25 => vec![row(25, &[&reals([1.0, 0.0, 0.0, 1.0, 0.0, 1.0, -1.0, 0.25, 0.5])])],
            _ => vec![],
        }
    };
    let mut numbered: Vec<u32> = CALLS.iter().map(|c: &Call| c.number).collect();
    numbered.sort();
    numbered.dedup();
    numbered.into_iter().flat_map(numbers).collect()
}

/// The same row with other words in some places.
pub fn with(r: &Row, changes: &[(usize, u64)]) -> Row {
    let mut words = r.words.clone();
    changes.iter().for_each(|&(i, w)| words[i] = w);
    of(r.call, words)
}

pub fn rows() -> Vec<Row> {
    let mut rows = Vec::new();
    for r in ordinary() {
        let takes = super::call(r.call).takes;
        let tested = limits(takes, &r.words);
        for (k, &(i, limit)) in tested.iter().enumerate() {
            let sign = if k % 2 == 0 { 1.0 } else { -1.0 };
            let past = f64::from_bits(limit.to_bits() + 1);
            for x in [f64::NAN, sign * f64::INFINITY, past, -past, sign * limit] {
                rows.push(with(&r, &[(i, x.to_bits())]));
            }
        }
        // 1 over all the numbers, then 2: the first beyond, the last a NaN; and both before the depth and the room.
        let (&(first, limit), &(last, _)) = (tested.first().unwrap(), tested.last().unwrap());
        let beyond = (first, (2.0 * limit).to_bits());
        if first != last {
            rows.push(with(&r, &[beyond, (last, f64::NAN.to_bits())]));
            rows.push(with(&r, &[(first, f64::INFINITY.to_bits()), (last, (2.0 * limit).to_bits())]));
        }
        let end = r.words.len();
        if takes.ends_with('r') {
            let short = (end - 1, 0);
            rows.push(with(&r, &[(last, f64::NAN.to_bits()), short]));
            rows.push(with(&r, &[beyond, short]));
            if takes.ends_with("dr") {
                let deep = (end - 2, 4);
                rows.push(with(&r, &[(last, f64::NAN.to_bits()), deep, short]));
                rows.push(with(&r, &[beyond, deep]));
                rows.push(with(&r, &[deep, short]));
            }
        }
    }
    rows
}
