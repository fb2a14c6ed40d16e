//! Inputs next to a test: one word of a row is moved until the test turns.
use super::{call, of, real, Row};
use crate::Random;

/// A test of the original, as its two sides.
pub struct Edge {
    pub call: u32,
    pub words: Vec<u64>,
    /// The word that is moved, from where to where: the left side is below the right at one end and not at the other.
    pub moved: usize,
    pub from: f64,
    pub to: f64,
    pub sides: fn(&[u64]) -> (f64, f64),
    /// The words that are varied, all by one factor, until the sides are equal, and neighbours; none where they are at once or never.
    pub varied: &'static [usize],
    /// Whether some input makes both sides equal, and so tells `<` from `<=`.
    pub equal: bool,
}

const TRIES: usize = 3_000;

/// The order of the numbers as an order of whole numbers.
fn place(x: f64) -> i64 {
    let bits = x.to_bits() as i64;
    if bits < 0 { i64::MIN.wrapping_sub(bits) } else { bits }
}

fn at_place(p: i64) -> f64 {
    f64::from_bits(if p < 0 { i64::MIN.wrapping_sub(p) } else { p } as u64)
}

impl Edge {
    fn with(&self, x: f64) -> Vec<u64> {
        let mut words = self.words.clone();
        words[self.moved] = x.to_bits();
        words
    }

    /// The neighbours between which a test turns.
    fn turn(&self, holds: impl Fn((f64, f64)) -> bool) -> [Vec<u64>; 2] {
        let test = |p: i64| holds((self.sides)(&self.with(at_place(p))));
        let (mut low, mut high) = (place(self.from), place(self.to));
        let first = test(low);
        assert!(first != test(high), "call {:x}, word {}: the test does not turn", self.call, self.moved);
        while low.abs_diff(high) > 1 {
            let middle = low + (high - low) / 2;
            if test(middle) == first { low = middle } else { high = middle }
        }
        [low, high].map(|p| self.with(at_place(p)))
    }

    /// Rows at which the left side is the right one's neighbour below, the right one itself, its neighbour above; as far as there are.
    fn close(&self) -> [Option<Vec<u64>>; 3] {
        [f64::next_down, |x| x, f64::next_up].map(|beside: fn(f64) -> f64| {
            self.turn(|(a, b)| a < beside(b)).into_iter().find(|w| { let (a, b) = (self.sides)(w); a == beside(b) })
        })
    }

    /// The rows between which the test turns, and those at which a bound that is wrong in its last bit, or `<` for `<=`, would tell.
    pub fn rows(mut self) -> Vec<Row> {
        let mut random = Random(1);
        let given = self.words.clone();
        let mut words = [self.turn(|(a, b)| a < b), self.turn(|(a, b)| a <= b)].concat();
        let mut close = self.close();
        let tries = if self.equal && !self.varied.is_empty() { TRIES } else { 0 };
        for _ in 0..tries {
            if close.iter().all(Option::is_some) {
                break;
            }
            let factor = 1.0 + random.within(1e-3);
            self.varied.iter().for_each(|&i| self.words[i] = (real(&given, i) * factor).to_bits());
            let found = self.close();
            close = std::array::from_fn(|k| close[k].take().or_else(|| found[k].clone()));
        }
        assert_eq!(close[1].is_some(), self.equal, "call {:x}, word {}: equal sides", self.call, self.moved);
        words.extend(close.into_iter().flatten());
        words.sort();
        words.dedup();
        let told: Vec<_> = words.iter().map(|w| call(self.call).told(w)).collect();
        assert!(told.windows(2).any(|t| t[0] != t[1]), "call {:x}: the answers do not tell", self.call);
        words.into_iter().map(|w| of(self.call, w)).collect()
    }
}
