//! Writes the rows that the program `replay_routines` is run on, to standard output: see crates/replay_routines/src/main.rt for their form.
//! `bench/run answers > crates/replay_routines/stdin`. The answers are the machine's root and Rust's own methods. Where Rust leaves
//! the answer open or panics, document 01's sentence gives it, as said at each. For the angles they are those of docs/TRIG.md: its
//! own values, and what its second writing (bench/src/trig_page.rs) gives at each threshold, on both sides and next to it.
use bench::trig_page::{self, angle_units, two_to, unrounded, TAU};
use bench::{bits, special, Random, NAN};
use std::hint::black_box;

fn words(routine: char, words: [u64; 4]) {
    let [x, y, z, answer] = words;
    println!("{routine}\t{x:016x}\t{y:016x}\t{z:016x}\t{answer:016x}");
}

fn row(routine: char, x: f64, y: f64, z: f64, answer: f64) {
    words(routine, [x, y, z, answer].map(bits));
}

fn root(x: f64) {
    row('s', x, 0.0, 0.0, black_box(x.sqrt()));
}

fn sine(x: f64) {
    row('n', x, 0.0, 0.0, trig_page::sin(x));
}

fn cosine(x: f64) {
    row('o', x, 0.0, 0.0, trig_page::cos(x));
}

fn angle(x: f64) {
    sine(x);
    cosine(x);
}

fn arctangent(y: f64, x: f64) {
    row('t', y, x, 0.0, trig_page::atan2(y, x));
}

fn arccosine(c: f64) {
    row('r', c, 0.0, 0.0, trig_page::acos(c));
}

/// Numbers at which a rule turns.
fn edges() -> Vec<f64> {
    let sizes = [
        0.0,
        f64::from_bits(1),
        f64::from_bits(0x000f_ffff_ffff_ffff),
        f64::MIN_POSITIVE,
        0.5,
        1.0,
        f64::from_bits(0x3ff0_0000_0000_0001),
        1_048_576.0,
        f64::MAX,
        f64::INFINITY,
    ];
    let mut all: Vec<f64> = sizes.iter().flat_map(|&s| [s, -s]).collect();
    all.push(f64::NAN);
    all
}

fn zeros(x: f64, y: f64) -> bool {
    x == 0.0 && y == 0.0
}

/// 01: "of two zeros minimum and maximum give the second".
fn min(x: f64, y: f64) -> f64 {
    if zeros(x, y) { y } else { x.min(y) }
}

fn max(x: f64, y: f64) -> f64 {
    if zeros(x, y) { y } else { x.max(y) }
}

/// 01: "clamp with a NaN value, low end above high or a NaN end, the answer is the NaN". Rust panics at such ends.
fn clamp(x: f64, low: f64, high: f64) -> f64 {
    if low <= high { x.clamp(low, high) } else { f64::from_bits(NAN) }
}

/// docs/TRIG.md, 'Some values': an angle, its sine, its cosine.
const SINES: &[[u64; 3]] = &[
    [0x3fe0000000000000, 0x3fdeaee8744b05f0, 0x3fec1528065b7d50],
    [0x3ff0000000000000, 0x3feaed548f090cee, 0x3fe14a280fb5068c],
    [0xbff0000000000000, 0xbfeaed548f090cee, 0x3fe14a280fb5068c],
    [0x4000000000000000, 0x3fed18f6ead1b446, 0xbfdaa22657537204],
    [0x400921fb54442d18, 0x3ca0000000000000, 0xbff0000000000000],
    [0x401921fb54442d17, 0xbcd4000000000000, 0x3ff0000000000000],
    [0x401921fb54442d18, 0x0000000000000000, 0x3ff0000000000000],
    [0xc01921fb54442d18, 0x8000000000000000, 0x3ff0000000000000],
    [0x4059000000000000, 0xbfe03425b78c4d9b, 0x3feb981dbf665ff0],
    [0x40c81cd6e631f8a1, 0xbfe68298a1ceb53f, 0x3fe6be7c89fe5676],
    [0x7fefffffffffffff, 0x3fe18de30098ff11, 0x3feac15e48c1813a],
    [0x3e50000000000000, 0x3e50000000000000, 0x3fefffffffffffff],
    [0x3e4fffffffffffff, 0x3e4fffffffffffff, 0x3fefffffffffffff],
    [0x3e40000000000000, 0x3e40000000000000, 0x3ff0000000000000],
    [0x3e3fffffffffffff, 0x3e3fffffffffffff, 0x3ff0000000000000],
    [0x0000000000000001, 0x0000000000000001, 0x3ff0000000000000],
    [0x8000000000000000, 0x8000000000000000, 0x3ff0000000000000],
];

/// y, x and the arctangent.
const ARCTANGENTS: &[[u64; 3]] = &[
    [0x3ff0000000000000, 0x4000000000000000, 0x3fddac670561bb50],
    [0x4000000000000000, 0x3ff0000000000000, 0x3ff1b6e192ebbe44],
    [0x3ff0000000000000, 0xc000000000000000, 0x40056c6e7397f5ae],
    [0xc000000000000000, 0x3ff0000000000000, 0xbff1b6e192ebbe44],
    [0x3ff0000000000000, 0xbff0000000000000, 0x4002d97c7f3321d2],
    [0x3e50000000000000, 0x3ff0000000000000, 0x3e4ffffffffc0000],
    [0x0000000000000001, 0x7fefffffffffffff, 0x0000000000000000],
    [0x0000000000000001, 0xffefffffffffffff, 0x400921fb54442d18],
    [0x3e4fffffffffffff, 0x3ff0000000000000, 0x3e4fffffffffffff],
];

/// c and the arccosine.
const ARCCOSINES: &[[u64; 2]] = &[
    [0x3fe0000000000000, 0x3ff0c152382d7365],
    [0xbfe0000000000000, 0x4000c152382d7366],
    [0x0000000000000000, 0x3ff921fb54442d18],
    [0x8000000000000000, 0x3ff921fb54442d18],
    [0x3fefffffffffffff, 0x3e4ffffffffc0000],
];

/// What stands where nothing is written, as in the program.
const UNWRITTEN: f64 = 1.0e300;

/// 01: "the lent room is shorter than the need"; "the room keeps all its old numbers".
fn sine_and_cosine(x: f64, len: u64) {
    let fits = len >= 2;
    let first = if fits { [trig_page::sin(x), trig_page::cos(x)] } else { [UNWRITTEN; 2] };
    let out = [first[0], first[1], UNWRITTEN].map(bits);
    for (i, word) in out.into_iter().chain([if fits { 0 } else { 4 }]).enumerate() {
        words('b', [bits(x), len, i as u64, word]);
    }
}

/// The number and the two on either side, of both signs.
fn next_to(x: f64) -> impl Iterator<Item = f64> {
    (0..5).flat_map(move |k| {
        let beside = f64::from_bits(x.to_bits() + k - 2);
        [beside, -beside]
    })
}

/// Where the rules of the angles turn: the small angles, the whole turns, the nodes; where the code takes another way.
fn angles(random: &mut Random) -> Vec<f64> {
    let mut all = special();
    let small = [1.0 / two_to(26), 1.0 / two_to(27), 1.0 / two_to(28), (1.0 / two_to(53)).sqrt()];
    let turning = [1.0 / 512.0, 1.0 / 32.0, 0.5, TAU / 4.0, TAU / 2.0, 3.0 * (TAU / 4.0), TAU, 8192.0];
    all.extend(small.into_iter().chain(turning).flat_map(next_to));
    // The remainder is exact: whole turns, and a small angle past one.
    for turns in [2.0, 4.0, two_to(20), two_to(60)] {
        all.extend(next_to(turns * TAU));
    }
    all.extend(small.into_iter().flat_map(|r| next_to(TAU + r)));
    // Far from 0.
    all.extend([1024.0, 1e6, 1e300].map(|size| random.within(size)));
    all
}

/// Angles on both sides of the node j / 16 at whose sine, or cosine, one unit of 2^-61 more (a rest of 255) or less (0) in what is
/// rounded gives another answer: so each number of the table counts to its last digit.
fn at_the_rounding(random: &mut Random, j: u64, of: usize, rest: u64) -> impl Iterator<Item = f64> {
    let mut find = |side: f64| {
        std::iter::repeat_with(|| (j as f64 + side * 0.5 * random.within(1.0).abs()) / 16.0)
            .take(100_000)
            .find(|&x| x > 0.0 && x < TAU && (unrounded(x)[of] + 128) % 256 == rest)
    };
    [find(-1.0), find(1.0)].into_iter().flatten()
}

/// A point of row j of the arctangent whose angle at 2^61 lies halfway between two answers, where it is rounded at all: one unit
/// more or less gives another. In any quadrant.
fn point_at_the_rounding(random: &mut Random, j: u64) -> Option<(f64, f64)> {
    std::iter::repeat_with(|| {
        let (larger, sign) = (1.0 + random.within(1.0).abs(), 1.0 - 2.0 * random.below(2) as f64);
        let smaller = larger * (j as f64 + random.within(1.0).abs()) / 32.0;
        let (y, x) = if random.below(2) == 0 { (smaller, sign * larger) } else { (larger, sign * smaller) };
        (if random.below(2) == 0 { -y } else { y }, x)
    })
    .take(100_000)
    .find(|&(y, x)| {
        let n = angle_units(y, x);
        let cut = 1u64 << (64 - n.leading_zeros()).saturating_sub(53);
        n % cut == cut / 2
    })
}

fn points(random: &mut Random) -> Vec<(f64, f64)> {
    let mut all = Vec::new();
    // Annex F, and what is not: the signs, the quadrants, which of the two is y.
    let sizes = [0.0, f64::from_bits(1), f64::from_bits(0x3e4f_ffff_ffff_ffff), 1.0 / two_to(26), 0.5, 1.0, 2.0, 1e300, f64::MAX, f64::INFINITY];
    let mut few: Vec<f64> = sizes.iter().flat_map(|&s| [s, -s]).collect();
    few.push(f64::NAN);
    few.iter().for_each(|&y| all.extend(few.iter().map(|&x| (y, x))));
    // The quotient at 2^-26, and where it underflows; |y| = |x|.
    for x in [1.0, 3.0, 1_048_576.0, 1.0e-7] {
        for part in [1.0 / two_to(26), 1.0 / two_to(25), 1.0] {
            all.extend(next_to(x * part).flat_map(|y| [(y, x), (y, -x), (x, y)]));
        }
    }
    all.extend([(f64::MIN_POSITIVE, 3.0), (-f64::MIN_POSITIVE, 3.0), (5e-324, 3.0), (-5e-324, 3.0)]);
    // The cells of the table, from thirty-second to thirty-second.
    for j in 1..=32 {
        let y = j as f64;
        all.extend([-1i64, 0, 1].map(|k| (f64::from_bits(y.to_bits().wrapping_add_signed(k)), 32.0)));
    }
    for j in 0..32 {
        all.extend((0..6).filter_map(|_| point_at_the_rounding(random, j)));
    }
    all
}

fn cosines(random: &mut Random) -> Vec<f64> {
    let mut all = special();
    all.extend([0.5, 1.0, TAU / 8.0, 1.0 / two_to(26), 1.0 / two_to(27)].into_iter().flat_map(next_to));
    all.extend((0..100).map(|_| random.within(1.0)));
    all
}

fn roots(random: &mut Random) {
    for exponent in 0..2048u64 {
        root(f64::from_bits(exponent << 52 | random.bits() >> 12));
    }
    for size in 0..52u64 {
        root(f64::from_bits(random.bits() >> 12 >> size));
    }
    // Squares, where the rounding turns.
    for _ in 0..20 {
        let s = f64::from_bits(0x3ff << 52 | random.bits() >> 12);
        next_to(s * s).for_each(root);
    }
    edges().into_iter().for_each(root);
}

fn extremes() {
    let edges = edges();
    for &x in &edges {
        row('a', x, 0.0, 0.0, x.abs());
        for &y in &edges {
            row('m', x, y, 0.0, min(x, y));
            row('x', x, y, 0.0, max(x, y));
        }
    }
    let few = [f64::NEG_INFINITY, -1.0, -0.0, 0.0, 0.5, 1.0, f64::INFINITY, f64::NAN];
    for &x in &few {
        for &low in &few {
            for &high in &few {
                row('c', x, low, high, clamp(x, low, high));
            }
        }
    }
}

/// The values that docs/TRIG.md itself lists.
fn listed() {
    for &[x, s, c] in SINES {
        row('n', f64::from_bits(x), 0.0, 0.0, f64::from_bits(s));
        row('o', f64::from_bits(x), 0.0, 0.0, f64::from_bits(c));
    }
    for &[y, x, a] in ARCTANGENTS {
        row('t', f64::from_bits(y), f64::from_bits(x), 0.0, f64::from_bits(a));
    }
    for &[c, a] in ARCCOSINES {
        row('r', f64::from_bits(c), 0.0, 0.0, f64::from_bits(a));
    }
}

fn main() {
    let mut random = Random(1);
    roots(&mut random);
    extremes();
    listed();
    angles(&mut random).into_iter().for_each(angle);
    for j in 0..102 {
        for rest in [0, 255] {
            at_the_rounding(&mut random, j, 0, rest).for_each(sine);
            at_the_rounding(&mut random, j, 1, rest).for_each(cosine);
        }
    }
    for x in [0.5, -2.0, TAU, 1.0 / two_to(27), f64::INFINITY, f64::NAN] {
        (0..4).for_each(|len| sine_and_cosine(x, len));
    }
    points(&mut random).into_iter().for_each(|(y, x)| arctangent(y, x));
    cosines(&mut random).into_iter().for_each(arccosine);
}
