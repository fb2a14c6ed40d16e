//! The proved routines against the second writing of docs/TRIG.md (bench/src/trig_page.rs): every bit, on more than a million
//! arguments each. `bench/run trig_rule [SEED]`
use bench::trig_page::{acos, atan2, cos, sin, two_to, TAU};
use bench::{seed, special, Random};

/// How many arguments of each kind.
const EACH: u32 = 200_000;
const SHOWN: usize = 5;

struct Tally {
    name: &'static str,
    arguments: u64,
    differ: u64,
    shown: Vec<String>,
}

impl Tally {
    fn new(name: &'static str) -> Self {
        Tally { name, arguments: 0, differ: 0, shown: Vec::new() }
    }

    /// Counts one call. The rule and the proved routine may give more than one number.
    fn check<const A: usize, const N: usize>(&mut self, arguments: [f64; A], rule: [f64; N], proved: [f64; N]) {
        self.arguments += 1;
        let (rule, proved) = (rule.map(f64::to_bits), proved.map(f64::to_bits));
        if rule != proved {
            self.differ += 1;
            if self.shown.len() < SHOWN {
                let arguments = arguments.map(f64::to_bits);
                self.shown.push(format!("  of {arguments:016x?} the rule gives {rule:016x?}, the routine {proved:016x?}"));
            }
        }
    }

    /// Prints the line. Says whether all are equal.
    fn close(&self) -> bool {
        println!("{}: {} arguments, {} differ", self.name, self.arguments, self.differ);
        for line in &self.shown {
            println!("{line}");
        }
        self.differ == 0
    }
}

/// The number itself or one of the 8 on either side.
fn beside(random: &mut Random, x: f64) -> f64 {
    // Below +0 come the NaNs, which are not beside it.
    f64::from_bits(x.to_bits().saturating_add(random.below(17)).saturating_sub(8))
}

/// A number at some distance, from 1/16 to far below the last place. Small distances are as likely as large ones.
fn about(random: &mut Random, x: f64) -> f64 {
    let size = 1.0 / two_to(random.below(60) as u32 + 4);
    x + random.within(size)
}

/// Beside a number or about it, and of either sign.
fn around(random: &mut Random, x: f64) -> f64 {
    let x = if random.below(2) == 0 { beside(random, x) } else { about(random, x) };
    signed(random, x)
}

fn signed(random: &mut Random, x: f64) -> f64 {
    if random.below(2) == 0 { -x } else { x }
}

/// Any pattern: NaNs, infinities and subnormals come, but seldom.
fn pattern(random: &mut Random) -> f64 {
    f64::from_bits(random.bits())
}

/// Any fraction and sign with this exponent field. 0 has the subnormals, 2047 the NaNs.
fn with_exponent(random: &mut Random, field: u64) -> f64 {
    f64::from_bits(random.bits() & 0x800f_ffff_ffff_ffff | field << 52)
}

/// A subnormal number of any length.
fn subnormal(random: &mut Random) -> f64 {
    let size = f64::from_bits((random.bits() >> 12) >> random.below(52));
    signed(random, size)
}

/// Whole multiples of a quarter of TAU, small ones and large ones.
fn quarters(random: &mut Random) -> f64 {
    let bound = 1 << (random.below(52) + 1);
    random.below(bound) as f64 * (TAU / 4.0)
}

fn angles(random: &mut Random) -> Vec<f64> {
    let mut all = special();
    for field in 0..2048 {
        all.extend((0..100).map(|_| with_exponent(random, field)));
    }
    for _ in 0..EACH {
        all.push(pattern(random));
        all.push(random.within(TAU));
        all.push(random.within(1024.0));
        // Up to 8192 the page knows a second way to the remainder.
        all.push(random.within(16384.0));

        let node = random.below(102) as f64 / 16.0;
        let turns = random.below(200) as f64 * TAU;
        all.push(around(random, node));
        all.push(around(random, node + turns));
        all.push(around(random, node + 1.0 / 32.0));
        all.push(around(random, node + 1.0 / 32.0 + turns));

        let many = random.below(1 << 20) as f64 * TAU;
        all.push(around(random, many));
        let quarter = quarters(random);
        all.push(around(random, quarter));
        let first = random.below(9) as f64 * (TAU / 4.0);
        all.push(around(random, first));
        // TAU doubled again and again is exactly a whole multiple of TAU: r is 0 there.
        let doubled = f64::from_bits(TAU.to_bits() + (random.below(1000) << 52));
        let doubled = beside(random, doubled);
        all.push(signed(random, doubled));

        let tiny = 1.0 / two_to(26 + random.below(2) as u32);
        let tiny = beside(random, tiny);
        all.push(signed(random, tiny));
        // r is tiny too where x is a whole multiple of TAU and a little more.
        let past = random.below(4) as f64 * TAU + tiny;
        all.push(signed(random, past));
        let field = 990 + random.below(12);
        all.push(with_exponent(random, field));
        all.push(subnormal(random));
    }
    all
}

fn points(random: &mut Random) -> Vec<(f64, f64)> {
    let special = special();
    let mut all = Vec::new();
    for &y in &special {
        for &x in &special {
            all.push((y, x));
        }
        for _ in 0..100 {
            let other = pattern(random);
            all.extend([(y, other), (other, y)]);
        }
    }
    for field in 0..2048 {
        for _ in 0..50 {
            let size = with_exponent(random, field);
            let other = pattern(random);
            all.extend([(size, other), (other, size)]);
        }
    }
    for _ in 0..EACH {
        let (y, x) = (pattern(random), pattern(random));
        all.push((y, x));
        all.push((random.within(1.0), random.within(1.0)));
        all.push((random.within(1024.0), random.within(1024.0)));
        all.push((subnormal(random), subnormal(random)));

        // As large as each other, or nearly.
        let same = signed(random, x);
        all.push((same, x));
        let nearly = beside(random, x);
        all.push((signed(random, nearly), x));
        // Apart by up to 40 powers of 2.
        let field = 100 + random.below(1800);
        let apart = field + random.below(81) - 40;
        all.push((with_exponent(random, field), with_exponent(random, apart)));

        // Ratios near j / 32, where the row changes, on both sides of |y| = |x|. A short x makes some of them exact.
        let short = random.below(1 << 20) as f64 + 1.0;
        let long = random.within(1024.0).abs();
        let j = random.below(33) as f64 / 32.0;
        for size in [short, long] {
            let (larger, smaller) = (signed(random, size), around(random, size * j));
            all.extend([(smaller, larger), (larger, smaller)]);
            let smaller = beside(random, size * j);
            all.extend([(smaller, larger), (larger, smaller)]);
        }

        // Quotients around 2^-26, and around 2^-27, where nothing may change.
        for size in [short, long] {
            let part = size / two_to(26 + random.below(2) as u32);
            let part = beside(random, part);
            let (part, whole) = (signed(random, part), signed(random, size));
            all.extend([(part, whole), (whole, part)]);
        }

        // Quotients that underflow or overflow, and those that are subnormal.
        let (low, top) = (random.below(40), 2046 - random.below(40));
        let (small, large) = (with_exponent(random, low), with_exponent(random, top));
        all.extend([(small, large), (large, small)]);
        let field = random.below(900);
        let apart = field + 1010 + random.below(70);
        let (y, x) = (with_exponent(random, field), with_exponent(random, apart));
        all.extend([(y, x), (x, y)]);
    }
    all
}

fn cosines(random: &mut Random) -> Vec<f64> {
    let mut all = special();
    for field in 0..2048 {
        all.extend((0..100).map(|_| with_exponent(random, field)));
    }
    for _ in 0..EACH {
        all.push(random.within(1.0));
        all.push(random.within(1.0));
        all.push(random.within(1.5));
        all.push(pattern(random));
        all.push(subnormal(random));
        let field = 1023 - random.below(60);
        all.push(with_exponent(random, field));

        all.push(around(random, 1.0));
        let near_one = about(random, 1.0);
        all.push(signed(random, near_one));
        all.push(about(random, 0.0));

        // Where the ratio of root and cosine, or its inverse, is near j / 32.
        let j = random.below(33) as f64 / 32.0;
        let larger = 1.0 / (1.0 + j * j).sqrt();
        all.push(around(random, larger));
        all.push(around(random, larger * j));
    }
    all
}

fn main() {
    let mut random = Random(seed());

    let (mut of_sin, mut of_cos, mut of_both) = (Tally::new("sin"), Tally::new("cos"), Tally::new("sin_cos"));
    for x in angles(&mut random) {
        let (s, c) = (sin(x), cos(x));
        of_sin.check([x], [s], [arcs::sin(x)]);
        of_cos.check([x], [c], [arcs::cos(x)]);
        of_both.check([x], [s, c], arcs::sin_cos(x).into());
    }
    let mut of_atan2 = Tally::new("atan2");
    for (y, x) in points(&mut random) {
        of_atan2.check([y, x], [atan2(y, x)], [arcs::atan2(y, x)]);
    }
    let mut of_acos = Tally::new("acos");
    for c in cosines(&mut random) {
        of_acos.check([c], [acos(c)], [arcs::acos(c)]);
    }

    let equal = [of_sin, of_cos, of_both, of_atan2, of_acos].map(|tally| tally.close());
    if equal.contains(&false) {
        std::process::exit(1);
    }
}
