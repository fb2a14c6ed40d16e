//! What the comparisons share: the original's text, the calls and their inputs, a generator with a seed, and a stopwatch.
pub mod calls;
pub mod cases;
pub mod directed;
pub mod earlier;
pub mod search;
pub mod table;
pub mod trig_page;

use std::time::Instant;

pub const NAN: u64 = 0x7ff8_0000_0000_0000;

/// The original's text, and the same with its calls of angles and of `min`, `max` and `clamp` sent to `Routed` (build.rs).
pub mod original {
    include!(concat!(env!("OUT_DIR"), "/original.rs"));
}

pub mod oracle {
    include!(concat!(env!("OUT_DIR"), "/oracle.rs"));
}

/// The original's text with its roots alone sent to the proved one: what the root costs there.
pub mod rooted {
    include!(concat!(env!("OUT_DIR"), "/rooted.rs"));
}

pub trait Rooted {
    fn routed_sqrt(self) -> f64;
}

impl Rooted for f64 {
    fn routed_sqrt(self) -> f64 {
        arcs::sqrt(self)
    }
}

/// Where the oracle's calls go.
pub trait Routed {
    fn routed_sin(self) -> f64;
    fn routed_cos(self) -> f64;
    fn routed_sin_cos(self) -> (f64, f64);
    fn routed_atan2(self, x: f64) -> f64;
    fn routed_acos(self) -> f64;
    fn routed_min(self, other: f64) -> f64;
    fn routed_max(self, other: f64) -> f64;
    fn routed_clamp(self, low: f64, high: f64) -> f64;
}

impl Routed for f64 {
    fn routed_sin(self) -> f64 {
        arcs::sin(self)
    }
    fn routed_cos(self) -> f64 {
        arcs::cos(self)
    }
    fn routed_sin_cos(self) -> (f64, f64) {
        arcs::sin_cos(self)
    }
    fn routed_atan2(self, x: f64) -> f64 {
        arcs::atan2(self, x)
    }
    fn routed_acos(self) -> f64 {
        arcs::acos(self)
    }
    /// 01: "of two zeros minimum and maximum give the second".
    fn routed_min(self, other: f64) -> f64 {
        if self == 0.0 && other == 0.0 { other } else { self.min(other) }
    }
    fn routed_max(self, other: f64) -> f64 {
        if self == 0.0 && other == 0.0 { other } else { self.max(other) }
    }
    /// 01: "clamp with a NaN value, low end above high or a NaN end, the answer is the NaN". Else the value, or the end that it
    /// lies beyond; -0.0 lies beyond neither end.
    fn routed_clamp(self, low: f64, high: f64) -> f64 {
        if low <= high {
            if self < low {
                low
            } else if self > high {
                high
            } else {
                self
            }
        } else {
            f64::from_bits(NAN)
        }
    }
}

/// SplitMix64.
pub struct Random(pub u64);

impl Random {
    pub fn bits(&mut self) -> u64 {
        self.0 = self.0.wrapping_add(0x9e37_79b9_7f4a_7c15);
        let mut z = self.0;
        z = (z ^ (z >> 30)).wrapping_mul(0xbf58_476d_1ce4_e5b9);
        z = (z ^ (z >> 27)).wrapping_mul(0x94d0_49bb_1331_11eb);
        z ^ (z >> 31)
    }

    pub fn below(&mut self, n: u64) -> u64 {
        self.bits() % n
    }

    /// From -size to size.
    pub fn within(&mut self, size: f64) -> f64 {
        ((self.bits() >> 11) as f64 / (1u64 << 52) as f64 - 1.0) * size
    }
}

/// Zeros, infinities, NaNs and the edges of the formats and of the rule, of both signs.
pub fn special() -> Vec<f64> {
    let sizes = [
        0x0000_0000_0000_0000, // 0
        0x0000_0000_0000_0001, // the smallest number
        0x000f_ffff_ffff_ffff, // the largest subnormal
        0x0010_0000_0000_0000, // the smallest normal
        0x3e3f_ffff_ffff_ffff, // below 2^-27
        0x3e40_0000_0000_0000, // 2^-27
        0x3e4f_ffff_ffff_ffff, // below 2^-26
        0x3e50_0000_0000_0000, // 2^-26
        0x3fe0_0000_0000_0000, // 1/2
        0x3fe9_21fb_5444_2d18, // a quarter of PI
        0x3fef_ffff_ffff_ffff, // below 1
        0x3ff0_0000_0000_0000, // 1
        0x3ff0_0000_0000_0001, // above 1
        0x3ff9_21fb_5444_2d18, // FRAC_PI_2
        0x4000_0000_0000_0000, // 2
        0x4002_d97c_7f33_21d2, // three quarters of PI
        0x4009_21fb_5444_2d18, // PI
        0x4012_d97c_7f33_21d2, // three quarters of TAU
        0x4019_21fb_5444_2d17, // below TAU
        0x4019_21fb_5444_2d18, // TAU
        0x4019_21fb_5444_2d19, // above TAU
        0x4059_0000_0000_0000, // 100
        0x40bf_ffff_ffff_ffff, // below 8192
        0x40c0_0000_0000_0000, // 8192
        0x40c8_1cd6_e631_f8a1, // 12345.6789
        0x7fe0_0000_0000_0000, // 2^1023
        0x7fef_ffff_ffff_ffff, // the largest number
        0x7ff0_0000_0000_0000, // infinity
        0x7ff0_0000_0000_0001, // a signalling NaN
        0x7ff8_0000_0000_0000, // the NaN
        0x7fff_ffff_ffff_ffff, // the last NaN
    ];
    sizes.iter().flat_map(|&size| [f64::from_bits(size), f64::from_bits(size | 1 << 63)]).collect()
}

/// The seed that a command's first argument gives, or 1.
pub fn seed() -> u64 {
    std::env::args().nth(1).and_then(|a| a.parse().ok()).unwrap_or(1)
}

/// The bits of an answer, with one pattern for every NaN.
pub fn bits(x: f64) -> u64 {
    if x.is_nan() { NAN } else { x.to_bits() }
}

/// How two ways of doing the same compare: nanoseconds a call, each piece of the arguments counted by its fastest round, and
/// the middle of the ratios of the first to the second, piece by piece and round by round.
pub struct Compared {
    pub own: f64,
    pub theirs: f64,
    pub middle: f64,
}

/// Short beside the time for which a busy machine takes the processor away.
const PIECE: usize = 1024;

fn each<A: Copy>(arguments: &[A], f: &impl Fn(A) -> f64) -> f64 {
    let mut sum = 0.0;
    let from = Instant::now();
    for &x in arguments {
        sum += f(x);
    }
    let nanos = from.elapsed().as_nanos() as f64 / arguments.len() as f64;
    std::hint::black_box(sum);
    nanos
}

/// Times both over their arguments, of which there are as many, turn and turn about, so that a busy machine slows both.
pub fn compare<A: Copy, B: Copy>(rounds: usize, ours: &[A], own: impl Fn(A) -> f64, others: &[B], theirs: impl Fn(B) -> f64) -> Compared {
    let pieces = ours.len().div_ceil(PIECE);
    let mut fastest = vec![(f64::INFINITY, f64::INFINITY); pieces];
    let mut ratios = Vec::with_capacity(rounds * pieces);
    for _ in 0..rounds {
        for (least, (a, b)) in fastest.iter_mut().zip(ours.chunks(PIECE).zip(others.chunks(PIECE))) {
            let (t, u) = (each(a, &own), each(b, &theirs));
            *least = (least.0.min(t), least.1.min(u));
            ratios.push(t / u);
        }
    }
    ratios.sort_by(f64::total_cmp);
    let mean = |times: &dyn Fn(&(f64, f64)) -> f64| fastest.iter().map(times).sum::<f64>() / pieces as f64;
    Compared {
        own: mean(&|t| t.0),
        theirs: mean(&|t| t.1),
        middle: ratios[ratios.len() / 2],
    }
}

/// How many calls wait for each other in a row.
const CHAIN: usize = 64;

/// The same where each call waits for the one before it, as in code that goes on from the answer.
pub fn compare_waiting(rounds: usize, arguments: &[f64], own: impl Fn(f64) -> f64, theirs: impl Fn(f64) -> f64) -> Compared {
    let chains: Vec<[f64; CHAIN]> = arguments.chunks_exact(CHAIN).map(|xs| xs.try_into().unwrap()).collect();
    // What is added is too small to change a bit.
    fn chained(f: impl Fn(f64) -> f64) -> impl Fn([f64; CHAIN]) -> f64 {
        move |xs| xs.iter().fold(0.0, |last, x| f(x + last * 1e-300))
    }
    let c = compare(rounds, &chains, chained(own), &chains, chained(theirs));
    Compared { own: c.own / CHAIN as f64, theirs: c.theirs / CHAIN as f64, middle: c.middle }
}
