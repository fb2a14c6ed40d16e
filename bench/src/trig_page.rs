//! A second writing of docs/TRIG.md, made from the page alone: sine, cosine, arctangent and arccosine on whole numbers.
use std::sync::LazyLock;

// The tables.

/// Tables are worked out at 2^100, which is 30 digits. The page asks for 25.
const ONE: i128 = 1 << 100;

static SINES: LazyLock<Vec<[u64; 2]>> = LazyLock::new(sine_table);
static ARCTANS: LazyLock<Vec<[u64; 10]>> = LazyLock::new(arctan_table);

/// The whole number nearest to x at 2^k, where x comes at 2^100.
fn nearest(x: i128, k: u32) -> i128 {
    let cut = 100 - k;
    let half = 1 << (cut - 1);
    // The page says that none comes near a half. Only then do the digits settle the number.
    let rest = x & ((1 << cut) - 1);
    assert!((rest - half).abs() * 10_000 > 9 << cut, "a number of a table lies too near a half");
    (x + half) >> cut
}

/// S and C of the nodes j / 16, by Taylor's series at 0.
fn sine_table() -> Vec<[u64; 2]> {
    let row = |j: i128| {
        let mut one_more = [ONE; 2];
        let mut power = ONE;
        // Past 70 terms nothing is left at 2^100, even for the last node.
        for k in 0..70 {
            // The signs go + + - -, the even powers are the cosine's.
            let of = if k % 2 == 0 { 1 } else { 0 };
            one_more[of] += if k % 4 < 2 { power } else { -power };
            power = power * j / (16 * (k + 1));
        }
        one_more.map(|x| nearest(x, 61) as u64)
    };
    (0..102).map(row).collect()
}

/// a0 .. a9 of the rows j / 32.
fn arctan_table() -> Vec<[u64; 10]> {
    let row = |j: i128| {
        // 1 + (j / 32)^2 is this over 1024.
        let d = 1024 + j * j;
        let mut c = [0; 10];
        // Taylor's series at 0 is too slow at 1. Each of Euler's terms is at most half of the one before.
        let mut term = ONE * 32 * j / d;
        for n in 1..=110 {
            c[0] += term;
            term = term * (2 * n * j * j) / ((2 * n + 1) * d);
        }
        // The slope is 1 / (1 + (j/32 + h)^2). Multiplied out, its coefficients s obey d s_k + 64 j s_(k-1) + 1024 s_(k-2) = 0.
        let (mut before, mut slope) = (0, ONE * 1024 / d);
        for k in 1..10 {
            c[k] = slope / k as i128;
            (before, slope) = (slope, -(64 * j * slope + 1024 * before) / d);
        }
        let mut a = c.map(|x| 256 * nearest(x, 53));
        for k in 2..10 {
            a[k] += 1 << 62;
        }
        a.map(|x| x as u64)
    };
    (0..=32).map(row).collect()
}

// The rule.

const NAN: f64 = f64::from_bits(0x7ff8_0000_0000_0000);
pub const TAU: f64 = f64::from_bits(0x4019_21fb_5444_2d18);
const PI: f64 = f64::from_bits(0x4009_21fb_5444_2d18);
const FRAC_PI_2: f64 = f64::from_bits(0x3ff9_21fb_5444_2d18);
const QUARTER_OF_PI: f64 = f64::from_bits(0x3fe9_21fb_5444_2d18);
const THREE_QUARTERS_OF_PI: f64 = f64::from_bits(0x4002_d97c_7f33_21d2);

/// 2^k as an f64, k from 0 to 63.
pub const fn two_to(k: u32) -> f64 {
    (1u64 << k) as f64
}

/// x * y / 2^62 without the product of the lower halves.
fn high(x: u64, y: u64) -> u64 {
    let (a, b) = (x >> 31, x % (1 << 31));
    let (c, d) = (y >> 31, y % (1 << 31));
    a * c + ((a * d) >> 31) + ((b * c) >> 31)
}

fn bend(k: u64, c: u64, s: u64, w: u64) -> u64 {
    (w * (k - w * c / s)) >> 32
}

/// r and n of a finite x.
fn angle(x: f64) -> (f64, u64) {
    let r = x % TAU;
    (r, (r.abs() * two_to(61)) as u64)
}

/// What both answers need of n: the node, the side, and the short series of the rest.
struct Near {
    j: usize,
    under: bool,
    sine: u64,
    versine: u64,
}

fn near(n: u64) -> Near {
    let j = (n + (1 << 56)) >> 57;
    let under = n < j << 57;
    let g = n.abs_diff(j << 57) * 32;
    let z = high(g, g);
    let w = z >> 28;
    let lack = z / 6 - ((w * bend(2290649225, 3490513021, 1 << 48, w)) >> 20);
    let sine = g - (high(g, lack) >> 8);
    let versine = z / 2 - ((w * bend(2863311531, 3054159019, 1 << 47, w)) >> 18);
    Near { j: j as usize, under, sine, versine }
}

fn turned(b: u64, c: u64, down: bool, Near { sine, versine, .. }: &Near) -> u64 {
    let t = (1 << 62) + b - (high(b, *versine) >> 8) + (versine >> 9);
    if down {
        t + (sine >> 5) - (high(c, *sine) >> 4)
    } else {
        t + (high(c, *sine) >> 4) - (sine >> 5)
    }
}

/// t of the sine's size and t of the cosine of a finite x.
pub fn unrounded(x: f64) -> [u64; 2] {
    let at = near(angle(x).1);
    let [s, c] = SINES[at.j];
    [turned(s, c, at.under, &at), turned(c, s, !at.under, &at)]
}

/// y, from t.
fn answer(t: u64) -> f64 {
    let zero = 3 << 53;
    let k = ((t + 128) >> 8).clamp(1 << 54, 1 << 55);
    let size = k.abs_diff(zero) as f64 / two_to(53);
    if k < zero { -size } else { size }
}

pub fn sin(x: f64) -> f64 {
    if !x.is_finite() {
        return NAN;
    }
    let (r, n) = angle(x);
    if n < 1 << 35 {
        return r;
    }
    let y = answer(unrounded(x)[0]);
    if x < 0.0 { -y } else { y }
}

pub fn cos(x: f64) -> f64 {
    if !x.is_finite() {
        return NAN;
    }
    if angle(x).1 < 1 << 34 {
        return 1.0;
    }
    answer(unrounded(x)[1])
}

pub fn atan2(y: f64, x: f64) -> f64 {
    if y.is_nan() || x.is_nan() {
        return NAN;
    }
    if let Some(size) = annex_f(y, x) {
        return size.copysign(y);
    }
    if x > 0.0 && (y / x).abs() < 1.0 / two_to(26) {
        return y / x;
    }
    (angle_units(y, x) as f64 / two_to(61)).copysign(y)
}

/// n of the steps 3 to 7, of two numbers that are neither zeros nor infinities.
pub fn angle_units(y: f64, x: f64) -> u64 {
    let steep = x.abs() < y.abs();
    let u = if steep { x.abs() / y.abs() } else { y.abs() / x.abs() };
    let whole = (u * two_to(62)) as u64;
    let (j, h) = (whole >> 57, whole % (1 << 57));
    let a = &ARCTANS[j as usize];
    let mut q = a[9];
    for k in [8, 7, 6, 5, 4] {
        q = a[k] + (((q >> 31) * (h >> 26)) >> 5) - h;
    }
    for k in [3, 2, 1] {
        q = a[k] + high(q, h) - h;
    }
    let mut n = a[0] + high(q, h);
    if steep {
        n = 3622009729038561280 - n;
    }
    if x < 0.0 {
        n = 7244019458077122560 - n;
    }
    n
}

/// The answer's size where y or x is a zero or an infinity. Neither is a NaN.
fn annex_f(y: f64, x: f64) -> Option<f64> {
    if y.is_infinite() {
        return Some(match x {
            f64::INFINITY => QUARTER_OF_PI,
            f64::NEG_INFINITY => THREE_QUARTERS_OF_PI,
            _ => FRAC_PI_2,
        });
    }
    if y == 0.0 || x.is_infinite() {
        return Some(if x.is_sign_negative() { PI } else { 0.0 });
    }
    if x == 0.0 {
        return Some(FRAC_PI_2);
    }
    None
}

pub fn acos(c: f64) -> f64 {
    if c.is_nan() || c < -1.0 || c > 1.0 {
        return NAN;
    }
    atan2(((1.0 - c) * (1.0 + c)).sqrt(), c)
}
