//! Writes arguments and the proved answers, one case a line, for bench/accuracy.py to read: `s x sin cos`, `t y x atan2`, `c x acos`, all as hex
//! digits of the bits. `bench/run trig_values [SEED]`
use bench::{seed, Random};
use std::io::{BufWriter, Write};

const COUNT: u64 = 1_000_000;

fn main() -> std::io::Result<()> {
    let mut random = Random(seed());
    let mut out = BufWriter::new(std::io::stdout().lock());
    for i in 0..COUNT {
        let x = match i % 5 {
            0 => random.within(3.2),
            1 => random.within(6.3),
            2 => random.within(1024.0),
            3 => {
                let size = 2f64.powi(random.below(64) as i32 - 40);
                random.within(size)
            }
            _ => f64::from_bits(random.bits()),
        };
        let (s, c) = arcs::sin_cos(x);
        writeln!(out, "s {:016x} {:016x} {:016x}", x.to_bits(), s.to_bits(), c.to_bits())?;
    }
    for i in 0..COUNT {
        let (y, x) = match i % 4 {
            0 => (f64::from_bits(random.bits()), f64::from_bits(random.bits())),
            1 => (random.within(10.0), random.within(10.0)),
            2 => (random.within(1e-6), random.within(1.0)),
            _ => (random.within(1.0), random.within(1e-6)),
        };
        writeln!(out, "t {:016x} {:016x} {:016x}", y.to_bits(), x.to_bits(), arcs::atan2(y, x).to_bits())?;
    }
    for i in 0..COUNT {
        let c = match i % 8 {
            0 => 1.0 - random.within(1e-9).abs(),
            1 => random.within(1e-6),
            _ => random.within(1.0),
        };
        writeln!(out, "c {:016x} {:016x}", c.to_bits(), arcs::acos(c).to_bits())?;
    }
    out.flush()
}
