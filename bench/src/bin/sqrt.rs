//! The square root against the machine's instruction: every bit of the answer.
//! `bench/run sqrt [SEED]`
use bench::{bits, seed, Random, NAN};

struct Check {
    tried: u64,
    wrong: u64,
}

impl Check {
    fn pattern(&mut self, b: u64) {
        let x = f64::from_bits(b);
        // LLVM drops the test for a NaN behind a root and keeps the instruction's own pattern, so the root is hidden from it
        let want = bits(std::hint::black_box(x.sqrt()));
        let got = arcs::sqrt(x).to_bits();
        self.tried += 1;
        if got != want {
            self.wrong += 1;
            if self.wrong <= 10 {
                println!("sqrt {b:016x}: {got:016x}, the machine's {want:016x}");
            }
        }
    }
}

fn main() {
    let mut random = Random(seed());
    let mut check = Check { tried: 0, wrong: 0 };
    let digits = 0x000f_ffff_ffff_ffff;
    // every exponent, with both signs: the ends of its range and 300 patterns in it
    for exponent in 0..2048u64 {
        for sign in 0..2u64 {
            let base = sign << 63 | exponent << 52;
            check.pattern(base);
            check.pattern(base | 1);
            check.pattern(base | digits);
            for _ in 0..300 {
                check.pattern(base | random.bits() & digits);
            }
        }
    }
    // subnormal numbers of every size
    for size in 0..52u64 {
        for _ in 0..4000 {
            check.pattern((random.bits() & digits) >> size);
        }
    }
    // squares and their neighbours, where the rounding turns
    for _ in 0..200_000 {
        let s = f64::from_bits(random.bits() & digits | 0x3ff << 52);
        let b = (s * s).to_bits();
        check.pattern(b - 1);
        check.pattern(b);
        check.pattern(b + 1);
    }
    println!("sqrt: {} patterns, {} differ from the machine's", check.tried, check.wrong);
    assert_eq!(arcs::sqrt(-1.0).to_bits(), NAN);
    if check.wrong > 0 {
        std::process::exit(1);
    }
}
