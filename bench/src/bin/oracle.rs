//! Every public call against the oracle: the original's text, with its sine, cosine, arctangent and arccosine sent to the
//! proved routines. `bench/run oracle [SEED [COUNT [NAME]]]`
//!
//! COUNT inputs a call, a fiftieth of it where a pair is searched. All that a call gives back is compared, bit for bit: the
//! refusal, the numbers, the counts, and every number of the lent room. A NaN must have the bits 7ff8000000000000. Ends with 1
//! where anything differs. NAME, or how a name begins, chooses among the calls. The column NaN counts the answers that hold one:
//! docs/DIFFERENCES.md lists the one call that may.
use bench::calls::{Call, CALLS};
use bench::{cases::case, seed, Random, NAN};

const SHOWN: usize = 3;

#[derive(Default)]
struct Tally {
    inputs: u64,
    refused: [u64; 7],
    nans: u64,
    differ: u64,
    shown: Vec<String>,
}

fn hold(call: &Call, inputs: u64, random: &mut Random) -> Tally {
    let mut tally = Tally { inputs, ..Tally::default() };
    for _ in 0..inputs {
        let words = case(call, random);
        let (own, theirs) = ((call.own)(&words), call.told(&words));
        tally.refused[theirs.refusal as usize] += 1;
        tally.nans += own.numbers.contains(&NAN) as u64;
        if own != theirs {
            tally.differ += 1;
            if tally.shown.len() < SHOWN {
                tally.shown.push(format!("{} of {words:016x?}\n  gives {own:x?}\n  oracle {theirs:x?}", call.name));
            }
        }
    }
    tally
}

fn main() {
    let count: u64 = std::env::args().nth(2).and_then(|a| a.parse().ok()).unwrap_or(1_000_000);
    let name = std::env::args().nth(3).unwrap_or_default();
    let mut random = Random(seed());
    println!("{:<28}{:>9}   refused with 1{:>9}{:>9}{:>9}{:>9}{:>9}{:>9}{:>9}", "call", "inputs", 2, 3, 4, 5, 6, "NaN", "differ");
    let mut shown = Vec::new();
    for call in CALLS.iter().filter(|call| call.name.starts_with(&name)) {
        let inputs = if call.arcs.slow() { count / 50 } else { count };
        let tally = hold(call, inputs, &mut random);
        let [_, one, others @ ..] = tally.refused;
        print!("{:<28}{:>9}{one:>17}", call.name, tally.inputs);
        others.iter().for_each(|n| print!("{n:>9}"));
        println!("{:>9}{:>9}", tally.nans, tally.differ);
        shown.extend(tally.shown);
    }
    if !shown.is_empty() {
        shown.iter().for_each(|s| println!("{s}"));
        std::process::exit(1);
    }
}
