//! What `arcdesk` is to print, worked out a second time from 01's lines and the oracle: `bench/run desk <FILE` prints it for the
//! lines of FILE. crates/arcdesk/stdout is what it prints for crates/arcdesk/stdin.
use bench::calls::{limits, Call, CALLS};
use std::io::{Read, Write};

/// The longest room that a query needs: 01, "1,024 times 2^depth" at depth 3.
const ROOM: u64 = 8192;

/// A record as the words of a curve: numbers and marks, the mark 8 for a segment.
type Record = [u64; 8];

enum Line {
    Record(Record),
    Query(usize, usize, u64),
    Malformed,
}

fn number(field: &[u8]) -> Option<u64> {
    let digit = |b: &u8| b.is_ascii_digit() || (b'a'..=b'f').contains(b);
    (field.len() == 16 && field.iter().all(digit)).then(|| u64::from_str_radix(std::str::from_utf8(field).unwrap(), 16).unwrap())
}

/// "decimal without leading zeros"; one above 64, however many digits it has, is in no table.
fn record_number(field: &[u8]) -> Option<usize> {
    let good = field.first().is_some_and(|&b| b != b'0') && field.iter().all(u8::is_ascii_digit);
    good.then(|| if field.len() > 2 { 65 } else { std::str::from_utf8(field).unwrap().parse().unwrap() })
}

fn digit(field: &[u8], most: u8) -> Option<u64> {
    (field.len() == 1 && (b'0'..=b'0' + most).contains(&field[0])).then(|| (field[0] - b'0') as u64)
}

fn record(fields: &[&[u8]], marks: u64) -> Option<Line> {
    let mut words = [0; 8];
    for (word, field) in words.iter_mut().zip(fields) {
        *word = number(field)?;
    }
    words[7] = marks;
    Some(Line::Record(words))
}

fn taken(line: &[u8]) -> Option<Line> {
    let fields: Vec<&[u8]> = line.split(|&b| b == b'\t').collect();
    match (fields[0], fields.len()) {
        (b"S", 5) => record(&fields[1..], 8),
        (b"A", 11) => {
            let [ccw, closed, ellipse] = [8, 9, 10].map(|i| digit(fields[i], 1));
            record(&fields[1..8], ccw? | closed? << 1 | ellipse? << 2)
        }
        (b"X", 4) => Some(Line::Query(record_number(fields[1])?, record_number(fields[2])?, digit(fields[3], 9)?)),
        _ => None,
    }
}

fn read(line: &[u8]) -> Line {
    if line.len() > 256 { Line::Malformed } else { taken(line).unwrap_or(Line::Malformed) }
}

/// 1 over all the numbers, then 2.
fn refusal(record: &Record) -> u32 {
    let tested = limits("K", record);
    let size = |i: usize| f64::from_bits(record[i]).abs();
    if tested.iter().any(|&(i, _)| !size(i).is_finite()) {
        1
    } else if tested.iter().any(|&(i, limit)| size(i) > limit) {
        2
    } else {
        0
    }
}

/// "A line is tested for 7, then 9 or 8, then 1, 2, 3."
fn answer(table: &mut Vec<Record>, line: &[u8], number: usize, intersect: &Call) -> Result<String, u32> {
    match read(line) {
        Line::Malformed => Err(7),
        Line::Record(_) if table.len() == 64 => Err(9),
        Line::Record(words) => match refusal(&words) {
            0 => {
                table.push(words);
                Ok(String::new())
            }
            no => Err(no),
        },
        Line::Query(i, j, _) if i.max(j) > table.len() => Err(8),
        Line::Query(i, j, depth) => {
            let words: Vec<u64> = [&table[i - 1][..], &table[j - 1][..], &[depth, ROOM]].concat();
            let told = intersect.told(&words);
            if told.refusal != 0 {
                return Err(told.refusal);
            }
            let (counts, hits) = told.numbers.split_at(6);
            let hit = |(i, h): (usize, &[u64])| format!("H\t{number}\t{}\t{:016x}\t{:016x}\t{:016x}\t{:016x}\n", i + 1, h[0], h[1], h[2], h[3]);
            let end = format!("E\t{number}\t{}\t{}\t{}\n", counts[0], counts[1], counts[5]);
            Ok(hits.chunks(4).enumerate().map(hit).collect::<String>() + &end)
        }
    }
}

fn main() {
    let mut input = Vec::new();
    std::io::stdin().read_to_end(&mut input).unwrap();
    let intersect = CALLS.iter().find(|call| call.number == 18).unwrap();
    let mut table = Vec::new();
    let mut lines: Vec<&[u8]> = input.split(|&b| b == b'\n').collect();
    // "A last line without newline counts", and behind the last newline there is none.
    if lines.last().is_some_and(|line| line.is_empty()) {
        lines.pop();
    }
    let mut out = std::io::stdout().lock();
    for (number, line) in (1..).zip(lines) {
        let text = answer(&mut table, line, number, intersect).unwrap_or_else(|no| format!("R\t{number}\t{no}\n"));
        out.write_all(text.as_bytes()).unwrap();
    }
}
