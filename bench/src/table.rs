//! The table of docs/SPEED.md: how long each routine and call takes beside what it stands for, and which are above their bar.
use crate::Compared;

/// Rows as they are printed, and those above their bar.
#[derive(Default)]
pub struct Table {
    above: Vec<String>,
}

impl Table {
    pub fn new() -> Table {
        println!("| call | proved | against | fastest | middle | bar |");
        println!("|---|---|---|---|---|---|");
        Table::default()
    }

    /// Prints a row. The bar is held against the ratio of the fastest times as it is, not as it is printed.
    pub fn row(&mut self, words: &str, bar: Option<f64>, c: Compared) {
        let fastest = c.own / c.theirs;
        let said = bar.map_or(String::new(), |bar| bar.to_string());
        println!("| {words} | {:.1} ns | {:.1} ns | {fastest:.2} | {:.2} | {said} |", c.own, c.theirs, c.middle);
        if let Some(bar) = bar.filter(|&bar| fastest > bar) {
            self.above.push(format!("{words}: {fastest:.3}, bar {bar}"));
        }
    }

    /// Names the rows above their bar, and ends with 1 where there is one.
    pub fn end(self) {
        if self.above.is_empty() {
            println!("\nNone is above its bar.");
            return;
        }
        println!("\nAbove their bar:");
        for row in &self.above {
            println!("- {row}");
        }
        std::process::exit(1);
    }
}
