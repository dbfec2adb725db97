//! The table, as Markdown.

use crate::rows::Row;
use std::fs;
use std::path::{Path, PathBuf};

pub struct Line<'a> {
    pub row: &'a Row<'a>,
    /// Nanoseconds of a call in each repetition: the Rust, the archive, SQLite.
    pub times: [Vec<f64>; 3],
    /// Instructions of a call, likewise.
    pub counts: [Option<f64>; 3],
}

/// The files that valgrind wrote, in the order of the calls.
pub struct Counts {
    folder: PathBuf,
    calls: usize,
    next: usize,
}

impl Counts {
    pub fn new(folder: &Path, calls: usize) -> Counts {
        Counts { folder: folder.into(), calls, next: 1 }
    }

    pub fn row(&mut self, sqlite: bool) -> [Option<f64>; 3] {
        let rust = self.one();
        let here = self.one();
        [rust, here, if sqlite { self.one() } else { None }]
    }

    /// None where valgrind is not there.
    fn one(&mut self) -> Option<f64> {
        let file = self.folder.join(format!("calls.{}", self.next));
        self.next += 1;
        let text = fs::read_to_string(file).ok()?;
        let total = text.lines().find_map(|line| line.strip_prefix("totals: "))?;
        Some(total.trim().parse::<f64>().ok()? / self.calls as f64)
    }
}

pub fn print(lines: &[Line]) {
    println!("| | call | Rust ns | here ns | here/Rust | lowest to highest | Rust instructions | here | here/Rust | SQLite ns | SQLite/Rust |");
    println!("|---|---|---|---|---|---|---|---|---|---|---|");
    for Line { row, times: [rust, here, sqlite], counts } in lines {
        let ratios: Vec<f64> = here.iter().zip(rust).map(|(here, rust)| here / rust).collect();
        let (low, high) = ends(&ratios);
        let counted = match counts {
            [Some(rust), Some(here), _] => {
                format!("{rust:.0} | {here:.0} | {:.2}", here / rust)
            }
            _ => "– | – | –".into(),
        };
        let beside = match sqlite[..] {
            [] => "– | –".into(),
            _ => {
                let ratios: Vec<f64> = sqlite.iter().zip(rust).map(|(s, rust)| s / rust).collect();
                format!("{:.0} | {:.2}", median(sqlite), median(&ratios))
            }
        };
        println!(
            "| {} | {} | {:.0} | {:.0} | {:.2} | {low:.2} to {high:.2} | {counted} | {beside} |",
            row.number,
            row.what,
            median(rust),
            median(here),
            median(&ratios),
        );
    }
    println!();
    println!("| | the Rust's call | here | SQLite's |");
    println!("|---|---|---|---|");
    for Line { row, times, .. } in lines {
        let sqlite = if times[2].is_empty() { "–" } else { row.sqlite_call };
        println!("| {} | {} | {} | {sqlite} |", row.number, row.rust_call, row.here_call);
    }
    #[cfg(sqlite)]
    println!("\nSQLite is {}.", crate::sqlite::version());
}

pub fn median(numbers: &[f64]) -> f64 {
    let mut sorted = numbers.to_vec();
    sorted.sort_by(f64::total_cmp);
    sorted[sorted.len() / 2]
}

pub fn ends(numbers: &[f64]) -> (f64, f64) {
    let low = numbers.iter().copied().fold(f64::INFINITY, f64::min);
    let high = numbers.iter().copied().fold(f64::NEG_INFINITY, f64::max);
    (low, high)
}
