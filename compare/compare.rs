//! Compares the library with the Rust on the same input: compare COUNT SEED. See run.

mod candidate;
mod cases;
mod draw;
mod ours;
mod refused;
mod report;
mod rust;
mod tables;
mod worked;

use std::io::{stderr, IsTerminal};
use std::process::ExitCode;

/// A number of the command line.
fn number(at: usize) -> u64 {
    std::env::args().nth(at).and_then(|text| text.parse().ok()).expect("compare COUNT SEED")
}

/// Tells how far the cases are: each hundredth in place on a terminal, else a line for each tenth.
fn progress(done: u64, count: u64) {
    let percent = |n: u64| u128::from(n) * 100 / u128::from(count);
    let (before, now) = (percent(done - 1), percent(done));
    if now > before && stderr().is_terminal() {
        eprint!("\r{now}%{}", if now == 100 { "\n" } else { "" });
    } else if now / 10 > before / 10 {
        eprintln!("{}%", now / 10 * 10);
    }
}

/// The blocks worked by hand, the tables, and then the cases.
fn main() -> ExitCode {
    let (count, seed) = (number(1), number(2));
    println!("seed {seed}");
    let mut report = report::Report::default();
    worked::all(&mut report);
    tables::all(&mut report);
    let mut draw = draw::Draw(seed);
    for n in 0..count {
        cases::case(n, &mut draw, &mut report);
        progress(n + 1, count);
    }
    report.end()
}
