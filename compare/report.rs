//! Counts what was compared and shows what differs.

use std::process::ExitCode;

/// Nothing, or a difference with its input in full.
pub type Outcome = Result<(), String>;

/// The most differences that are shown.
const SHOWN: u64 = 10;

/// A kind of case or table: its name, how many were compared and how many differ.
struct Kind {
    name: &'static str,
    compared: u64,
    differ: u64,
}

/// All kinds so far, in the order in which they came.
#[derive(Default)]
pub struct Report(Vec<Kind>);

impl Report {
    /// Counts one of a kind, and shows it where it differs.
    pub fn add(&mut self, name: &'static str, outcome: Outcome) {
        if let Err(difference) = &outcome {
            if self.differ() < SHOWN {
                println!("differs: {name}: {difference}");
            }
        }
        let at = self.0.iter().position(|kind| kind.name == name).unwrap_or_else(|| {
            self.0.push(Kind { name, compared: 0, differ: 0 });
            self.0.len() - 1
        });
        self.0[at].compared += 1;
        self.0[at].differ += u64::from(outcome.is_err());
    }

    /// How many differ.
    fn differ(&self) -> u64 {
        self.0.iter().map(|kind| kind.differ).sum()
    }

    /// Prints a line for each kind and the sum of all.
    pub fn end(self) -> ExitCode {
        for Kind { name, compared, differ } in &self.0 {
            println!("{name}: {compared} compared, {differ} differ");
        }
        let compared: u64 = self.0.iter().map(|kind| kind.compared).sum();
        println!("{compared} compared, {} differ", self.differ());
        ExitCode::from(u8::from(self.differ() > 0))
    }
}

/// Equal, or the difference that the text tells.
pub fn expect(equal: bool, text: impl FnOnce() -> String) -> Outcome {
    if equal { Ok(()) } else { Err(text()) }
}
