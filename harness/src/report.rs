//! What the comparisons tell: lines of the table, and the first difference.

use std::fmt::{self, Display};
use std::time::Instant;

/// Two answers that should be one, and an input that shows it.
#[derive(Clone, Debug)]
pub struct Difference {
    pub what: String,
    pub input: String,
    pub library: String,
    pub other: String,
}

impl Display for Difference {
    fn fmt(&self, to: &mut fmt::Formatter) -> fmt::Result {
        writeln!(to, "difference: {}", self.what)?;
        let parts = [("input", &self.input), ("library", &self.library), ("other", &self.other)];
        parts.iter().filter(|(_, text)| !text.is_empty()).try_for_each(|(title, text)| writeln!(to, "  {title:8} {text}"))
    }
}

/// A difference that is told in words of its own.
impl From<String> for Difference {
    fn from(what: String) -> Difference {
        Difference { what, input: String::new(), library: String::new(), other: String::new() }
    }
}

/// The table of what was compared. A line is printed as soon as its comparison is done without a difference.
pub struct Table {
    begun: Instant,
}

impl Table {
    /// Prints the head of the table.
    pub fn begin() -> Table {
        println!("{:<62} {:<12} {:>12} {:>11}", "compared", "with", "times", "differences");
        Table { begun: Instant::now() }
    }

    /// A comparison that was made this often, each time without a difference.
    pub fn add(&mut self, what: &str, with: &str, times: u64) {
        println!("{what:<62} {with:<12} {times:>12} {:>11}", 0);
    }

    /// Prints the foot of the table.
    pub fn end(self) {
        println!("no difference, {:.0} s", self.begun.elapsed().as_secs_f64());
    }
}

/// How much of a long row or byte string is shown.
const SHOWN: usize = 60;

/// Bytes in hexadecimal, the front of them.
pub fn hex(bytes: &[u8]) -> String {
    shown(bytes, |byte| format!("{byte:02x}"))
}

/// A row's words, the front of them.
pub fn words(row: &[u32]) -> String {
    shown(row, u32::to_string)
}

/// Where two byte strings that are not the same first differ, as the end of a sentence.
pub fn first_unlike(one: &[u8], other: &[u8]) -> String {
    let place = one.iter().zip(other).position(|(a, b)| a != b).unwrap_or(one.len().min(other.len()));
    format!(", first unlike at byte {place}")
}

fn shown<T>(all: &[T], one: impl Fn(&T) -> String) -> String {
    let front: Vec<String> = all.iter().take(SHOWN).map(one).collect();
    match all.len() {
        0 => "nothing".into(),
        n if n > SHOWN => format!("{} ... ({n} in all)", front.join(" ")),
        _ => front.join(" "),
    }
}
