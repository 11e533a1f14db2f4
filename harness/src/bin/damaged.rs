//! Runs damaged sheets, encodings and steps through the library and the model, and prints how often each number came.
//!
//! Arguments, all optional: how many sheets, encodings and sequences of steps (1,000,000 each), and the seed.
//! 0 leaves a run out. Encodings and steps come with all small inputs and with the limits of long buffers, for which
//! about 9 GiB of zeros are asked for and hardly touched. At a difference it prints the smallest input found, and ends
//! with 1.

use harness::damage::{self, Tally};
use harness::random::Random;
use std::process::ExitCode;
use std::time::Instant;

/// Makes one run and prints its tally. False: the library and the model differ.
fn run(title: &str, run: impl FnOnce() -> Result<Tally, String>) -> bool {
    let begin = Instant::now();
    match run() {
        Ok(tally) => {
            println!("{title}, {:.1} s:\n{tally}", begin.elapsed().as_secs_f64());
            true
        }
        Err(told) => {
            println!("{title}: the library and the model differ\n{told}");
            false
        }
    }
}

/// The argument at a place, or what it is without one. None: it is no number.
fn argument(place: usize, otherwise: u64) -> Option<u64> {
    match std::env::args().nth(place) {
        Some(text) => text.replace(['_', ','], "").parse().ok(),
        None => Some(otherwise),
    }
}

/// Makes the runs that the arguments ask for.
fn main() -> ExitCode {
    let arguments = (argument(1, 1_000_000), argument(2, 1_000_000), argument(3, 1_000_000), argument(4, 1));
    let (Some(sheets), Some(encodings), Some(steps), Some(seed)) = arguments else {
        eprintln!("damaged [sheets [encodings [steps [seed]]]]");
        return ExitCode::from(2);
    };
    println!("seed {seed}");
    let mut same = true;
    if sheets > 0 {
        same &= run("sheets", || damage::sheets(&mut Random::new(seed), sheets));
    }
    if encodings > 0 {
        same &= run("encodings", || damage::readings(&mut Random::new(seed), encodings));
        same &= run("short inputs", damage::short_inputs);
        same &= run("long inputs", damage::long_inputs);
    }
    if steps > 0 {
        same &= run("steps", || damage::steps(&mut Random::new(seed), steps));
        same &= run("small states", damage::small_states);
        same &= run("small heads", damage::small_heads);
        same &= run("small rows", damage::small_rows);
        same &= run("largest rows", damage::largest_rows);
        same &= run("wide sections", damage::wide_sections);
    }
    if same {
        ExitCode::SUCCESS
    } else {
        ExitCode::FAILURE
    }
}
