//! Compares the library with the crate and the model, and prints a table of what was compared.

use harness::report::{Difference, Table};
use harness::{boundaries, components, damage, names, padded, reading, rows, steps, sweep};
use std::process::ExitCode;

/// What is compared, in this order; a part of the comparison is a line here. Each adds its lines to the table.
const PARTS: &[fn(&mut Table) -> Result<(), Difference>] = &[
    rows::compare,
    boundaries::compare,
    sweep::compare,
    steps::compare,
    damage::compare,
    names::compare,
    reading::compare,
    padded::compare,
    components::compare,
];

fn main() -> ExitCode {
    let mut table = Table::begin();
    for part in PARTS {
        if let Err(difference) = part(&mut table) {
            println!("{difference}");
            return ExitCode::FAILURE;
        }
    }
    table.end();
    ExitCode::SUCCESS
}
