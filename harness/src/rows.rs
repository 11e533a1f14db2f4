//! Random valid rows of every kind, alone and in sections, against the crate.

use crate::drive::Driver;
use crate::input::{family_of, Input};
use crate::random::{valid_row, Random, KINDS};
use crate::report::{Difference, Table};
use crate::tbaunarith::{CANONICALS, CORE_INSTANCES, IMPORTS, INSTANCES, TYPES};

/// How many rows of each kind are compared alone, and how many at least in sections.
const ROWS_OF_EACH: u64 = 20_000;

/// The most rows of a section.
const ROWS_OF_A_SECTION: usize = 50;

const FAMILIES: [(u64, &str); 5] = [
    (TYPES, "types"),
    (IMPORTS, "imports"),
    (CANONICALS, "canonicals"),
    (CORE_INSTANCES, "core instances"),
    (INSTANCES, "instances"),
];

/// Everything about random rows.
pub fn compare(table: &mut Table) -> Result<(), Difference> {
    for (family, name) in FAMILIES {
        let kinds: Vec<u32> = KINDS.iter().copied().filter(|kind| family_of(*kind) == family).collect();
        alone(&kinds, name, table)?;
        together(&kinds, name, table)?;
    }
    Ok(())
}

/// Each row in a section of its own.
fn alone(kinds: &[u32], name: &str, table: &mut Table) -> Result<(), Difference> {
    let mut driver = Driver::default();
    for kind in kinds {
        let mut random = Random::new(u64::from(*kind));
        for _ in 0..ROWS_OF_EACH {
            let mut pool = Vec::new();
            let row = valid_row(&mut random, *kind, &mut pool);
            driver.compare_valid(&Input::alone(row, pool))?;
        }
    }
    driver.add_to(table, &format!("{name}: random rows alone, {ROWS_OF_EACH} of each kind ({})", kinds.len()));
    Ok(())
}

/// Sections of 1 to 50 rows of mixed kinds, until each kind was there often enough.
fn together(kinds: &[u32], name: &str, table: &mut Table) -> Result<(), Difference> {
    let (mut driver, mut random) = (Driver::default(), Random::new(kinds.len() as u64));
    let mut seen = vec![0; kinds.len()];
    while seen.iter().any(|rows| *rows < ROWS_OF_EACH) {
        let mut input = Input { family: family_of(kinds[0]), ..Input::default() };
        for _ in 0..=random.below(ROWS_OF_A_SECTION) {
            let which = random.below(kinds.len());
            input.rows.push(valid_row(&mut random, kinds[which], &mut input.pool));
            seen[which] += 1;
        }
        driver.compare_valid(&input)?;
    }
    let rows: u64 = seen.iter().sum();
    driver.add_to(table, &format!("{name}: sections of up to {ROWS_OF_A_SECTION} random rows, {rows} rows"));
    Ok(())
}
