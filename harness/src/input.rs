//! Rows of one section beside one pool: what the comparisons are fed, as rows, as a sheet and as text.

use crate::report;
use crate::tbaunarith::{CANONICALS, CORE_INSTANCES, IMPORTS, INSTANCES, TYPES};

/// Rows of one family, whose names all stand in one pool.
#[derive(Clone, Debug, Default)]
pub struct Input {
    pub family: u64,
    pub rows: Vec<Vec<u32>>,
    pub pool: Vec<u8>,
}

/// The family of a kind's section.
pub fn family_of(kind: u32) -> u64 {
    match kind {
        0..=16 => TYPES,
        17 => IMPORTS,
        18 | 20 => CORE_INSTANCES,
        19 | 21 => INSTANCES,
        _ => CANONICALS,
    }
}

/// Where a counted kind's row has its count, and how many words each entry has.
pub fn counted(kind: u32) -> Option<(usize, usize)> {
    match kind {
        1 | 2 => Some((1, 4)),
        6..=8 => Some((1, 2)),
        15 | 19 => Some((2, 4)),
        18 => Some((2, 3)),
        20 => Some((1, 4)),
        21 => Some((1, 13)),
        0x100 => Some((3, 2)),
        0x101 | 0x10f | 0x116 => Some((2, 2)),
        _ => None,
    }
}

impl Input {
    /// One row alone.
    pub fn alone(row: Vec<u32>, pool: Vec<u8>) -> Input {
        Input { family: family_of(row[0]), rows: vec![row], pool }
    }

    /// The rows, each beside the pool.
    pub fn beside_pool(&self) -> Vec<(&[u32], &[u8])> {
        self.rows.iter().map(|row| (row.as_slice(), self.pool.as_slice())).collect()
    }

    /// The sheet with these rows, if a sheet can hold them.
    pub fn sheet(&self) -> Option<Vec<u8>> {
        let words: usize = self.rows.iter().map(|row| 1 + row.len()).sum();
        (5 + self.pool.len() + 4 * words <= 65_536).then(|| frame(&self.pool, &self.rows))
    }

    /// The input as text, for a report.
    pub fn shown(&self) -> String {
        let rows: Vec<String> = self.rows.iter().take(20).map(|row| format!("[{}]", report::words(row))).collect();
        format!("section {}, {} rows: {}; pool: {}", self.family, self.rows.len(), rows.join(" "), report::hex(&self.pool))
    }
}

/// A sheet of a pool and rows, however long.
pub fn frame(pool: &[u8], rows: &[Vec<u32>]) -> Vec<u8> {
    let mut sheet = vec![0x01];
    sheet.extend((pool.len() as u32).to_be_bytes());
    sheet.extend_from_slice(pool);
    for row in rows {
        sheet.extend((row.len() as u32).to_be_bytes());
        sheet.extend(row.iter().flat_map(|word| word.to_be_bytes()));
    }
    sheet
}
