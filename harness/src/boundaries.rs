//! Words at the places where their encoding or a limit changes: indices, counts, lengths, names, section sizes.

use crate::drive::{body_size, Driver};
use crate::encode::{framed, PRIMITIVES};
use crate::input::{counted, Input};
use crate::random::KINDS;
use crate::report::{hex, Difference, Table};
use crate::tbaunarith::{Section, TYPES};
use wasm_encoder::ComponentTypeSection;

/// Where one of the two number forms gets a byte longer, where a limit or a list's end lies, and the ends.
#[rustfmt::skip]
const PLACES: [u32; 20] = [
    0, 1, 5, 13, 63, 64, 115, 127, 128, 8191, 8192, 16_383, 16_384, 65_536, 1 << 20, 1 << 21, 1 << 27, 1 << 28, 1 << 31, u32::MAX,
];

/// The most bytes of a pool and the most words of a row.
const POOL_BYTES: usize = 65_536;
const ROW_WORDS: usize = 16_384;

/// The places and their neighbours, rising.
fn values() -> Vec<u32> {
    let mut values: Vec<u32> =
        PLACES.iter().flat_map(|place| [place.saturating_sub(1), *place, place.saturating_add(1)]).collect();
    values.sort();
    values.dedup();
    values
}

/// A pool of text in which no two near places look alike.
fn pool_of(size: usize) -> Vec<u8> {
    (0..size).map(|place| b' ' + (place * place / 7 % 95) as u8).collect()
}

/// Everything about boundaries.
pub fn compare(table: &mut Table) -> Result<(), Difference> {
    each_word(table)?;
    each_count(table)?;
    rows_of_a_section(table)?;
    section_counts(table)?;
    section_sizes(table)
}

/// Each word of a row of each form set to each value, beside a full pool and beside one that a sheet can hold. Where that
/// leaves no valid row both sides must refuse it.
fn each_word(table: &mut Table) -> Result<(), Difference> {
    let mut driver = Driver::default();
    let pools = [pool_of(POOL_BYTES), pool_of(17_000)];
    for base in bases() {
        for place in 1..base.len() {
            for value in values() {
                let mut row = base.clone();
                row[place] = value;
                pools.iter().try_for_each(|pool| driver.compare(&Input::alone(row.clone(), pool.clone())))?;
            }
        }
    }
    driver.add_to(table, "each word of each form at each boundary");
    Ok(())
}

/// A row of each form, with an index wherever there can be one and names from the pool's start on.
fn bases() -> Vec<Vec<u32>> {
    let mut bases: Vec<Vec<u32>> = KINDS.iter().filter(|kind| **kind != 17).map(|kind| row_of(*kind, 1)).collect();
    bases.extend([19, 20, 21].into_iter().flat_map(|kind| (1..8).map(move |entry| one_entry(kind, entry))));
    let references = [[0, 7, 0], [1, 7, 0], [2, 1, 7], [3, 0, 7], [3, 1, 0], [4, 7, 0], [5, 7, 0]];
    for reference in references {
        bases.push([vec![17, 0, 1, 0, 0, 0, 0, 0, 0, 0, 0, 0], reference.to_vec()].concat());
        bases.push([vec![17, 0, 1, 1, 0, 1, 1, 0, 1, 1, 0, 1], reference.to_vec()].concat());
    }
    bases
}

/// An instance's row with one entry: each sort, and each choice of a name's options, is some entry's.
fn one_entry(kind: u32, entry: u32) -> Vec<u32> {
    let mut row = [row_of(kind, 0), entry_of(kind, entry)].concat();
    if let Some((place, _)) = counted(kind) {
        row[place] = 1;
    }
    row
}

/// A row of a kind other than import, with n entries if it is counted; the entries differ from one another.
fn row_of(kind: u32, n: u32) -> Vec<u32> {
    let mut row = vec![kind];
    match kind {
        15 => row.push(1),
        18 | 19 => row.push(7),
        256 => row.extend([7, 8]),
        _ if kind > 256 && counted(kind).is_some() => row.push(7),
        _ => row.extend(plain_words(kind)),
    }
    if counted(kind).is_some() {
        row.push(n);
        (0..n).for_each(|entry| row.extend(entry_of(kind, entry)));
    }
    if kind == 15 {
        row.extend([1, 7]);
    }
    row
}

/// The words of a row without a count, after its kind.
fn plain_words(kind: u32) -> &'static [u32] {
    match kind {
        0 => &[12],
        3 | 9 | 13 | 14 => &[1, 7],
        4 | 10 => &[1, 7, 1, 8],
        5 => &[1, 7, 8],
        11 | 12 => &[7],
        16 => &[1, 1, 7],
        _ => match kind.wrapping_sub(256) {
            0x02..=0x04 | 0x40 | 0x0e | 0x13..=0x15 | 0x1a | 0x1b | 0x2e | 0x2f | 0x20 | 0x21 => &[7],
            0x06 => &[1],
            0x41 | 0x27 => &[7, 8],
            0x11 | 0x12 | 0x18 | 0x19 => &[7, 1],
            0x0a | 0x0b => &[1, 7],
            _ => &[],
        },
    }
}

/// An entry of a counted row.
fn entry_of(kind: u32, entry: u32) -> Vec<u32> {
    match kind {
        6 => vec![1, entry],
        7 | 8 => vec![entry, 1],
        18 => vec![entry, 1, entry],
        19 => vec![entry, 1, entry % 6, entry],
        20 => vec![entry, 1, entry % 5, entry],
        21 => {
            let options = (0..3).flat_map(|option| if entry >> option & 1 == 1 { [1, entry - option, 1] } else { [0, 0, 0] });
            [entry, 1].into_iter().chain(options).chain([entry % 6, entry]).collect()
        }
        256.. => vec![3, entry],
        _ => vec![entry, 1, 1, entry],
    }
}

/// Rows of as many entries as each boundary says, up to the longest row, and one entry more than that.
fn each_count(table: &mut Table) -> Result<(), Difference> {
    let mut driver = Driver::default();
    for kind in KINDS.iter().copied() {
        let Some((_, width)) = counted(kind) else { continue };
        let most = ((ROW_WORDS - row_of(kind, 0).len()) / width) as u32;
        for count in values().into_iter().filter(|count| *count < most).chain([most, most + 1]) {
            driver.compare(&Input::alone(row_of(kind, count), pool_of(count as usize + 1)))?;
        }
    }
    driver.add_to(table, "rows of each count at each boundary, to 16,384 words");
    Ok(())
}

/// A section that gets a row at a time, finished at each boundary of its count that is below 2^21 + 2.
fn rows_of_a_section(table: &mut Table) -> Result<(), Difference> {
    const LAST: u32 = (1 << 21) + 1;
    let (mut section, mut other) = (Section::new(TYPES), ComponentTypeSection::new());
    let mut body = vec![0; LAST as usize];
    let (mut rows, mut finished) = (0, 0);
    for count in values().into_iter().filter(|count| *count <= LAST) {
        while rows < count {
            let p = rows % 14;
            let written = section.row(&[0, p], &[], &mut body);
            written.map_err(|refused| unlike(&format!("row {rows}"), &format!("{refused:?}"), "written"))?;
            other.defined_type().primitive(PRIMITIVES[p as usize]);
            rows += 1;
        }
        same_frame(&mut section, &body, &framed(&other), &format!("{count} primitive rows"))?;
        finished += 1;
    }
    table.add("sections of as many rows as each boundary to 2,097,153 says", "crate", finished);
    Ok(())
}

/// Finished sections of every count at a boundary and no body: the crate counts an entry that nothing is written for.
fn section_counts(table: &mut Table) -> Result<(), Difference> {
    let mut other = ComponentTypeSection::new();
    for count in values() {
        while other.len() < count {
            let _ = other.ty();
        }
        let mut section = Section { state: [TYPES, 0, u64::from(count), 0, 0] };
        same_frame(&mut section, &[], &framed(&other), &format!("count {count}, no body"))?;
    }
    table.add("finished sections of each boundary's count", "crate", values().len() as u64);
    Ok(())
}

/// Finished sections whose size (of count and body) is at a boundary up to 2^28: a flags type of one long name.
fn section_sizes(table: &mut Table) -> Result<(), Difference> {
    let sizes: Vec<u32> = values().into_iter().filter(|size| (5..=(1 << 28) + 1).contains(size)).collect();
    for size in &sizes {
        let name_size = *size as usize - 3;
        let length_bytes = (1..=5).find(|bytes| name_size - bytes < 1 << (7 * bytes)).expect("a size of 32 bits");
        let mut other = ComponentTypeSection::new();
        other.defined_type().flags(["n".repeat(name_size - length_bytes).as_str()]);
        let framed = framed(&other);
        let body = &framed[framed.len() - body_size(&framed)..];
        let mut section = Section { state: [TYPES, body.len() as u64, 1, 0, 0] };
        same_frame(&mut section, body, &framed, &format!("count 1 and a body of {} bytes", body.len()))?;
    }
    table.add("finished sections of each boundary's size to 268,435,457", "crate", sizes.len() as u64);
    Ok(())
}

/// The library's finished section is the crate's.
fn same_frame(section: &mut Section, body: &[u8], other: &[u8], input: &str) -> Result<(), Difference> {
    let mut out = vec![0; other.len()];
    let size = section.finish(body, &mut out).map_err(|refused| unlike(input, &format!("{refused:?}"), &hex(other)))?;
    if out != other || size != other.len() {
        return Err(unlike(input, &hex(&out), &hex(other)));
    }
    Ok(())
}

fn unlike(input: &str, library: &str, other: &str) -> Difference {
    Difference { what: "a finished section".into(), input: input.into(), library: library.into(), other: other.into() }
}
