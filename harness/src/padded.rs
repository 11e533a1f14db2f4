//! Padded numbers (wish 4): items whose counts, lengths and indices have more bytes than they need, read by the library, the
//! model and wasmparser, and written again.

use crate::damage::read_both;
use crate::input::{family_of, Input};
use crate::model;
use crate::random::{valid_row, Random, KINDS};
use crate::reading::{by_library, by_wasmparser, unread};
use crate::report::{hex, words, Difference, Table};
use crate::tbaunarith::{read_import, read_type, Section, IMPORTS, TYPES};
use std::ops::Range;

/// The most bytes of a number.
pub const LONGEST: usize = 5;

/// How many items of a family are compared that wasmparser reads.
const FAMILIES: [(u64, u64); 2] = [(TYPES, 140_000), (IMPORTS, 60_000)];

/// The most items of a section.
const ITEMS_OF_A_SECTION: usize = 50;

/// The most words of a row, and the most bytes of a pool.
const ROW_WORDS: usize = 16_384;
const POOL_BYTES: usize = 65_536;

/// Adds a number's bytes, with zeros behind its digits up to so many bytes. In a V a number's last byte has no sign's bit, and
/// neither has a zero, so the zeros are padding there too.
pub fn add_padded(number: &[u8], size: usize, bytes: &mut Vec<u8>) {
    let Some((last, front)) = number.split_last() else { return };
    bytes.extend(front);
    if size > number.len() {
        bytes.push(last | 0x80);
        bytes.extend(std::iter::repeat_n(0x80, size - number.len() - 1));
        bytes.push(0x00);
    } else {
        bytes.push(*last);
    }
}

/// A right item, each number of which has as many bytes as `size` says for those that it had, if that is more.
pub fn padded(import: bool, item: &[u8], mut size: impl FnMut(usize) -> usize) -> Vec<u8> {
    let (mut bytes, mut place) = (Vec::new(), 0);
    for number in numbers_of(import, item) {
        bytes.extend(&item[place..number.start]);
        add_padded(&item[number.clone()], size(number.len()), &mut bytes);
        place = number.end;
    }
    bytes.extend(&item[place..]);
    bytes
}

/// A right item with each number in five bytes.
pub fn in_five_bytes(import: bool, item: &[u8]) -> Vec<u8> {
    padded(import, item, |_| LONGEST)
}

/// A right item with its numbers padded at random: each by itself, all to five bytes, or one alone.
pub fn at_random(rng: &mut Random, import: bool, item: &[u8]) -> Vec<u8> {
    match rng.below(8) {
        0 => in_five_bytes(import, item),
        1 => {
            let (alone, longer) = (rng.below(numbers_of(import, item).len()), 2 + rng.below(LONGEST - 1));
            let mut place = 0..;
            padded(import, item, |size| if place.next() == Some(alone) { longer } else { size })
        }
        _ => padded(import, item, |size| if rng.one_in(3) { size } else { size + rng.below(LONGEST + 1 - size) }),
    }
}

/// A right item with one number spoilt: carrying on past five bytes, with bits past its 32, or with the sign's bit.
pub fn spoilt(rng: &mut Random, import: bool, item: &[u8]) -> Vec<u8> {
    let numbers = numbers_of(import, item);
    if numbers.is_empty() {
        return item.to_vec();
    }
    let place = rng.pick(&numbers).clone();
    let mut number = item[place.clone()].to_vec();
    let last = number.len() - 1;
    match rng.below(4) {
        0 => {
            number[last] |= 0x80;
            number.resize(LONGEST + rng.below(3), 0x80);
            number.push(0x00);
        }
        1 => {
            number[last] |= 0x80;
            number.resize(LONGEST - 1, 0x80);
            number.push(1 << (4 + rng.below(3)) | rng.below(16) as u8);
        }
        2 => number[last] |= 0x40,
        _ => {
            number[last] |= 0x80;
            number.resize(number.len() + rng.below(LONGEST - last), 0xff);
            number.push(0x7f);
        }
    }
    [&item[..place.start], &number, &item[place.end..]].concat()
}

fn numbers_of(import: bool, item: &[u8]) -> Vec<Range<usize>> {
    model::numbers_of(import, item).expect("a right item")
}

/// How many items were compared.
#[derive(Default)]
struct Counts {
    read: u64,
    written_again: u64,
    by_wasmparser: u64,
}

/// Random items with padded numbers.
pub fn compare(table: &mut Table) -> Result<(), Difference> {
    let mut counts = Counts::default();
    for (family, wanted) in FAMILIES {
        let wanted = counts.by_wasmparser + wanted;
        let mut random = Random::new(40 + family);
        while counts.by_wasmparser < wanted {
            let most = (wanted - counts.by_wasmparser).min(ITEMS_OF_A_SECTION as u64) as usize;
            compare_section(&mut random, family, most, &mut counts)?;
        }
    }
    table.add("types and imports with numbers padded at random: items read", "model", counts.read);
    table.add("  written again: the shortest bytes", "model", counts.written_again);
    table.add("  those of them that wasmparser reads", "wasmparser", counts.by_wasmparser);
    Ok(())
}

/// A section of up to so many random items, its size and its count padded too. Those that wasmparser does not read are
/// compared without it.
fn compare_section(random: &mut Random, family: u64, most: usize, counts: &mut Counts) -> Result<(), Difference> {
    let kinds: Vec<u32> = KINDS.iter().copied().filter(|kind| family_of(*kind) == family).collect();
    let mut items = Vec::new();
    for _ in 0..=random.below(most) {
        let (kind, mut pool) = (*random.pick(&kinds), Vec::new());
        let row = valid_row(random, kind, &mut pool);
        let shortest = model::write_row(family, &row, &pool).map_err(|refused| format!("the model refuses {row:?}: {refused:?}"))?;
        let item = at_random(random, family == IMPORTS, &shortest);
        counts.written_again += u64::from(compare_item(family, &shortest, &item)?);
        counts.read += 1;
        if unread(&row).is_none() && items.len() < most {
            items.push(item);
        }
    }
    counts.by_wasmparser += items.len() as u64;
    if same_in_section(random, family, &items).is_err() {
        items.iter().try_for_each(|item| same_in_section(random, family, std::slice::from_ref(item)))?;
    }
    same_in_section(random, family, &items)
}

/// An item is read as the model reads it, at each grade, and written again beside its own bytes gives the shortest bytes;
/// whether it could be written again: its bytes are not too many for a pool.
fn compare_item(family: u64, shortest: &[u8], item: &[u8]) -> Result<bool, Difference> {
    let import = family == IMPORTS;
    for grade in 1..=3 {
        if let Some(told) = read_both(import, item, grade, ROW_WORDS).1 {
            return Err(format!("family {family}, grade {grade}, a padded item {}:{told}", hex(item)).into());
        }
    }
    if item.len() > POOL_BYTES {
        return Ok(false);
    }
    let (mut row, mut body) = (vec![0; ROW_WORDS], vec![0; item.len()]);
    let read = if import { read_import } else { read_type };
    let read = read(item, 3, &mut row).map_err(|refused| format!("a padded item {}: {refused:?}", hex(item)))?;
    let row = &row[..read.words];
    let written = Section::new(family).row(row, item, &mut body).map(|size| body[..size].to_vec());
    if read.taken != item.len() || written.as_deref() != Ok(shortest) {
        return Err(Difference {
            what: "a padded item, read and written again".into(),
            input: hex(item),
            library: format!("{} bytes taken, [{}], {written:x?}", read.taken, words(row)),
            other: hex(shortest),
        });
    }
    Ok(true)
}

/// The library and wasmparser find the same items in the section of these items.
fn same_in_section(random: &mut Random, family: u64, items: &[Vec<u8>]) -> Result<(), Difference> {
    let section = section_of(family, items, || 1 + random.below(LONGEST));
    let input = Input { family, ..Input::default() };
    let (library, other) = (by_library(&input, &section), by_wasmparser(family, &section));
    if library.is_ok() && library == other {
        return Ok(());
    }
    let (library, other) = (format!("{library:?}"), format!("{other:?}"));
    Err(Difference { what: "padded items of a section".into(), input: hex(&section), library, other })
}

/// The section of items that stand ready; its size and its count have as many bytes as `size` says, if they need no more.
pub fn section_of<I: AsRef<[u8]>>(family: u64, items: &[I], mut size: impl FnMut() -> usize) -> Vec<u8> {
    let mut number = |number: usize| {
        let (mut shortest, mut bytes) = (Vec::new(), Vec::new());
        model::write_unsigned(number as u32, &mut shortest);
        add_padded(&shortest, size(), &mut bytes);
        bytes
    };
    let count = number(items.len());
    let body: Vec<u8> = items.iter().flat_map(|item| item.as_ref()).copied().collect();
    [&[family as u8], &number(count.len() + body.len())[..], &count, &body].concat()
}

#[cfg(test)]
mod tests {
    use super::*;
    use crate::frames;
    use crate::tbaunarith::Refusal;

    #[test]
    fn numbers_are_padded_where_they_stand() {
        // record of one field `x` of type 5; the same in five bytes
        let item = [0x72, 0x01, 0x01, 0x78, 0x05];
        let five = |digit: u8| [0x80 | digit, 0x80, 0x80, 0x80, 0x00];
        let padded = [&[0x72], &five(1)[..], &five(1), &[0x78], &five(5)].concat();
        assert_eq!(in_five_bytes(false, &item), padded);
        // a primitive has no number; list of 115 has one of two bytes
        assert_eq!(in_five_bytes(false, &[0x72, 0x00, 0x73][..2]), [&[0x72], &five(0)[..]].concat());
        assert_eq!(in_five_bytes(false, &[0x73]), [0x73]);
        assert_eq!(in_five_bytes(false, &[0x70, 0xf3, 0x00]), [0x70, 0xf3, 0x80, 0x80, 0x80, 0x00]);
        // import f with a version suffix: lengths, the option count and the index
        let import = [0x02, 0x01, 0x66, 0x01, 0x01, 0x01, 0x31, 0x01, 0x00];
        assert_eq!(numbers_of(true, &import), [1..2, 3..4, 5..6, 8..9]);
    }

    #[test]
    fn spoilt_numbers_are_refused_or_others() {
        let mut rng = Random::new(7);
        let mut refusals = 0;
        for _ in 0..1000 {
            let item = spoilt(&mut rng, false, &[0x70, 0xf3, 0x00]);
            match model::read_type(&item, 1, &mut [0; 3]) {
                Err(refused) => {
                    assert_eq!((refused.why, refused.value), (Refusal::Number, 1), "{item:x?}");
                    refusals += 1;
                }
                Ok(found) => assert_eq!(found.taken, item.len(), "{item:x?}"),
            }
        }
        assert!(refusals > 900, "{refusals}");
    }

    #[test]
    fn frames_are_padded_too() {
        let section = section_of(7, &[[0x73]], || 3);
        assert_eq!(section, [0x07, 0x84, 0x80, 0x00, 0x81, 0x80, 0x00, 0x73]);
        assert_eq!(frames::body(&section), Some(&[0x73][..]));
    }
}
