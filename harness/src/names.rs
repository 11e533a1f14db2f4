//! Damaged names: the byte at which each goes bad, as the library tells it and as it follows from Rust's `from_utf8`.

use crate::model::write_unsigned;
use crate::random::Random;
use crate::report::{hex, Difference, Table};
use crate::tbaunarith::{read_type, Refusal, Refused, Section, TYPES};
use std::str::from_utf8;

/// How many names that are not UTF-8 are compared.
const NAMES: u64 = 1_000_000;

/// The byte of a name at which no valid reading can go on, if it is not UTF-8, as it follows from `from_utf8`.
///
/// `valid_up_to` is where the first sequence begins that is not right. `error_len` is none where the name ends inside it and
/// all that is there of it is right; the byte is the name's length then. Else `error_len` is how many bytes of the sequence
/// are right, and the byte is the one behind them. But a first byte that begins no sequence, so that none is right and the
/// byte is the first, has 1 too. Whether a 1 means that, `from_utf8` tells of the first byte alone: one that can begin a
/// sequence merely ends early.
pub fn stops_at(name: &[u8]) -> Option<usize> {
    let fault = from_utf8(name).err()?;
    let first = fault.valid_up_to();
    let begins_nothing = || from_utf8(&name[first..=first]).is_err_and(|alone| alone.error_len().is_some());
    match fault.error_len() {
        None => Some(name.len()),
        Some(1) if begins_nothing() => Some(first),
        Some(right) => Some(first + right),
    }
}

/// Compares the library with `from_utf8` on damaged names, each in a row beside other bytes and in an encoding.
pub fn compare(table: &mut Table) -> Result<(), Difference> {
    let rng = &mut Random::new(3);
    let (mut body, mut wrong, mut right) = (vec![0; 1 << 17], 0, 0);
    while wrong < NAMES {
        let name = rng.damaged_name();
        let stops = stops_at(&name);
        *(if stops.is_some() { &mut wrong } else { &mut right }) += 1;
        in_row(rng, &name, stops, &mut body)?;
        in_encoding(&name, stops)?;
    }
    table.add("damaged names, in a row and in an encoding: the byte", "from_utf8", wrong);
    table.add("  others of them, UTF-8 after all", "from_utf8", right);
    Ok(())
}

/// The name as the only one of flags; before and behind it in the pool stand bytes that must not matter.
fn in_row(rng: &mut Random, name: &[u8], stops: Option<usize>, body: &mut [u8]) -> Result<(), Difference> {
    const BESIDE: [&[u8]; 5] = [b"", b"a", b"\x80\x80\x80", b"\xbf\xff", b"\xf0\x90"];
    let (before, behind) = (*rng.pick(&BESIDE), *rng.pick(&BESIDE));
    let pool = [before, name, behind].concat();
    let answer = Section::new(TYPES).row(&[7, 1, before.len() as u32, name.len() as u32], &pool, body);
    same("a name in a row", name, 2, stops, answer.map(|_| ()))
}

/// The name as the only one of an enum that is read.
fn in_encoding(name: &[u8], stops: Option<usize>) -> Result<(), Difference> {
    let mut input = vec![0x6d, 0x01];
    write_unsigned(name.len() as u32, &mut input);
    let place = input.len();
    input.extend(name);
    let answer = read_type(&input, 1, &mut [0; 4]);
    same("a name in an encoding", name, place, stops, answer.map(|_| ()))
}

/// The answer is TEXT at the name's place with the byte, or the name is taken.
fn same(
    what: &str,
    name: &[u8],
    place: usize,
    stops: Option<usize>,
    answer: Result<(), Refused>,
) -> Result<(), Difference> {
    let text = |byte: usize| Refused { why: Refusal::Text, value: place as u64, also: byte as u32 };
    let wanted = stops.map_or(Ok(()), |byte| Err(text(byte)));
    if answer == wanted {
        return Ok(());
    }
    let (library, other) = (format!("{answer:?}"), format!("{wanted:?}"));
    Err(Difference { what: what.into(), input: hex(name), library, other })
}

#[cfg(test)]
mod tests {
    use super::*;
    use crate::damage::{every_list, ENDS_OF_UTF8};
    use crate::model;

    #[test]
    fn the_model_stops_as_from_utf8_does() {
        let rng = &mut Random::new(5);
        let mut lengths = [0; 2];
        for _ in 0..NAMES {
            let name = rng.damaged_name();
            let stops = stops_at(&name);
            assert_eq!(model::stops_at(&name), stops, "{name:x?}");
            lengths[usize::from(stops == Some(name.len()))] += 1;
        }
        assert!(lengths.iter().all(|times| *times > NAMES / 20), "{lengths:?}");
        let same = &mut |name: &[u8]| match model::stops_at(name) == stops_at(name) {
            true => Ok(()),
            false => Err(format!("{name:x?}")),
        };
        assert_eq!(every_list(&ENDS_OF_UTF8, 4, same), Ok(()));
    }
}
