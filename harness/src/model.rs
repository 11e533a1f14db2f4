//! Document 01 as a model in plain Rust: what each call answers and changes, made to be laid beside the paper.

use crate::tbaunarith::{Item, Refusal, Refused};
use std::ops::{Range, RangeInclusive};

// "Numbers on the wall": a row's words, a pool's bytes, a reader's input; and "The sheet": a sheet's bytes.
const ROW_WORDS: usize = 16_384;
const POOL_BYTES: usize = 65_536;
const INPUT_BYTES: usize = 1_073_741_824;
const SHEET_BYTES: usize = 65_536;

/// The largest size of a finished section's content, the largest entry count, and the largest number that is read.
const MOST: u64 = 4_294_967_295;

// "A section and its open entry": the families; wish 1 adds those of instances.
const CORE_INSTANCES: u64 = 2;
const INSTANCES: u64 = 5;
const TYPES: u64 = 7;
const CANONICALS: u64 = 8;
const IMPORTS: u64 = 10;

// A section's phases: nothing open; function opened; head given. There is no other.
const CLOSED: u64 = 0;
const OPENED: u64 = 1;
const HEADED: u64 = 2;

/// A refusal with the value that the table of numbers returns with it.
fn refused<T>(why: Refusal, value: usize) -> Result<T, Refused> {
    Err(Refused { why, value: value as u64, also: 0 })
}

// Numbers and names.

/// Counts, lengths and indices: shortest unsigned LEB128.
pub fn write_unsigned(number: u32, bytes: &mut Vec<u8>) {
    let mut rest = number;
    while rest > 0x7f {
        bytes.push(0x80 | (rest & 0x7f) as u8);
        rest >>= 7;
    }
    bytes.push(rest as u8);
}

/// The index in a V: shortest signed LEB128 of the number as non-negative, so bit 6 of the last byte is clear.
fn write_signed(number: u32, bytes: &mut Vec<u8>) {
    let mut rest = number;
    while rest > 0x3f {
        bytes.push(0x80 | (rest & 0x7f) as u8);
        rest >>= 7;
    }
    bytes.push(rest as u8);
}

/// The Unicode Standard's table 3-7, well-formed UTF-8 byte sequences: each line's ranges of the first byte, the second and so on.
const WELL_FORMED: [&[RangeInclusive<u8>]; 9] = [
    &[0x00..=0x7f],
    &[0xc2..=0xdf, 0x80..=0xbf],
    &[0xe0..=0xe0, 0xa0..=0xbf, 0x80..=0xbf],
    &[0xe1..=0xec, 0x80..=0xbf, 0x80..=0xbf],
    &[0xed..=0xed, 0x80..=0x9f, 0x80..=0xbf],
    &[0xee..=0xef, 0x80..=0xbf, 0x80..=0xbf],
    &[0xf0..=0xf0, 0x90..=0xbf, 0x80..=0xbf, 0x80..=0xbf],
    &[0xf1..=0xf3, 0x80..=0xbf, 0x80..=0xbf, 0x80..=0xbf],
    &[0xf4..=0xf4, 0x80..=0x8f, 0x80..=0xbf, 0x80..=0xbf],
];

/// Wish 3: the byte of a name at which no valid reading can go on, if it is not UTF-8. That is one that begins no line of the
/// table, or one outside its line's range; where the name ends inside a sequence, it is the name's length.
pub fn stops_at(name: &[u8]) -> Option<usize> {
    let mut place = 0;
    while let Some(first) = name.get(place) {
        let begins = |line: &&&[RangeInclusive<u8>]| line.first().is_some_and(|range| range.contains(first));
        let Some(line) = WELL_FORMED.iter().find(begins) else {
            return Some(place);
        };
        for range in *line {
            match name.get(place) {
                Some(byte) if range.contains(byte) => place += 1,
                _ => return Some(place),
            }
        }
    }
    None
}

/// A name is UTF-8; else TEXT at the name's place, with the byte.
fn judge_text(name: &[u8], place: usize) -> Result<(), Refused> {
    match stops_at(name) {
        Some(byte) => Err(Refused { why: Refusal::Text, value: place as u64, also: byte as u32 }),
        None => Ok(()),
    }
}

// Kinds.

/// The section's family that a kind belongs to, if there is such a kind.
fn family_of(kind: u32) -> Option<u64> {
    match kind {
        0..=16 => Some(TYPES),
        17 => Some(IMPORTS),
        18 | 20 => Some(CORE_INSTANCES),
        19 | 21 => Some(INSTANCES),
        _ => canonical_of(kind).map(|_| CANONICALS),
    }
}

/// Whether a family is a section's.
fn is_family(family: u64) -> bool {
    matches!(family, CORE_INSTANCES | INSTANCES | TYPES | CANONICALS | IMPORTS)
}

/// How a canonical's words and bytes go on after its lead byte.
#[derive(Clone, Copy)]
enum Canonical {
    Index,
    TwoIndices,
    Nothing,
    Flag,
    IndexFlag,
    RepIndex,
    Zero,
    ZeroMemory,
    IndexOptions,
    ZeroIndexOptions,
    Lift,
}

/// The canonical of a kind 256 + lead.
fn canonical_of(kind: u32) -> Option<Canonical> {
    match kind.checked_sub(256)? {
        0x02 | 0x03 | 0x04 | 0x40 | 0x0e | 0x13 | 0x14 | 0x15 => Some(Canonical::Index),
        0x1a | 0x1b | 0x2e | 0x2f => Some(Canonical::Index),
        0x41 | 0x27 => Some(Canonical::TwoIndices),
        0x05 | 0x0d | 0x1e | 0x1f | 0x22 | 0x23 | 0x24 | 0x25 | 0x26 => Some(Canonical::Nothing),
        0x06 => Some(Canonical::Flag),
        0x11 | 0x12 | 0x18 | 0x19 => Some(Canonical::IndexFlag),
        0x0a | 0x0b => Some(Canonical::RepIndex),
        0x0c | 0x29 | 0x2a | 0x2b | 0x2c | 0x2d => Some(Canonical::Zero),
        0x20 | 0x21 => Some(Canonical::ZeroMemory),
        0x0f | 0x16 => Some(Canonical::IndexOptions),
        0x01 => Some(Canonical::ZeroIndexOptions),
        0x00 => Some(Canonical::Lift),
        _ => None,
    }
}

/// How many words a row of this kind and count has. None: there is no such kind, or the row ends before its count.
fn words_needed(kind: u32, row: &[u32]) -> Option<u64> {
    let count_at = |place: usize| row.get(place).map(|count| u64::from(*count));
    match kind {
        0 => Some(2),
        1 | 2 => Some(2 + 4 * count_at(1)?),
        3 | 9 => Some(3),
        4 | 10 => Some(5),
        5 => Some(4),
        6..=8 => Some(2 + 2 * count_at(1)?),
        11 | 12 => Some(2),
        13 | 14 => Some(3),
        15 => Some(5 + 4 * count_at(2)?),
        16 => Some(4),
        17 => Some(15),
        18 => Some(3 + 3 * count_at(2)?),
        19 => Some(3 + 4 * count_at(2)?),
        20 => Some(2 + 4 * count_at(1)?),
        21 => Some(2 + 13 * count_at(1)?),
        _ => match canonical_of(kind)? {
            Canonical::Nothing | Canonical::Zero => Some(1),
            Canonical::Index | Canonical::Flag | Canonical::ZeroMemory => Some(2),
            Canonical::TwoIndices | Canonical::IndexFlag | Canonical::RepIndex => Some(3),
            Canonical::IndexOptions | Canonical::ZeroIndexOptions => Some(3 + 2 * count_at(2)?),
            Canonical::Lift => Some(4 + 2 * count_at(3)?),
        },
    }
}

// Writing.

/// The bytes of a row, room apart: LIMIT, KIND, ROW, the fields left to right. TOO_BIG is about sections only (wish 8).
pub fn write_row(family: u64, row: &[u32], pool: &[u8]) -> Result<Vec<u8>, Refused> {
    if !is_family(family) || row.len() > ROW_WORDS || pool.len() > POOL_BYTES {
        return refused(Refusal::Limit, 0);
    }
    let Some(kind) = row.first().copied() else {
        return refused(Refusal::Row, 0);
    };
    if family_of(kind) != Some(family) {
        return refused(Refusal::Kind, 0);
    }
    if words_needed(kind, row) != Some(row.len() as u64) {
        return refused(Refusal::Row, 0);
    }
    let mut fields = Fields { words: row, place: 1, pool, bytes: Vec::new() };
    match kind {
        0..=14 => fields.defined_type(kind)?,
        15 => fields.function()?,
        16 => fields.resource()?,
        17 => fields.import()?,
        18..=21 => fields.instance(kind)?,
        _ => fields.canonical(kind)?,
    }
    Ok(fields.bytes)
}

/// Words being written: the place of the next word, the pool of the names, and the bytes so far.
struct Fields<'a> {
    words: &'a [u32],
    place: usize,
    pool: &'a [u8],
    bytes: Vec<u8>,
}

impl Fields<'_> {
    /// The next word. The number of words was judged before any field, so it is always there.
    fn word(&mut self) -> Result<u32, Refused> {
        match self.words.get(self.place) {
            Some(word) => {
                self.place += 1;
                Ok(*word)
            }
            None => refused(Refusal::Row, 0),
        }
    }

    /// A word that is one of 0..=last; else TAG at its place.
    fn up_to(&mut self, last: u32) -> Result<u32, Refused> {
        let place = self.place;
        let word = self.word()?;
        if word > last {
            return refused(Refusal::Tag, place);
        }
        Ok(word)
    }

    /// A word of an absent thing, which is 0; else TAG at its place.
    fn unused(&mut self) -> Result<(), Refused> {
        self.up_to(0)?;
        Ok(())
    }

    /// A byte that the form gives, and then what follows it.
    fn byte(&mut self, byte: u8) -> &mut Self {
        self.bytes.push(byte);
        self
    }

    /// A count, length or index, written as an unsigned number.
    fn number(&mut self) -> Result<(), Refused> {
        let word = self.word()?;
        write_unsigned(word, &mut self.bytes);
        Ok(())
    }

    /// A flag, written as the byte 00 or 01.
    fn flag(&mut self) -> Result<(), Refused> {
        let flag = self.up_to(1)?;
        self.byte(flag as u8);
        Ok(())
    }

    /// A rep: 7f for 0, 7e for 1.
    fn rep(&mut self) -> Result<(), Refused> {
        let rep = self.up_to(1)?;
        self.byte(if rep == 0 { 0x7f } else { 0x7e });
        Ok(())
    }

    /// N: RANGE, then TEXT, at its first word; else its length and its bytes.
    fn name(&mut self) -> Result<(), Refused> {
        let place = self.place;
        let start = self.word()?;
        let length = self.word()?;
        let end = start as usize + length as usize;
        let Some(name) = self.pool.get(start as usize..end) else {
            return refused(Refusal::Range, place);
        };
        judge_text(name, place)?;
        write_unsigned(length, &mut self.bytes);
        self.bytes.extend_from_slice(name);
        Ok(())
    }

    /// p: 0..12 are the bytes 7f down to 73, 13 is 64.
    fn primitive(&mut self) -> Result<(), Refused> {
        let p = self.up_to(13)?;
        self.byte(if p == 13 { 0x64 } else { 0x7f - p as u8 });
        Ok(())
    }

    /// V: (0,p) or (1,index).
    fn value_type(&mut self) -> Result<(), Refused> {
        let tag = self.up_to(1)?;
        self.value_of_tag(tag)
    }

    /// The second word of a V whose first word was 0 or 1.
    fn value_of_tag(&mut self, tag: u32) -> Result<(), Refused> {
        if tag == 0 {
            return self.primitive();
        }
        let index = self.word()?;
        write_signed(index, &mut self.bytes);
        Ok(())
    }

    /// O: 00 when absent, 01 V when present.
    fn optional(&mut self) -> Result<(), Refused> {
        let tag = self.up_to(2)?;
        if tag == 2 {
            self.unused()?;
            self.byte(0x00);
            return Ok(());
        }
        self.byte(0x01);
        self.value_of_tag(tag)
    }

    /// A function's result, an O the other way about: 00 V when present, 01 00 when absent.
    fn function_result(&mut self) -> Result<(), Refused> {
        let tag = self.up_to(2)?;
        if tag == 2 {
            self.unused()?;
            self.byte(0x01);
            self.byte(0x00);
            return Ok(());
        }
        self.byte(0x00);
        self.value_of_tag(tag)
    }

    /// n, and n entries of one form.
    fn list(&mut self, entry: fn(&mut Self) -> Result<(), Refused>) -> Result<(), Refused> {
        let count = self.word()?;
        write_unsigned(count, &mut self.bytes);
        for _ in 0..count {
            entry(self)?;
        }
        Ok(())
    }

    /// Two fields.
    fn two(
        &mut self,
        first: fn(&mut Self) -> Result<(), Refused>,
        second: fn(&mut Self) -> Result<(), Refused>,
    ) -> Result<(), Refused> {
        first(self)?;
        second(self)
    }

    /// (N,V): a record's field or a function's parameter.
    fn named_value(&mut self) -> Result<(), Refused> {
        self.two(Self::name, Self::value_type)
    }

    /// (N,O): a variant's case, which ends in 00.
    fn case(&mut self) -> Result<(), Refused> {
        self.two(Self::name, Self::optional)?;
        self.byte(0x00);
        Ok(())
    }

    /// Kinds 0..14: the lead byte (a primitive has none) and the words after the kind.
    fn defined_type(&mut self, kind: u32) -> Result<(), Refused> {
        match kind {
            0 => self.primitive(),
            1 => self.byte(0x72).list(Self::named_value),
            2 => self.byte(0x71).list(Self::case),
            3 => self.byte(0x70).value_type(),
            4 => self.byte(0x63).two(Self::value_type, Self::value_type),
            5 => self.byte(0x67).two(Self::value_type, Self::number),
            6 => self.byte(0x6f).list(Self::value_type),
            7 => self.byte(0x6e).list(Self::name),
            8 => self.byte(0x6d).list(Self::name),
            9 => self.byte(0x6b).value_type(),
            10 => self.byte(0x6a).two(Self::optional, Self::optional),
            11 => self.byte(0x69).number(),
            12 => self.byte(0x68).number(),
            13 => self.byte(0x65).optional(),
            14 => self.byte(0x66).optional(),
            _ => refused(Refusal::Kind, 0),
        }
    }

    /// A function's a: 40 for 0, 43 for 1.
    fn function_lead(&mut self) -> Result<(), Refused> {
        let a = self.up_to(1)?;
        self.byte(if a == 0 { 0x40 } else { 0x43 });
        Ok(())
    }

    /// A function's head: a, n, n of (N,V).
    fn function_head(&mut self) -> Result<(), Refused> {
        self.function_lead()?;
        self.list(Self::named_value)
    }

    /// Kind 15, function: a, n, n of (N,V), O.
    fn function(&mut self) -> Result<(), Refused> {
        self.function_head()?;
        self.function_result()
    }

    /// Kind 16, resource: rep, d, index; 00, or 01 and the index.
    fn resource(&mut self) -> Result<(), Refused> {
        self.byte(0x3f);
        self.rep()?;
        if self.up_to(1)? == 0 {
            return self.byte(0x00).unused();
        }
        self.byte(0x01).number()
    }

    /// A name with options: N, three of (present, N). Without options 00 and the name; else 02, the name, the option
    /// count, then each option's kind and string.
    fn extern_name(&mut self) -> Result<(), Refused> {
        let present_places = [2, 5, 8].map(|word| self.place + word);
        let present = present_places.iter().filter(|place| self.words.get(**place) == Some(&1)).count() as u8;
        self.byte(if present == 0 { 0x00 } else { 0x02 });
        self.name()?;
        if present > 0 {
            self.byte(present);
        }
        for option in 0..3 {
            if self.up_to(1)? == 1 {
                self.byte(option);
                self.name()?;
            } else {
                self.unused()?;
                self.unused()?;
            }
        }
        Ok(())
    }

    /// Kind 17, import: a name with options, reference.
    fn import(&mut self) -> Result<(), Refused> {
        self.two(Self::extern_name, Self::reference)
    }

    /// An import's reference, three words.
    fn reference(&mut self) -> Result<(), Refused> {
        match self.up_to(5)? {
            0 => self.byte(0x00).byte(0x11).two(Self::number, Self::unused),
            1 => self.byte(0x01).two(Self::number, Self::unused),
            2 => self.byte(0x02).value_type(),
            3 => match self.up_to(1)? {
                0 => self.byte(0x03).byte(0x00).number(),
                _ => self.byte(0x03).byte(0x01).unused(),
            },
            4 => self.byte(0x04).two(Self::number, Self::unused),
            _ => self.byte(0x05).two(Self::number, Self::unused),
        }
    }

    /// An argument's instance: 12, the sort of a core instance, and its index.
    fn instance_argument(&mut self) -> Result<(), Refused> {
        self.byte(0x12).number()
    }

    /// A core kind, 0..4, which is its byte, and an index.
    fn core_kind_index(&mut self) -> Result<(), Refused> {
        let kind = self.up_to(4)?;
        self.byte(kind as u8).number()
    }

    /// A sort, 0..5, and an index: a core module's sort is 00 11, another's is its byte.
    fn sort_index(&mut self) -> Result<(), Refused> {
        let sort = self.up_to(5)?;
        self.byte(sort as u8);
        if sort == 0 {
            self.byte(0x11);
        }
        self.number()
    }

    /// Kinds 18..21: 00 and what is instantiated with its arguments, or 01 and the items.
    fn instance(&mut self, kind: u32) -> Result<(), Refused> {
        match kind {
            18 => self.byte(0x00).two(Self::number, |row| row.list(|row| row.two(Self::name, Self::instance_argument))),
            19 => self.byte(0x00).two(Self::number, |row| row.list(|row| row.two(Self::name, Self::sort_index))),
            20 => self.byte(0x01).list(|row| row.two(Self::name, Self::core_kind_index)),
            21 => self.byte(0x01).list(|row| row.two(Self::extern_name, Self::sort_index)),
            _ => refused(Refusal::Kind, 0),
        }
    }

    /// A canonical option (k,x), k = 0..9: the byte k, and the index x for k = 3 4 5 7 8, otherwise x is 0.
    fn canonical_option(&mut self) -> Result<(), Refused> {
        let k = self.up_to(9)?;
        self.byte(k as u8);
        if matches!(k, 3 | 4 | 5 | 7 | 8) {
            return self.number();
        }
        self.unused()
    }

    /// Kind 256 + lead: the lead byte, and what its line tells.
    fn canonical(&mut self, kind: u32) -> Result<(), Refused> {
        let Some(form) = canonical_of(kind) else {
            return refused(Refusal::Kind, 0);
        };
        self.byte(kind as u8);
        match form {
            Canonical::Index => self.number(),
            Canonical::TwoIndices => self.two(Self::number, Self::number),
            Canonical::Nothing => Ok(()),
            Canonical::Flag => self.flag(),
            Canonical::IndexFlag => self.two(Self::number, Self::flag),
            Canonical::RepIndex => self.two(Self::rep, Self::number),
            Canonical::Zero => {
                self.byte(0x00);
                Ok(())
            }
            Canonical::ZeroMemory => self.byte(0x00).number(),
            Canonical::IndexOptions => self.two(Self::number, Self::canonical_options),
            Canonical::ZeroIndexOptions => self.byte(0x00).two(Self::number, Self::canonical_options),
            Canonical::Lift => self.byte(0x00).lift(),
        }
    }

    /// n, options.
    fn canonical_options(&mut self) -> Result<(), Refused> {
        self.list(Self::canonical_option)
    }

    /// Lift: words function, type, n, options; bytes function n options type.
    fn lift(&mut self) -> Result<(), Refused> {
        self.number()?;
        let type_index = self.word()?;
        self.canonical_options()?;
        write_unsigned(type_index, &mut self.bytes);
        Ok(())
    }
}

// A section and its open entry.

/// A section's state in the order of the C interface; any numbers may stand in it.
#[derive(Clone, Copy, Debug, PartialEq, Eq)]
pub struct Section {
    pub family: u64,
    pub used: u64,
    pub count: u64,
    pub phase: u64,
    pub start: u64,
}

impl Section {
    /// A fresh section.
    pub fn new(family: u64) -> Section {
        Section { family, used: 0, count: 0, phase: CLOSED, start: 0 }
    }

    /// A section from the five numbers of the C interface.
    pub fn from_state(state: [u64; 5]) -> Section {
        let [family, used, count, phase, start] = state;
        Section { family, used, count, phase, start }
    }

    /// The five numbers of the C interface.
    pub fn state(&self) -> [u64; 5] {
        [self.family, self.used, self.count, self.phase, self.start]
    }

    /// LIMIT: what a state beside its buffer may not be.
    fn judge_state(&self, body_room: usize) -> Result<(), Refused> {
        let not_held = self.count > MOST || self.phase > HEADED;
        let past_buffer = self.used > body_room as u64;
        let broken_entry = if self.phase == CLOSED {
            self.start != 0
        } else {
            self.start > self.used || self.count == 0 || self.family != TYPES
        };
        if !is_family(self.family) || not_held || past_buffer || broken_entry {
            return refused(Refusal::Limit, 0);
        }
        Ok(())
    }

    /// Adds a call's bytes to the body, or ROOM with their number.
    fn add(&mut self, bytes: &[u8], body: &mut [u8]) -> Result<usize, Refused> {
        let free = body.get_mut(self.used as usize..).unwrap_or_default();
        match free.get_mut(..bytes.len()) {
            Some(place) => {
                place.copy_from_slice(bytes);
                self.used += bytes.len() as u64;
                Ok(bytes.len())
            }
            None => refused(Refusal::Room, bytes.len()),
        }
    }

    /// A row adds its bytes and 1.
    pub fn row(&mut self, row: &[u32], pool: &[u8], body: &mut [u8]) -> Result<usize, Refused> {
        self.judge_state(body.len())?;
        if row.len() > ROW_WORDS || pool.len() > POOL_BYTES {
            return refused(Refusal::Limit, 0);
        }
        if self.phase != CLOSED {
            return refused(Refusal::Order, 0);
        }
        if self.count == MOST {
            return refused(Refusal::Count, 0);
        }
        let bytes = write_row(self.family, row, pool)?;
        let size = self.add(&bytes, body)?;
        self.count += 1;
        Ok(size)
    }

    /// Opens a function: adds 1 to the count and no byte.
    pub fn open(&mut self, body: &mut [u8]) -> Result<usize, Refused> {
        self.judge_state(body.len())?;
        if self.phase != CLOSED {
            return refused(Refusal::Order, 0);
        }
        if self.count == MOST {
            return refused(Refusal::Count, 0);
        }
        if self.family != TYPES {
            return refused(Refusal::Kind, 0);
        }
        self.count += 1;
        self.phase = OPENED;
        self.start = self.used;
        Ok(0)
    }

    /// The step head (wish 5), given a, n, n of (N,V) and the pool: once. Its words are a function's row without kind and
    /// result, and are judged as such a row is.
    pub fn head(&mut self, words: &[u32], pool: &[u8], body: &mut [u8]) -> Result<usize, Refused> {
        self.judge_state(body.len())?;
        if words.len() > ROW_WORDS || pool.len() > POOL_BYTES {
            return refused(Refusal::Limit, 0);
        }
        if self.phase != OPENED {
            return refused(Refusal::Order, 0);
        }
        let words_needed = words.get(1).map(|count| 2 + 4 * u64::from(*count));
        if words_needed != Some(words.len() as u64) {
            return refused(Refusal::Row, 0);
        }
        let mut fields = Fields { words, place: 0, pool, bytes: Vec::new() };
        fields.function_head()?;
        let size = self.add(&fields.bytes, body)?;
        self.phase = HEADED;
        Ok(size)
    }

    /// The step result, given O: after head; it closes the entry.
    pub fn result(&mut self, tag: u32, x: u32, body: &mut [u8]) -> Result<usize, Refused> {
        self.judge_state(body.len())?;
        if self.phase != HEADED {
            return refused(Refusal::Order, 0);
        }
        let mut fields = Fields { words: &[tag, x], place: 0, pool: &[], bytes: Vec::new() };
        fields.function_result()?;
        let size = self.add(&fields.bytes, body)?;
        self.phase = CLOSED;
        self.start = 0;
        Ok(size)
    }

    /// Abandoning restores used and count from before the opening.
    pub fn abandon(&mut self, body: &mut [u8]) -> Result<usize, Refused> {
        self.judge_state(body.len())?;
        if self.phase == CLOSED {
            return refused(Refusal::Order, 0);
        }
        self.used = self.start;
        self.count -= 1;
        self.phase = CLOSED;
        self.start = 0;
        Ok(0)
    }

    /// Finishing writes id, size of count and body, count, body into another buffer; the state stays.
    pub fn finish(&self, body: &[u8], out: &mut [u8]) -> Result<usize, Refused> {
        self.judge_state(body.len())?;
        if self.phase != CLOSED {
            return refused(Refusal::Order, 0);
        }
        let used = body.get(..self.used as usize).unwrap_or_default();
        let front = section_front(self.family, self.count, used.len())?;
        let size = front.len() + used.len();
        let Some(place) = out.get_mut(..size) else {
            return refused(Refusal::Room, size);
        };
        let (front_place, body_place) = place.split_at_mut(front.len());
        front_place.copy_from_slice(&front);
        body_place.copy_from_slice(used);
        Ok(size)
    }
}

/// A finished section before its body: id, size of count and body, count. TOO_BIG if that size passes the largest.
fn section_front(family: u64, count: u64, body_size: usize) -> Result<Vec<u8>, Refused> {
    let mut count_bytes = Vec::new();
    write_unsigned(count as u32, &mut count_bytes);
    let size = (count_bytes.len() + body_size) as u64;
    if size > MOST {
        return refused(Refusal::TooBig, 0);
    }
    let mut front = vec![family as u8];
    write_unsigned(size as u32, &mut front);
    front.extend_from_slice(&count_bytes);
    Ok(front)
}

// The sheet.

/// A whole sheet: LIMIT, SHEET, the rows in order, the output. A refusal's value is the row, from 0; its byte is the row's.
pub fn sheet(sheet: &[u8], body: &mut [u8], out: &mut [u8]) -> Result<usize, Refused> {
    if sheet.len() > SHEET_BYTES {
        return refused(Refusal::Limit, 0);
    }
    let Some((pool, rows)) = unframe(sheet) else {
        return refused(Refusal::Sheet, 0);
    };
    // A first row without a known kind is refused in any family.
    let first_kind = rows.first().and_then(|row| row.first());
    let family = first_kind.and_then(|kind| family_of(*kind)).unwrap_or(TYPES);
    let mut written = Vec::new();
    for (place, row) in rows.iter().enumerate() {
        let refusal_here = |refusal: Refused| Refused { value: place as u64, ..refusal };
        let bytes = write_row(family, row, pool).map_err(refusal_here)?;
        if bytes.len() > body.len() - written.len() {
            return refused(Refusal::Room, place);
        }
        written.extend_from_slice(&bytes);
    }
    let section = Section { used: written.len() as u64, count: rows.len() as u64, ..Section::new(family) };
    let refusal_after = |refusal: Refused| Refused { value: rows.len() as u64, ..refusal };
    let size = section.finish(&written, out).map_err(refusal_after)?;
    if let Some(front) = body.get_mut(..written.len()) {
        front.copy_from_slice(&written);
    }
    Ok(size)
}

/// A sheet's pool and rows. None: wrong version, no row, or broken framing.
pub fn unframe(sheet: &[u8]) -> Option<(&[u8], Vec<Vec<u32>>)> {
    let (version, rest) = sheet.split_first()?;
    if *version != 0x01 {
        return None;
    }
    let (pool_length, rest) = big_endian(rest)?;
    let pool = rest.get(..pool_length as usize)?;
    let mut rest = rest.get(pool_length as usize..)?;
    let mut rows = Vec::new();
    while !rest.is_empty() {
        let (word_count, mut after) = big_endian(rest)?;
        let mut row = Vec::new();
        for _ in 0..word_count {
            let (word, next) = big_endian(after)?;
            row.push(word);
            after = next;
        }
        rows.push(row);
        rest = after;
    }
    if rows.is_empty() {
        return None;
    }
    Some((pool, rows))
}

/// A number in 4 bytes, big-endian, and the bytes after it.
fn big_endian(bytes: &[u8]) -> Option<(u32, &[u8])> {
    let (number, rest) = bytes.split_first_chunk::<4>()?;
    Some((u32::from_be_bytes(*number), rest))
}

// Reading.

/// The type (kinds 0..16) at the front of the input: LIMIT; the leftmost fault; ROOM for an item otherwise whole.
pub fn read_type(input: &[u8], grade: u32, row: &mut [u32]) -> Result<Item, Refused> {
    let mut reader = Reader::new(input, grade)?;
    reader.any_type()?;
    reader.into_row(row)
}

/// The import at the front of the input, in the same order.
pub fn read_import(input: &[u8], grade: u32, row: &mut [u32]) -> Result<Item, Refused> {
    let mut reader = Reader::new(input, grade)?;
    reader.import()?;
    reader.into_row(row)
}

/// Where the numbers of the item at the front of the input stand: counts, lengths and indices, in their order.
pub fn numbers_of(import: bool, input: &[u8]) -> Result<Vec<Range<usize>>, Refused> {
    let mut reader = Reader::new(input, 3)?;
    if import {
        reader.import()?;
    } else {
        reader.any_type()?;
    }
    Ok(reader.numbers)
}

/// An item being read: the offset of the next byte, the grade, the row's words so far, and where the numbers stood.
struct Reader<'a> {
    input: &'a [u8],
    place: usize,
    grade: u32,
    row: Vec<u32>,
    numbers: Vec<Range<usize>>,
}

impl<'a> Reader<'a> {
    /// A reader at the front of the input, or LIMIT.
    fn new(input: &'a [u8], grade: u32) -> Result<Reader<'a>, Refused> {
        if input.len() > INPUT_BYTES || !(1..=3).contains(&grade) {
            return refused(Refusal::Limit, 0);
        }
        Ok(Reader { input, place: 0, grade, row: Vec::new(), numbers: Vec::new() })
    }

    /// The whole item's words at the front of the row lent, or ROOM with their number.
    fn into_row(self, row: &mut [u32]) -> Result<Item, Refused> {
        let words = self.row.len();
        if words > ROW_WORDS || words > row.len() {
            return refused(Refusal::Room, words);
        }
        if let Some(front) = row.get_mut(..words) {
            front.copy_from_slice(&self.row);
        }
        Ok(Item { words, taken: self.place })
    }

    /// The next byte, or CUT.
    fn byte(&mut self) -> Result<u8, Refused> {
        match self.input.get(self.place) {
            Some(byte) => {
                self.place += 1;
                Ok(*byte)
            }
            None => refused(Refusal::Cut, self.input.len()),
        }
    }

    /// CODE at the byte just read.
    fn code<T>(&self) -> Result<T, Refused> {
        refused(Refusal::Code, self.place - 1)
    }

    /// NEWER at the byte just read, if the grade is below that of its form.
    fn needs_grade(&self, grade: u32) -> Result<(), Refused> {
        if self.grade < grade {
            return refused(Refusal::Newer, self.place - 1);
        }
        Ok(())
    }

    /// A byte that is 0..=last; else CODE.
    fn byte_up_to(&mut self, last: u8) -> Result<u8, Refused> {
        let byte = self.byte()?;
        if byte > last {
            return self.code();
        }
        Ok(byte)
    }

    /// A fixed byte; another is CODE.
    fn fixed(&mut self, fixed: u8) -> Result<(), Refused> {
        if self.byte()? != fixed {
            return self.code();
        }
        Ok(())
    }

    /// Adds a word to the row.
    fn word(&mut self, word: u32) {
        self.row.push(word);
    }

    /// The bytes of a number up to the first that doesn't carry on: CUT if the input ends before it, NUMBER if five
    /// carry on. Returns the last byte, and the seven bits of each byte together.
    fn number_bytes(&mut self) -> Result<(u8, u64), Refused> {
        let start = self.place;
        let mut bits = 0;
        for place in 0..5 {
            let byte = self.byte()?;
            bits |= u64::from(byte & 0x7f) << (7 * place);
            if byte < 0x80 {
                return Ok((byte, bits));
            }
        }
        refused(Refusal::Number, start)
    }

    /// An unsigned number, which may be padded (wish 4): NUMBER at its first byte if past 32 bits.
    fn number(&mut self) -> Result<u32, Refused> {
        let start = self.place;
        let (_, bits) = self.number_bytes()?;
        if bits > MOST {
            return refused(Refusal::Number, start);
        }
        self.numbers.push(start..self.place);
        Ok(bits as u32)
    }

    /// A count, length or index as a word of the row.
    fn number_word(&mut self) -> Result<(), Refused> {
        let number = self.number()?;
        self.word(number);
        Ok(())
    }

    /// The index of a many-byte V, which may be padded (wish 4): NUMBER at its first byte if past 32 bits or below 0. Its sign
    /// is bit 6 of the last byte; in five bytes that bit and the two before it are those past 32 bits.
    fn signed_index(&mut self) -> Result<u32, Refused> {
        let start = self.place;
        let (last, bits) = self.number_bytes()?;
        let below_zero = last & 0x40 != 0;
        if below_zero || bits > MOST {
            return refused(Refusal::Number, start);
        }
        self.numbers.push(start..self.place);
        Ok(bits as u32)
    }

    /// A name's place: the number of its length, then CUT before TEXT; TEXT is at its first content byte.
    fn name_place(&mut self) -> Result<(u32, u32), Refused> {
        let length = self.number()?;
        let start = self.place;
        let end = start + length as usize;
        let Some(name) = self.input.get(start..end) else {
            return refused(Refusal::Cut, self.input.len());
        };
        judge_text(name, start)?;
        self.place = end;
        Ok((start as u32, length))
    }

    /// N: a name as two words of the row, its place in the input.
    fn name(&mut self) -> Result<(), Refused> {
        let (start, length) = self.name_place()?;
        self.word(start);
        self.word(length);
        Ok(())
    }

    /// V: one byte 00..3f is an index, 73..7f and 64 a primitive; from 80 up a many-byte index; another is CODE.
    fn value_type(&mut self) -> Result<(), Refused> {
        let byte = self.byte()?;
        if byte >= 0x80 {
            self.place -= 1;
            let index = self.signed_index()?;
            self.word(1);
            self.word(index);
            return Ok(());
        }
        if byte <= 0x3f {
            self.numbers.push(self.place - 1..self.place);
            self.word(1);
            self.word(u32::from(byte));
            return Ok(());
        }
        self.word(0);
        self.primitive(byte)
    }

    /// p from its byte: 7f down to 73 are 0..12, 64 is 13 and of grade 2; another is CODE.
    fn primitive(&mut self, byte: u8) -> Result<(), Refused> {
        match byte {
            0x73..=0x7f => self.word(u32::from(0x7f - byte)),
            0x64 => {
                self.needs_grade(2)?;
                self.word(13);
            }
            _ => return self.code(),
        }
        Ok(())
    }

    /// O: 00 absent, 01 V.
    fn optional(&mut self) -> Result<(), Refused> {
        if self.byte_up_to(1)? == 1 {
            return self.value_type();
        }
        self.word(2);
        self.word(0);
        Ok(())
    }

    /// A function's result: 00 V, or 01 00 for absent.
    fn function_result(&mut self) -> Result<(), Refused> {
        if self.byte_up_to(1)? == 0 {
            return self.value_type();
        }
        self.fixed(0x00)?;
        self.word(2);
        self.word(0);
        Ok(())
    }

    /// n, and n entries of one form.
    fn list(&mut self, entry: fn(&mut Self) -> Result<(), Refused>) -> Result<(), Refused> {
        let count = self.number()?;
        self.word(count);
        for _ in 0..count {
            entry(self)?;
        }
        Ok(())
    }

    /// Two fields.
    fn two(
        &mut self,
        first: fn(&mut Self) -> Result<(), Refused>,
        second: fn(&mut Self) -> Result<(), Refused>,
    ) -> Result<(), Refused> {
        first(self)?;
        second(self)
    }

    /// (N,V): a record's field or a function's parameter.
    fn named_value(&mut self) -> Result<(), Refused> {
        self.two(Self::name, Self::value_type)
    }

    /// (N,O): a variant's case, which ends in 00.
    fn case(&mut self) -> Result<(), Refused> {
        self.two(Self::name, Self::optional)?;
        self.fixed(0x00)
    }

    /// Kinds 0..16 by their lead byte.
    fn any_type(&mut self) -> Result<(), Refused> {
        let lead = self.byte()?;
        let (kind, grade) = match lead {
            0x73..=0x7f => (0, 1),
            0x64 => (0, 2),
            0x72 => (1, 1),
            0x71 => (2, 1),
            0x70 => (3, 1),
            0x63 => (4, 3),
            0x67 => (5, 3),
            0x6f => (6, 1),
            0x6e => (7, 1),
            0x6d => (8, 1),
            0x6b => (9, 1),
            0x6a => (10, 1),
            0x69 => (11, 1),
            0x68 => (12, 1),
            0x65 => (13, 2),
            0x66 => (14, 2),
            0x40 => (15, 1),
            0x43 => (15, 2),
            0x3f => (16, 1),
            _ => return self.code(),
        };
        self.needs_grade(grade)?;
        self.word(kind);
        match kind {
            0 => self.primitive(lead),
            15 => self.function(lead),
            16 => self.resource(),
            _ => self.defined_type(kind),
        }
    }

    /// What follows the lead byte of kinds 1..14.
    fn defined_type(&mut self, kind: u32) -> Result<(), Refused> {
        match kind {
            1 => self.list(Self::named_value),
            2 => self.list(Self::case),
            3 | 9 => self.value_type(),
            4 => self.two(Self::value_type, Self::value_type),
            5 => self.two(Self::value_type, Self::number_word),
            6 => self.list(Self::value_type),
            7 | 8 => self.list(Self::name),
            10 => self.two(Self::optional, Self::optional),
            11 | 12 => self.number_word(),
            _ => self.optional(),
        }
    }

    /// Kind 15, function: a from the lead byte, n, n of (N,V), O.
    fn function(&mut self, lead: u8) -> Result<(), Refused> {
        self.word(if lead == 0x43 { 1 } else { 0 });
        self.list(Self::named_value)?;
        self.function_result()
    }

    /// Kind 16, resource: 7f or 7e; 00, or 01 and an index.
    fn resource(&mut self) -> Result<(), Refused> {
        match self.byte()? {
            0x7f => self.word(0),
            0x7e => self.word(1),
            _ => return self.code(),
        }
        let destructor = self.byte_up_to(1)?;
        self.word(u32::from(destructor));
        if destructor == 1 {
            return self.number_word();
        }
        self.word(0);
        Ok(())
    }

    /// Kind 17, import: lead 00, or 02 of grade 3; the name, the options, the reference.
    fn import(&mut self) -> Result<(), Refused> {
        let lead = self.byte()?;
        match lead {
            0x00 => {}
            0x02 => self.needs_grade(3)?,
            _ => return self.code(),
        }
        self.word(17);
        self.name()?;
        let mut options = [[0; 3]; 3];
        if lead == 0x02 {
            options = self.import_options()?;
        }
        self.row.extend_from_slice(&options.concat());
        self.reference()
    }

    /// An import's options as three of (present, N): the count is 1..3, each kind 00..02 and above the one before.
    fn import_options(&mut self) -> Result<[[u32; 3]; 3], Refused> {
        let count_place = self.place;
        let count = self.number()?;
        if !(1..=3).contains(&count) {
            return refused(Refusal::Code, count_place);
        }
        let mut options = [[0; 3]; 3];
        let mut lowest = 0;
        for _ in 0..count {
            let kind = self.byte_up_to(2)?;
            if kind < lowest {
                return self.code();
            }
            lowest = kind + 1;
            let (start, length) = self.name_place()?;
            if let Some(option) = options.get_mut(usize::from(kind)) {
                *option = [1, start, length];
            }
        }
        Ok(options)
    }

    /// An import's reference, three words.
    fn reference(&mut self) -> Result<(), Refused> {
        let sort = self.byte_up_to(5)?;
        self.word(u32::from(sort));
        if sort == 2 {
            return self.value_type();
        }
        if sort == 3 {
            return self.type_reference();
        }
        if sort == 0 {
            self.fixed(0x11)?;
        }
        self.number_word()?;
        self.word(0);
        Ok(())
    }

    /// The reference to a type: 00 and an index, or 01 for a fresh resource.
    fn type_reference(&mut self) -> Result<(), Refused> {
        let fresh = self.byte_up_to(1)?;
        self.word(u32::from(fresh));
        if fresh == 0 {
            return self.number_word();
        }
        self.word(0);
        Ok(())
    }
}

#[cfg(test)]
mod tests {
    use super::*;
    use crate::padded::in_five_bytes;

    /// "Bytes laid on the bench", the items that are written: family, row, pool, bytes.
    const BENCH: &[(u64, &[u32], &[u8], &[u8])] = &[
        // primitive string
        (7, &[0, 12], b"", &[0x73]),
        // list of index 115
        (7, &[3, 1, 115], b"", &[0x70, 0xf3, 0x00]),
        // own 115
        (7, &[11, 115], b"", &[0x69, 0x73]),
        // option of 63; of 64
        (7, &[9, 1, 63], b"", &[0x6b, 0x3f]),
        (7, &[9, 1, 64], b"", &[0x6b, 0xc0, 0x00]),
        // tuple of 4294967295
        (7, &[6, 1, 1, 4_294_967_295], b"", &[0x6f, 0x01, 0xff, 0xff, 0xff, 0xff, 0x0f]),
        // own 128
        (7, &[11, 128], b"", &[0x69, 0x80, 0x01]),
        // result, both absent
        (7, &[10, 2, 0, 2, 0], b"", &[0x6a, 0x00, 0x00]),
        // variant, case `a` empty
        (7, &[2, 1, 0, 1, 2, 0], b"a", &[0x71, 0x01, 0x01, 0x61, 0x00, 0x00]),
        // function, nothing at all
        (7, &[15, 0, 0, 2, 0], b"", &[0x40, 0x00, 0x01, 0x00]),
        // function a, b string to string
        (
            7,
            &[15, 0, 2, 0, 1, 0, 12, 1, 1, 0, 12, 0, 12],
            b"ab",
            &[0x40, 0x02, 0x01, 0x61, 0x73, 0x01, 0x62, 0x73, 0x00, 0x73],
        ),
        // import f, function 0
        (10, &[17, 0, 1, 0, 0, 0, 0, 0, 0, 0, 0, 0, 1, 0, 0], b"f", &[0x00, 0x01, 0x66, 0x01, 0x00]),
        // same, version suffix `1`
        (
            10,
            &[17, 0, 1, 0, 0, 0, 1, 1, 1, 0, 0, 0, 1, 0, 0],
            b"f1",
            &[0x02, 0x01, 0x66, 0x01, 0x01, 0x01, 0x31, 0x01, 0x00],
        ),
    ];

    /// Rows of instances, beside the pool `foo1`.
    const INSTANCE_ROWS: &[(u64, &[u32], &[u8])] = &[
        // module 1 with `foo`, instance 128; without arguments
        (2, &[18, 1, 1, 0, 3, 128], &[0x00, 0x01, 0x01, 0x03, 0x66, 0x6f, 0x6f, 0x12, 0x80, 0x01]),
        (2, &[18, 0, 0], &[0x00, 0x00, 0x00]),
        // component 300 with `foo`, module 7, and `1`, instance 0; without arguments
        (
            5,
            &[19, 300, 2, 0, 3, 0, 7, 3, 1, 5, 0],
            &[0x00, 0xac, 0x02, 0x02, 0x03, 0x66, 0x6f, 0x6f, 0x00, 0x11, 0x07, 0x01, 0x31, 0x05, 0x00],
        ),
        (5, &[19, 0, 0], &[0x00, 0x00, 0x00]),
        // `foo`, tag 115; nothing
        (2, &[20, 1, 0, 3, 4, 115], &[0x01, 0x01, 0x03, 0x66, 0x6f, 0x6f, 0x04, 0x73]),
        (2, &[20, 0], &[0x01, 0x00]),
        // `foo`, function 0; the same with version suffix `1`; nothing
        (5, &[21, 1, 0, 3, 0, 0, 0, 0, 0, 0, 0, 0, 0, 1, 0], &[0x01, 0x01, 0x00, 0x03, 0x66, 0x6f, 0x6f, 0x01, 0x00]),
        (
            5,
            &[21, 1, 0, 3, 0, 0, 0, 1, 3, 1, 0, 0, 0, 1, 0],
            &[0x01, 0x01, 0x02, 0x03, 0x66, 0x6f, 0x6f, 0x01, 0x01, 0x01, 0x31, 0x01, 0x00],
        ),
        (5, &[21, 0], &[0x01, 0x00]),
    ];

    /// A read item's row, written again beside the bytes taken.
    fn read_and_write(family: u64, input: &[u8]) -> Result<Vec<u8>, Refused> {
        let mut row = [0; 64];
        let item = match family {
            10 => read_import(input, 3, &mut row)?,
            _ => read_type(input, 3, &mut row)?,
        };
        write_row(family, &row[..item.words], &input[..item.taken])
    }

    #[test]
    fn bench_items_are_written() {
        for (family, row, pool, bytes) in BENCH {
            assert_eq!(write_row(*family, row, pool), Ok(bytes.to_vec()));
        }
    }

    #[test]
    fn instances_are_written() {
        for (family, row, bytes) in INSTANCE_ROWS {
            assert_eq!(write_row(*family, row, b"foo1"), Ok(bytes.to_vec()));
            assert_eq!(write_row(7 - *family, row, b"foo1"), refused(Refusal::Kind, 0));
            assert_eq!(write_row(7, row, b"foo1"), refused(Refusal::Kind, 0));
        }
    }

    #[test]
    fn instances_are_refused() {
        let plain = [21, 1, 0, 3, 0, 0, 0, 0, 0, 0, 0, 0, 0, 1, 0];
        let with = |place: usize, word: u32| {
            let mut row = plain.to_vec();
            row[place] = word;
            row
        };
        let refusals = [
            // A kind and sorts past their lists.
            (2, vec![20, 1, 0, 3, 5, 0], Refusal::Tag, 4),
            (5, vec![19, 0, 1, 0, 3, 6, 0], Refusal::Tag, 5),
            (5, with(13, 6), Refusal::Tag, 13),
            // Options: a flag, and the unused words of an absent one.
            (5, with(4, 2), Refusal::Tag, 4),
            (5, with(8, 1), Refusal::Tag, 8),
            (5, with(12, 1), Refusal::Tag, 12),
            // Names past the pool.
            (2, vec![18, 0, 1, 2, 3, 0], Refusal::Range, 3),
            (5, with(3, 5), Refusal::Range, 2),
            // Rows that are not as long as their count needs.
            (2, vec![18, 0], Refusal::Row, 0),
            (2, vec![18, 0, 1, 0, 3], Refusal::Row, 0),
            (5, vec![19, 0, 1, 0, 3, 0], Refusal::Row, 0),
            (2, vec![20, 2, 0, 3, 0, 0], Refusal::Row, 0),
            (5, with(1, 2), Refusal::Row, 0),
        ];
        for (family, row, why, value) in refusals {
            assert_eq!(write_row(family, &row, b"foo1"), refused(why, value), "{row:?}");
        }
    }

    #[test]
    fn nothing_is_open_in_a_section_of_instances() {
        for family in [2, 5] {
            let mut body = [0; 16];
            let mut section = Section::new(family);
            let refused = |why: Refusal| refused(why, 0);
            assert_eq!(section.open(&mut body), refused(Refusal::Kind));
            assert_eq!(section.head(&[1, 0], &[], &mut body), refused(Refusal::Order));
            assert_eq!(section.result(2, 0, &mut body), refused(Refusal::Order));
            assert_eq!(section.abandon(&mut body), refused(Refusal::Order));
            assert_eq!(section.state(), [family, 0, 0, 0, 0]);
            section.count = MOST;
            assert_eq!(section.open(&mut body), refused(Refusal::Count));
            section.phase = OPENED;
            assert_eq!(section.open(&mut body), refused(Refusal::Limit));
        }
    }

    #[test]
    fn sheets_of_instances() {
        let word = |number: u32| number.to_be_bytes();
        let sheet_of = |rows: &[&[u32]]| {
            let words = rows.iter().flat_map(|row| std::iter::once(row.len() as u32).chain(row.iter().copied()));
            [&[1, 0, 0, 0, 0][..], &words.flat_map(word).collect::<Vec<u8>>()].concat()
        };
        for (row, other, section) in [
            (&[18, 0, 0][..], &[20, 0][..], [2, 6, 2, 0, 0, 0, 1, 0]),
            (&[19, 0, 0], &[21, 0], [5, 6, 2, 0, 0, 0, 1, 0]),
        ] {
            let (mut body, mut out) = ([0; 8], [0; 8]);
            assert_eq!(sheet(&sheet_of(&[row, other]), &mut body, &mut out), Ok(8));
            assert_eq!(out, section);
        }
        let mixed = sheet_of(&[&[18, 0, 0], &[19, 0, 0]]);
        assert_eq!(sheet(&mixed, &mut [0; 8], &mut [0; 8]), refused(Refusal::Kind, 1));
    }

    #[test]
    fn bench_items_are_read_and_written_again() {
        for (family, _, _, bytes) in BENCH {
            let mut longer = bytes.to_vec();
            longer.push(0x80);
            assert_eq!(read_and_write(*family, &longer), Ok(bytes.to_vec()));
            let padded = in_five_bytes(*family == 10, bytes);
            assert_eq!(read_and_write(*family, &padded), Ok(bytes.to_vec()));
        }
    }

    #[test]
    fn bench_readings() {
        let mut row = [0; 64];
        // record x error-context, read at grade 1
        assert_eq!(read_type(&[0x72, 0x01, 0x01, 0x78, 0x64], 1, &mut row), refused(Refusal::Newer, 4));
        // map string to u32, read at grade 2
        assert_eq!(read_type(&[0x63, 0x73, 0x79], 2, &mut row), refused(Refusal::Newer, 0));
        // import lead 01
        assert_eq!(read_import(&[0x01, 0x01, 0x66, 0x01, 0x00], 3, &mut row), refused(Refusal::Code, 0));
        assert_eq!(row, [0; 64]);
        // own 0 as 69 80 00, which wish 4 allows
        assert_eq!(read_type(&[0x69, 0x80, 0x00], 3, &mut row), Ok(Item { words: 2, taken: 3 }));
        assert_eq!(row[..2], [11, 0]);
    }

    #[test]
    fn whole_case_of_the_sheet() {
        let input = [0x01, 0, 0, 0, 0, 0, 0, 0, 2, 0, 0, 0, 0, 0, 0, 0, 0x0c];
        let mut body = [0xa5; 3];
        let mut out = [0x5a; 6];
        assert_eq!(sheet(&input, &mut body, &mut out), Ok(4));
        assert_eq!(body, [0x73, 0xa5, 0xa5]);
        assert_eq!(out, [0x07, 0x02, 0x01, 0x73, 0x5a, 0x5a]);
        assert_eq!(sheet(&input, &mut [], &mut out), refused(Refusal::Room, 0));
        assert_eq!(sheet(&input, &mut body, &mut [0; 3]), refused(Refusal::Room, 1));
    }

    #[test]
    fn numbers_end_before_they_are_judged() {
        let mut row = [0; 8];
        assert_eq!(read_type(&[0x69, 0xff, 0xff, 0xff, 0xff], 1, &mut row), refused(Refusal::Cut, 5));
        assert_eq!(read_type(&[0x69, 0xff, 0xff, 0xff, 0xff, 0x80], 1, &mut row), refused(Refusal::Number, 1));
        assert_eq!(read_type(&[0x69, 0xff, 0xff, 0xff, 0xff, 0x1f], 1, &mut row), refused(Refusal::Number, 1));
        assert_eq!(read_type(&[0x70, 0xff, 0x7f], 1, &mut row), refused(Refusal::Number, 1));
        assert_eq!(read_type(&[0x70, 0xff, 0xff, 0xff, 0xff, 0x1f], 1, &mut row), refused(Refusal::Number, 1));
        assert_eq!(read_type(&[0x70, 0xff, 0xff, 0xff, 0xff, 0x7f], 1, &mut row), refused(Refusal::Number, 1));
        assert_eq!(read_type(&[0x70, 0x80, 0x80, 0x80, 0x80, 0x80, 0x00], 1, &mut row), refused(Refusal::Number, 1));
        assert_eq!(read_type(&[0x6d, 0x01, 0x02, 0xff], 1, &mut row), refused(Refusal::Cut, 4));
        assert_eq!(read_type(&[0x6d, 0x01, 0x01, 0xff], 1, &mut row), refused(Refusal::Text, 3));
    }

    /// Bytes that are no UTF-8, and the byte at which that is seen.
    const STOPS: &[(&[u8], u32)] = &[
        // Nothing begins so; an overlong form, a surrogate and a number past 10ffff are seen at their second byte.
        (b"\x80", 0),
        (b"ab\xff", 2),
        (b"\xc0\x80", 0),
        (b"\xe0\x9f\xbf", 1),
        (b"a\xed\xa0\x80", 2),
        (b"\xf4\x90\x80\x80", 1),
        (b"\xf5\x80\x80\x80", 0),
        // A second, third and fourth byte that does not go on.
        (b"\xc3a", 1),
        (b"\xe2\x82\xc2\x80", 2),
        (b"\xf0\x9f\x98a", 3),
        // The name ends early.
        (b"\xc3", 1),
        (b"abc\xe2\x82", 5),
        (b"\xf0\x9f\x98", 3),
    ];

    #[test]
    fn names_stop_at_a_byte() {
        for (name, byte) in STOPS {
            let text = |value: u64| Refused { why: Refusal::Text, value, also: *byte };
            let length = name.len() as u32;
            assert_eq!(write_row(7, &[7, 2, 0, 0, 0, length], name), Err(text(4)));
            let mut section = Section::from_state([7, 0, 1, OPENED, 0]);
            assert_eq!(section.head(&[1, 1, 0, length, 0, 12], name, &mut []), Err(text(2)));
            let rows = [0u32, 2, 0, 12, 4, 7, 1, 0, length].map(u32::to_be_bytes).concat();
            let in_sheet = [&[1, 0, 0, 0, length as u8], *name, &rows[4..]].concat();
            assert_eq!(sheet(&in_sheet, &mut [0; 1], &mut []), Err(text(1)));
            let input = [&[0x6d, 0x01, length as u8], *name].concat();
            assert_eq!(read_type(&input, 1, &mut []), Err(text(3)));
            let import = [&[0x00, length as u8], *name].concat();
            assert_eq!(read_import(&import, 1, &mut []), Err(text(2)));
        }
    }

    #[test]
    fn a_long_item_gets_room() {
        let mut input = vec![0x6f, 0x80, 0x40];
        input.resize(3 + 8192, 0x7f);
        assert_eq!(read_type(&input, 1, &mut [0; 20_000]), refused(Refusal::Room, 16_386));
        input[1..3].copy_from_slice(&[0xff, 0x3f]);
        assert_eq!(read_type(&input, 1, &mut [0; 20_000]), Ok(Item { words: 16_384, taken: 8_194 }));
        assert_eq!(read_type(&input, 1, &mut [0; 16_383]), refused(Refusal::Room, 16_384));
    }

    #[test]
    fn a_function_in_steps() {
        let mut body = [0; 16];
        let mut section = Section::new(7);
        assert_eq!(section.open(&mut body), Ok(0));
        assert_eq!(section.result(2, 0, &mut body), refused(Refusal::Order, 0));
        assert_eq!(section.head(&[2, 1, 0, 1, 0, 12], b"a", &mut body), refused(Refusal::Tag, 0));
        assert_eq!(section.head(&[0, 1, 0, 1, 2, 12], b"a", &mut body), refused(Refusal::Tag, 4));
        for words in [&[][..], &[0], &[2], &[0, 0, 0], &[2, 1, 0, 1, 0], &[0, 0, 0, 1, 0, 12], &[0, 1 << 30]] {
            assert_eq!(section.head(words, b"a", &mut body), refused(Refusal::Row, 0));
        }
        assert_eq!(section.head(&[0, 1, 0, 1, 0, 12], b"a", &mut body), Ok(5));
        assert_eq!(section.state(), [7, 5, 1, 2, 0]);
        assert_eq!(section.head(&[0, 0], b"a", &mut body), refused(Refusal::Order, 0));
        assert_eq!(section.result(2, 1, &mut body), refused(Refusal::Tag, 1));
        assert_eq!(section.result(2, 0, &mut body), Ok(2));
        assert_eq!(section.open(&mut body), Ok(0));
        assert_eq!(section.state(), [7, 7, 2, 1, 7]);
        assert_eq!(section.head(&[1, 0], &[], &mut body), Ok(2));
        assert_eq!(section.abandon(&mut body), Ok(0));
        let mut out = [0; 10];
        assert_eq!(section.finish(&body, &mut out), Ok(10));
        assert_eq!(out, [0x07, 0x08, 0x01, 0x40, 0x01, 0x01, 0x61, 0x73, 0x01, 0x00]);
    }
}
