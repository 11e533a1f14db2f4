//! A small deterministic random generator, and the random numbers, names and valid rows that are made with it.

/// Every kind of document 01: 0..=21, then 256 + lead for each canonical lead.
pub const KINDS: &[u32] = &[
    0, 1, 2, 3, 4, 5, 6, 7, 8, 9, 10, 11, 12, 13, 14, 15, 16, 17, // types and import
    18, 19, 20, 21, // instances
    0x100, 0x101, 0x102, 0x103, 0x104, 0x105, 0x106, 0x10a, 0x10b, 0x10c, 0x10d, 0x10e, 0x10f, // canonicals
    0x111, 0x112, 0x113, 0x114, 0x115, 0x116, 0x118, 0x119, 0x11a, 0x11b, 0x11e, 0x11f, //
    0x120, 0x121, 0x122, 0x123, 0x124, 0x125, 0x126, 0x127, 0x129, 0x12a, 0x12b, 0x12c, 0x12d, 0x12e, 0x12f, //
    0x140, 0x141,
];

/// Numbers at which an encoding, a limit or a list changes; their neighbours are as good.
const BOUNDARIES: [u32; 17] =
    [0, 1, 13, 63, 64, 115, 127, 128, 8191, 8192, 16_383, 16_384, 65_536, 1 << 21, 1 << 28, 1 << 31, u32::MAX];

/// First and last characters of each length in UTF-8, and those beside the surrogates.
const CHARACTERS: [char; 12] = [
    '\0',
    'a',
    '\u{7f}',
    '\u{80}',
    'é',
    '\u{7ff}',
    '\u{800}',
    '\u{d7ff}',
    '\u{e000}',
    '\u{ffff}',
    '\u{10000}',
    '\u{10ffff}',
];

/// Bytes that are not UTF-8: stray, overlong, surrogate, too large, and cut off.
const NOT_TEXT: [&[u8]; 14] = [
    &[0x80],
    &[0xbf],
    &[0xc0, 0x80],
    &[0xc1, 0xbf],
    &[0xe0, 0x9f, 0xbf],
    &[0xed, 0xa0, 0x80],
    &[0xed, 0xbf, 0xbf],
    &[0xf0, 0x8f, 0xbf, 0xbf],
    &[0xf4, 0x90, 0x80, 0x80],
    &[0xf5, 0x80, 0x80, 0x80],
    &[0xff],
    &[0xc3],
    &[0xe2, 0x82],
    &[0xf0, 0x9f, 0x98],
];

/// The most words of a row and the most bytes of a pool.
const ROW_WORDS: usize = 16_384;
pub const POOL_BYTES: usize = 65_536;

/// The generator (splitmix64): the same seed gives the same numbers.
#[derive(Clone, Debug)]
pub struct Random {
    state: u64,
}

impl Random {
    /// A generator with a seed; any seed is good.
    pub fn new(seed: u64) -> Random {
        Random { state: seed }
    }

    /// The next 64 random bits.
    pub fn bits(&mut self) -> u64 {
        self.state = self.state.wrapping_add(0x9e37_79b9_7f4a_7c15);
        let mut z = self.state;
        z = (z ^ (z >> 30)).wrapping_mul(0xbf58_476d_1ce4_e5b9);
        z = (z ^ (z >> 27)).wrapping_mul(0x94d0_49bb_1331_11eb);
        z ^ (z >> 31)
    }

    /// A number below `end`; 0 if `end` is 0.
    pub fn below(&mut self, end: usize) -> usize {
        ((u128::from(self.bits()) * end as u128) >> 64) as usize
    }

    /// True once in `n` times.
    pub fn one_in(&mut self, n: usize) -> bool {
        self.below(n) == 0
    }

    /// One of a list, which must have an entry.
    pub fn pick<'a, T>(&mut self, list: &'a [T]) -> &'a T {
        &list[self.below(list.len())]
    }

    /// A number at which something changes, or a neighbour of one.
    pub fn boundary(&mut self) -> u32 {
        let number = *self.pick(&BOUNDARIES);
        match self.below(4) {
            0 => number.wrapping_sub(1),
            1 => number.wrapping_add(1),
            _ => number,
        }
    }

    /// Any 32-bit number: small ones, boundaries, and every size between.
    pub fn number(&mut self) -> u32 {
        match self.below(4) {
            0 => self.below(8) as u32,
            1 | 2 => self.boundary(),
            _ => self.bits() as u32 >> self.below(32),
        }
    }

    /// Any 64-bit number, mostly small or at the ends of 32 and 64 bits.
    pub fn wide_number(&mut self) -> u64 {
        match self.below(8) {
            0 => u64::MAX - self.below(3) as u64,
            1 => (1 << 32) - 2 + self.below(4) as u64,
            2 => 1 << self.below(64),
            3 => u64::from(self.boundary()),
            _ => self.below(16) as u64,
        }
    }

    /// Random bytes, as many as said.
    pub fn bytes(&mut self, count: usize) -> Vec<u8> {
        (0..count).map(|_| self.bits() as u8).collect()
    }

    /// A character of any length in UTF-8.
    fn character(&mut self) -> char {
        match self.below(3) {
            0 => *self.pick(&CHARACTERS),
            1 => char::from(b' ' + self.below(95) as u8),
            _ => char::from_u32(self.below(0x11_0000) as u32).unwrap_or('\u{fffd}'),
        }
    }

    /// A name in UTF-8: empty, ASCII or of any characters; mostly short, sometimes about 128 or 16,384 bytes.
    pub fn name(&mut self) -> Vec<u8> {
        let mut name = String::new();
        match self.below(8) {
            0 => {}
            1..=4 => (0..=self.below(6)).for_each(|_| name.push(char::from(b'a' + self.below(26) as u8))),
            _ => (0..=self.below(4)).for_each(|_| name.push(self.character())),
        }
        if self.one_in(64) {
            let length = if self.one_in(32) { 16_382 } else { 125 } + self.below(5);
            while name.len() < length {
                name.push('n');
            }
        }
        name.into_bytes()
    }

    /// A name that is sometimes not UTF-8.
    pub fn any_name(&mut self) -> Vec<u8> {
        let mut name = self.name();
        if self.one_in(4) {
            let place = self.below(name.len() + 1);
            let wrong = *self.pick(&NOT_TEXT);
            name.splice(place..place, wrong.iter().copied());
        }
        name
    }

    /// A byte that may go on in a sequence of UTF-8.
    fn going_on(&mut self) -> u8 {
        0x80 + self.below(0x40) as u8
    }

    /// Bytes of which no sequence of UTF-8 is made: stray, overlong, surrogate, too large, cut off, or with another byte than may
    /// go on.
    fn wrong_sequence(&mut self) -> Vec<u8> {
        let tail = [self.going_on(), self.going_on(), self.going_on()];
        let front = match self.below(9) {
            0 => return vec![self.going_on()],
            1 => vec![0xc0 + self.below(2) as u8],
            2 => vec![0xe0, 0x80 + self.below(0x20) as u8],
            3 => vec![0xf0, 0x80 + self.below(0x10) as u8],
            4 => vec![0xed, 0xa0 + self.below(0x20) as u8],
            5 => vec![0xf4, 0x90 + self.below(0x30) as u8],
            6 => vec![0xf5 + self.below(11) as u8],
            kind => return self.spoilt_character(kind == 7),
        };
        let size = front.len() + self.below(4);
        [front, tail.to_vec()].concat()[..size].to_vec()
    }

    /// A character of several bytes without its end, or with another byte in the place of one that goes on.
    fn spoilt_character(&mut self, cut: bool) -> Vec<u8> {
        let letter = loop {
            let letter = self.character();
            if letter.len_utf8() > 1 {
                break letter;
            }
        };
        let mut bytes = letter.to_string().into_bytes();
        let place = 1 + self.below(bytes.len() - 1);
        match cut {
            true => bytes.truncate(place),
            false => bytes[place] = *self.pick(&[0x00, 0x41, 0x7f, 0x80, 0xbf, 0xc0, 0xc2, 0xe1, 0xf0, 0xff]),
        }
        bytes
    }

    /// Text for a name's front or back: letters in runs and characters; seldom long.
    fn text(&mut self) -> Vec<u8> {
        let mut text = String::new();
        for _ in 0..self.below(5) {
            match self.below(2) {
                0 => (0..self.below(20)).for_each(|_| text.push(char::from(b'a' + self.below(26) as u8))),
                _ => text.push(self.character()),
            }
        }
        let more = match self.below(4096) {
            0 => self.below(30_000),
            1..=64 => self.below(400),
            _ => 0,
        };
        (0..more).for_each(|_| text.push('n'));
        text.into_bytes()
    }

    /// A name that is mostly not UTF-8, for what stands in its middle or at its end.
    pub fn damaged_name(&mut self) -> Vec<u8> {
        let mut name = self.text();
        name.extend(self.wrong_sequence());
        if self.one_in(2) {
            name.extend(self.text());
        }
        name
    }

    /// How many entries: mostly few, sometimes up to 200, seldom up to `most`.
    fn entries(&mut self, most: usize) -> usize {
        if self.one_in(4096) {
            let fewer = if self.one_in(2) { 3 } else { most };
            return most - self.below(fewer);
        }
        if self.one_in(64) {
            return self.below(200);
        }
        self.below(4)
    }
}

/// A random row of a kind, valid beside the pool as it is afterwards: a fresh section of the kind's family takes it,
/// given room.
///
/// New names are appended to the pool, others are found in what it has, so rows made one after another with the same
/// pool are all valid beside it at the end. The pool must not be longer than 65,536 bytes and never gets longer than
/// that; what stands in it beforehand may be any bytes. Rows are mostly of few entries, seldom as long as a row may be.
/// A kind that is not of `KINDS` gives a row of that word alone.
pub fn valid_row(rng: &mut Random, kind: u32, pool: &mut Vec<u8>) -> Vec<u32> {
    row_of(kind, &mut Edges { rng, pool })
}

/// A row of a kind that is valid but for its names, of which some are not UTF-8.
pub fn row_of_damaged_names(rng: &mut Random, kind: u32, pool: &mut Vec<u8>) -> Vec<u32> {
    row_of(kind, &mut DamagedNames(Edges { rng, pool }))
}

/// A row of a kind, made of this material. A kind that is not of `KINDS` gives a row of that word alone.
pub fn row_of(kind: u32, material: &mut impl Material) -> Vec<u32> {
    let mut maker = RowMaker { material, words: vec![kind] };
    match kind {
        0..=14 => maker.defined_type(kind),
        15 => {
            maker.up_to(1);
            maker.list(5, 4, RowMaker::named_value);
            maker.optional();
        }
        16 => {
            maker.up_to(1);
            match maker.up_to(1) {
                0 => maker.words.push(0),
                _ => maker.number(),
            }
        }
        17 => maker.import(),
        18..=21 => maker.instance(kind),
        _ => maker.canonical(kind),
    }
    maker.words
}

/// What rows are made of.
pub trait Material {
    /// What the choices between forms are made with.
    fn random(&mut self) -> &mut Random;

    /// A count, length or index.
    fn number(&mut self) -> u32;

    /// How many entries a list has, at most so many.
    fn entries(&mut self, most: usize) -> usize;

    /// A name: its start and length in the pool.
    fn name(&mut self) -> [u32; 2];

    /// Whether a name has an option.
    fn has_option(&mut self) -> bool {
        self.random().below(2) == 1
    }
}

/// Material at which an encoding, a limit or a list changes.
struct Edges<'a> {
    rng: &'a mut Random,
    pool: &'a mut Vec<u8>,
}

impl Material for Edges<'_> {
    fn random(&mut self) -> &mut Random {
        self.rng
    }

    fn number(&mut self) -> u32 {
        self.rng.number()
    }

    fn entries(&mut self, most: usize) -> usize {
        self.rng.entries(most)
    }

    /// A name appended to the pool, or one found in it.
    fn name(&mut self) -> [u32; 2] {
        let name = self.rng.name();
        if self.rng.one_in(4) || self.pool.len() + name.len() > POOL_BYTES {
            return self.found_name();
        }
        let start = self.pool.len();
        self.pool.extend_from_slice(&name);
        [start as u32, name.len() as u32]
    }
}

impl Edges<'_> {
    /// A part of the pool that is UTF-8, empty if the part that was tried is not.
    fn found_name(&mut self) -> [u32; 2] {
        let start = self.rng.below(self.pool.len() + 1);
        let rest = self.pool.len() - start;
        let length = if self.rng.one_in(64) { rest } else { self.rng.below(rest.min(12) + 1) };
        let length = match std::str::from_utf8(&self.pool[start..start + length]) {
            Ok(_) => length,
            Err(fault) => fault.valid_up_to(),
        };
        [start as u32, length as u32]
    }
}

/// The same material with damaged names among the others.
struct DamagedNames<'a>(Edges<'a>);

impl Material for DamagedNames<'_> {
    fn random(&mut self) -> &mut Random {
        self.0.rng
    }

    fn number(&mut self) -> u32 {
        self.0.number()
    }

    /// At least one, if that is not too many.
    fn entries(&mut self, most: usize) -> usize {
        self.0.entries(most).max(most.min(1))
    }

    /// A name as it is, or without its first or last byte, which may be a character's; or a damaged one, appended to the pool.
    fn name(&mut self) -> [u32; 2] {
        let [start, length] = self.0.name();
        let Edges { rng, pool } = &mut self.0;
        match rng.below(6) {
            0 | 1 => [start, length],
            2 if length > 0 => [start, length - 1],
            3 if length > 0 => [start + 1, length - 1],
            _ => {
                let name = rng.damaged_name();
                if pool.len() + name.len() > POOL_BYTES {
                    return [start, length];
                }
                let start = pool.len();
                pool.extend_from_slice(&name);
                [start as u32, name.len() as u32]
            }
        }
    }
}

/// A row being made.
struct RowMaker<'a, M> {
    material: &'a mut M,
    words: Vec<u32>,
}

impl<M: Material> RowMaker<'_, M> {
    /// A count, length or index.
    fn number(&mut self) {
        let number = self.material.number();
        self.words.push(number);
    }

    /// One of 0..=last.
    fn up_to(&mut self, last: u32) -> u32 {
        let word = self.material.random().below(last as usize + 1) as u32;
        self.words.push(word);
        word
    }

    /// N.
    fn name(&mut self) {
        let name = self.material.name();
        self.words.extend(name);
    }

    /// V: a primitive or an index.
    fn value_type(&mut self) {
        match self.up_to(1) {
            0 => {
                self.up_to(13);
            }
            _ => self.number(),
        }
    }

    /// O: a V or absent.
    fn optional(&mut self) {
        if self.material.random().one_in(3) {
            self.words.extend([2, 0]);
        } else {
            self.value_type();
        }
    }

    /// n and its entries; `others` are the row's words that are no entry's, `size` the words of one.
    fn list(&mut self, others: usize, size: usize, entry: fn(&mut Self)) {
        let count = self.material.entries((ROW_WORDS - others) / size);
        self.words.push(count as u32);
        for _ in 0..count {
            entry(self);
        }
    }

    /// (N,V).
    fn named_value(&mut self) {
        self.name();
        self.value_type();
    }

    /// (N,O).
    fn case(&mut self) {
        self.name();
        self.optional();
    }

    /// The words after the kind of kinds 0..14.
    fn defined_type(&mut self, kind: u32) {
        match kind {
            0 => {
                self.up_to(13);
            }
            1 => self.list(2, 4, Self::named_value),
            2 => self.list(2, 4, Self::case),
            3 | 9 => self.value_type(),
            4 => {
                self.value_type();
                self.value_type();
            }
            5 => {
                self.value_type();
                self.number();
            }
            6 => self.list(2, 2, Self::value_type),
            7 | 8 => self.list(2, 2, Self::name),
            10 => {
                self.optional();
                self.optional();
            }
            11 | 12 => self.number(),
            _ => self.optional(),
        }
    }

    /// N and its three options.
    fn extern_name(&mut self) {
        self.name();
        for _ in 0..3 {
            if self.material.has_option() {
                self.words.push(1);
                self.name();
            } else {
                self.words.extend([0, 0, 0]);
            }
        }
    }

    /// The words after the kind of an import.
    fn import(&mut self) {
        self.extern_name();
        match self.up_to(5) {
            2 => self.value_type(),
            3 => match self.up_to(1) {
                0 => self.number(),
                _ => self.words.push(0),
            },
            _ => {
                self.number();
                self.words.push(0);
            }
        }
    }

    /// (N,instance): an argument of a core instantiation.
    fn core_argument(&mut self) {
        self.name();
        self.number();
    }

    /// (N,sort,index): an argument of a component instantiation.
    fn argument(&mut self) {
        self.name();
        self.up_to(5);
        self.number();
    }

    /// (N,kind,index): a core item.
    fn core_item(&mut self) {
        self.name();
        self.up_to(4);
        self.number();
    }

    /// N with its options, sort and index: a component item.
    fn item(&mut self) {
        self.extern_name();
        self.up_to(5);
        self.number();
    }

    /// The words after the kind of kinds 18..21.
    fn instance(&mut self, kind: u32) {
        match kind {
            18 => {
                self.number();
                self.list(3, 3, Self::core_argument);
            }
            19 => {
                self.number();
                self.list(3, 4, Self::argument);
            }
            20 => self.list(2, 4, Self::core_item),
            _ => self.list(2, 13, Self::item),
        }
    }

    /// (k,x): a canonical's option.
    fn canonical_option(&mut self) {
        match self.up_to(9) {
            3 | 4 | 5 | 7 | 8 => self.number(),
            _ => self.words.push(0),
        }
    }

    /// The words after the kind of a canonical.
    fn canonical(&mut self, kind: u32) {
        match kind.wrapping_sub(256) {
            0x02 | 0x03 | 0x04 | 0x40 | 0x0e | 0x13 | 0x14 | 0x15 | 0x1a | 0x1b | 0x2e | 0x2f | 0x20 | 0x21 => {
                self.number()
            }
            0x41 | 0x27 => {
                self.number();
                self.number();
            }
            0x06 => {
                self.up_to(1);
            }
            0x11 | 0x12 | 0x18 | 0x19 => {
                self.number();
                self.up_to(1);
            }
            0x0a | 0x0b => {
                self.up_to(1);
                self.number();
            }
            0x0f | 0x16 | 0x01 => {
                self.number();
                self.list(3, 2, Self::canonical_option);
            }
            0x00 => {
                self.number();
                self.number();
                self.list(4, 2, Self::canonical_option);
            }
            _ => {}
        }
    }
}

#[cfg(test)]
mod tests {
    use super::*;
    use crate::model::write_row;

    #[test]
    fn valid_rows_are_taken() {
        let mut rng = Random::new(1);
        for round in 0..3000 {
            let mut pool = if round % 50 == 0 { rng.bytes(65_000) } else { Vec::new() };
            for kind in KINDS {
                let row = valid_row(&mut rng, *kind, &mut pool);
                let family = match kind {
                    0..=16 => 7,
                    17 => 10,
                    18 | 20 => 2,
                    19 | 21 => 5,
                    _ => 8,
                };
                assert!(write_row(family, &row, &pool).is_ok(), "{row:?}");
            }
            assert!(pool.len() <= POOL_BYTES);
        }
    }

    #[test]
    fn every_lead_has_its_kind() {
        assert_eq!(KINDS.iter().filter(|kind| **kind >= 256).count(), 42);
        assert!(KINDS.windows(2).all(|pair| pair[0] < pair[1]));
    }
}
