//! Runs with damaged input: the library beside the model, every reply, byte, word and state field compared.

use crate::input::{family_of, frame};
use crate::model;
use crate::padded;
use crate::random::{row_of_damaged_names, valid_row, Random, KINDS};
use crate::report::{Difference, Table};
use crate::tbaunarith::{self, Item, Refusal, Refused};
use std::collections::BTreeMap;
use std::fmt;

/// The names of document 01's numbers.
const NAMES: [&str; 16] = [
    "OK", "LIMIT", "KIND", "ROW", "TAG", "RANGE", "TEXT", "TOO_BIG", "ROOM", "ORDER", "COUNT", "CUT", "CODE", "NUMBER",
    "NEWER", "SHEET",
];

/// How often each of document 01's numbers was the answer, by call.
#[derive(Clone, Debug, Default, PartialEq, Eq)]
pub struct Tally {
    answers: BTreeMap<&'static str, [u64; 16]>,
}

impl Tally {
    /// Counts an answer of a call.
    fn add<T>(&mut self, call: &'static str, answer: &Result<T, Refused>) {
        let number = match answer {
            Ok(_) => 0,
            Err(refusal) => refusal.why as usize,
        };
        self.answers.entry(call).or_default()[number] += 1;
    }

    /// How many answers there were.
    pub fn total(&self) -> u64 {
        self.answers.values().flatten().sum()
    }

    /// How often a call got a number of document 01.
    pub fn count(&self, call: &str, number: usize) -> u64 {
        self.answers.get(call).and_then(|counts| counts.get(number)).copied().unwrap_or(0)
    }
}

impl fmt::Display for Tally {
    /// One line for each call.
    fn fmt(&self, f: &mut fmt::Formatter) -> fmt::Result {
        for (call, counts) in &self.answers {
            write!(f, "{call} {}:", counts.iter().sum::<u64>())?;
            for (name, count) in NAMES.iter().zip(counts).filter(|(_, count)| **count > 0) {
                write!(f, " {name} {count}")?;
            }
            writeln!(f)?;
        }
        Ok(())
    }
}

/// A run, its title, and how it is made from a seed.
type Run = (&'static str, fn(u64) -> Result<Tally, String>);

/// The runs of a comparison; damaged inputs a million times each.
const RUNS: &[Run] = &[
    ("damaged sheets", |seed| sheets(&mut Random::new(seed), 1_000_000)),
    ("damaged encodings of types and imports", |seed| readings(&mut Random::new(seed), 1_000_000)),
    ("every input of up to two bytes, ends of numbers", |_| short_inputs()),
    ("inputs of about 1 GiB", |_| long_inputs()),
    ("calls in damaged sequences of steps", |seed| steps(&mut Random::new(seed), 250_000)),
    ("a call on every state of small numbers", |_| small_states()),
    ("every head of up to six small words, in each phase", |_| small_heads()),
    ("small rows of every kind, ends of UTF-8's ranges", |_| small_rows()),
    ("rows and pools at their limits", |_| largest_rows()),
    ("sections of about 4 GiB", |_| wide_sections()),
];

/// Compares the library with the model on damaged input and at the limits.
pub fn compare(table: &mut Table) -> Result<(), Difference> {
    for (title, run) in RUNS {
        let tally = run(1).map_err(Difference::from)?;
        table.add(title, "model", tally.total());
    }
    Ok(())
}

// What buffers hold before a call, so that a byte written or left out by mistake is seen.

/// Bytes lent to be written.
fn lent_bytes(room: usize) -> Vec<u8> {
    (0..room).map(|place| (place as u8).wrapping_mul(29) ^ 0xa5).collect()
}

/// Words lent to be written.
fn lent_words(room: usize) -> Vec<u32> {
    (0..room).map(|place| (place as u32).wrapping_mul(0x9e37_79b1) ^ 0xa5a5_5a5a).collect()
}

/// A room from nothing to more than enough.
pub(crate) fn some_room(rng: &mut Random, needed: usize) -> usize {
    match rng.below(12) {
        0 => 0,
        1 => needed.saturating_sub(1),
        2 => rng.below(needed + 1),
        3 | 4 => needed,
        _ => needed + rng.below(24),
    }
}

/// Bytes in hexadecimal; the middle of a very long list is left out.
fn hex(bytes: &[u8]) -> String {
    if bytes.len() > 2000 {
        let (front, back) = (&bytes[..1000], &bytes[bytes.len() - 200..]);
        return format!("{}..{} ({} bytes)", hex(front), hex(back), bytes.len());
    }
    bytes.iter().map(|byte| format!("{byte:02x}")).collect()
}

/// Both answers and where the buffers first differ. None: no difference.
fn difference<A: PartialEq + fmt::Debug, T: PartialEq + fmt::Debug>(
    model: &A,
    library: &A,
    buffers: &[(&str, &[T], &[T])],
) -> Option<String> {
    let mut text = String::new();
    if model != library {
        text += &format!("\n  model:   {model:?}\n  library: {library:?}");
    }
    for (name, of_model, of_library) in buffers {
        if of_model != of_library {
            let place = of_model.iter().zip(*of_library).position(|(a, b)| a != b);
            let place = place.unwrap_or(of_model.len().min(of_library.len()));
            let (a, b) = (of_model.get(place), of_library.get(place));
            text += &format!("\n  {name} differs at {place}: model {a:x?}, library {b:x?}; its answer {library:?}");
        }
    }
    (!text.is_empty()).then_some(text)
}

// Making a difference's input small.

/// Removes parts of a list, halves first and single entries last, as long as the rest still differs.
fn shrink_list<T: Clone>(list: &mut Vec<T>, still_differs: &dyn Fn(&[T]) -> bool) {
    let mut part = list.len().div_ceil(2);
    while part > 0 {
        let mut place = list.len();
        while place > 0 {
            let start = place.saturating_sub(part);
            let mut shorter = list.clone();
            shorter.drain(start..place.min(list.len()));
            if still_differs(&shorter) {
                *list = shorter;
            }
            place = start;
        }
        part /= 2;
    }
}

/// Makes a number 0, or halves it, or takes 1 off, as long as it still differs.
fn shrink_number(number: &mut usize, still_differs: &dyn Fn(usize) -> bool) {
    let ways: [fn(usize) -> usize; 3] = [|_| 0, |n| n / 2, |n| n.saturating_sub(1)];
    for smaller in ways {
        let mut less = smaller(*number);
        while less < *number && still_differs(less) {
            *number = less;
            less = smaller(*number);
        }
    }
}

// Damage that any list of bytes or words may take.

/// Removes, doubles or swaps entries of a list.
fn damage_list<T: Clone>(rng: &mut Random, list: &mut Vec<T>) {
    let (a, b) = (rng.below(list.len()), rng.below(list.len()));
    match rng.below(4) {
        0 => list.truncate(a),
        1 if !list.is_empty() => {
            list.remove(a);
        }
        2 if !list.is_empty() => list.insert(b, list[a].clone()),
        _ if !list.is_empty() => list.swap(a, b),
        _ => {}
    }
}

/// Damages bytes: cut, changed, inserted, removed, stretched numbers, text that is none.
fn damage_bytes(rng: &mut Random, bytes: &mut Vec<u8>) {
    let place = rng.below(bytes.len());
    match rng.below(8) {
        0 => damage_list(rng, bytes),
        1 => bytes.truncate(place),
        2 => bytes.insert(place, *rng.pick(&TELLING_BYTES)),
        3 => {
            let name = rng.any_name();
            bytes.splice(place..place, name);
        }
        4 if place < bytes.len() => stretch_number(rng, bytes, place),
        5 if place < bytes.len() => bytes[place] ^= 1 << rng.below(8),
        6 if place < bytes.len() => bytes[place] = rng.bits() as u8,
        _ if place < bytes.len() => bytes[place] = *rng.pick(&TELLING_BYTES),
        _ => bytes.push(*rng.pick(&TELLING_BYTES)),
    }
}

/// Bytes that stand somewhere in the encodings, or just beside those.
const TELLING_BYTES: [u8; 48] = [
    0x00, 0x01, 0x02, 0x03, 0x04, 0x05, 0x06, 0x07, 0x10, 0x11, 0x12, 0x3e, 0x3f, 0x40, 0x41, 0x42, 0x43, 0x44, 0x62,
    0x63, 0x64, 0x65, 0x66, 0x67, 0x68, 0x69, 0x6a, 0x6b, 0x6c, 0x6d, 0x6e, 0x6f, 0x70, 0x71, 0x72, 0x73, 0x74, 0x75,
    0x78, 0x79, 0x7c, 0x7e, 0x7f, 0x80, 0x81, 0xc0, 0xf4, 0xff,
];

/// Puts a number of several bytes where a byte was: not shortest, too large, below 0, at a boundary, or without end.
fn stretch_number(rng: &mut Random, bytes: &mut Vec<u8>, place: usize) {
    let mut number = match rng.below(3) {
        0 => vec![bytes[place] | 0x80],
        1 => vec![0x80 | rng.bits() as u8],
        _ => vec![*rng.pick(&[0x80, 0xbf, 0xc0, 0xff])],
    };
    for _ in 0..rng.below(5) {
        number.push(*rng.pick(&[0x80, 0xff, 0xbf, 0xc0, 0x80 | bytes[place]]));
    }
    number.push(*rng.pick(&[0x00, 0x01, 0x0f, 0x10, 0x1f, 0x20, 0x3f, 0x40, 0x70, 0x7f, 0x80]));
    bytes.splice(place..=place, number);
}

// Sheets.

/// A call of `sheet`.
#[derive(Clone, Debug)]
struct SheetCase {
    sheet: Vec<u8>,
    body_room: usize,
    out_room: usize,
}

impl SheetCase {
    /// The model's answer, and the difference from the library if there is one.
    fn run(&self) -> (Result<usize, Refused>, Option<String>) {
        let (mut model_body, mut model_out) = (lent_bytes(self.body_room), lent_bytes(self.out_room));
        let (mut library_body, mut library_out) = (model_body.clone(), model_out.clone());
        let model = model::sheet(&self.sheet, &mut model_body, &mut model_out);
        let library = tbaunarith::sheet(&self.sheet, &mut library_body, &mut library_out);
        let buffers: [(&str, &[u8], &[u8]); 2] =
            [("body", &model_body, &library_body), ("out", &model_out, &library_out)];
        (model, difference(&model, &library, &buffers))
    }

    /// Whether the library and the model differ.
    fn differs(&self) -> bool {
        self.run().1.is_some()
    }

    /// The smallest case found that differs, told in words.
    fn smallest(mut self) -> String {
        self.shrink_rows();
        let (body_room, out_room) = (self.body_room, self.out_room);
        shrink_list(&mut self.sheet, &|sheet| SheetCase { sheet: sheet.to_vec(), body_room, out_room }.differs());
        let case = self.clone();
        shrink_number(&mut self.body_room, &|body_room| SheetCase { body_room, ..case.clone() }.differs());
        let case = self.clone();
        shrink_number(&mut self.out_room, &|out_room| SheetCase { out_room, ..case.clone() }.differs());
        let told = self.run().1.unwrap_or_default();
        let SheetCase { sheet, body_room, out_room } = self;
        format!("sheet {} with body room {body_room}, out room {out_room}:{told}", hex(&sheet))
    }

    /// Removes rows, words and pool bytes of a sheet whose framing is whole.
    fn shrink_rows(&mut self) {
        let (body_room, out_room) = (self.body_room, self.out_room);
        let Some((pool, mut rows)) = model::unframe(&self.sheet) else { return };
        let mut pool = pool.to_vec();
        let differs =
            |pool: &[u8], rows: &[Vec<u32>]| SheetCase { sheet: frame(pool, rows), body_room, out_room }.differs();
        shrink_list(&mut rows, &|rows| differs(&pool, rows));
        for place in 0..rows.len() {
            let mut row = rows[place].clone();
            let with_row = |row: &[u32]| {
                let mut rows = rows.clone();
                rows[place] = row.to_vec();
                rows
            };
            shrink_list(&mut row, &|row| differs(&pool, &with_row(row)));
            rows[place] = row;
        }
        shrink_list(&mut pool, &|pool| differs(pool, &rows));
        self.sheet = frame(&pool, &rows);
    }
}

/// The families of sections.
const FAMILIES: [u64; 5] = [2, 5, 7, 8, 10];

/// What sheets and steps are made of: families, each as often as it is to be picked, and their kinds.
pub(crate) struct Scope {
    families: &'static [u64],
    kinds: Vec<u32>,
}

impl Scope {
    /// These families with all their kinds.
    pub(crate) fn of(families: &'static [u64]) -> Scope {
        Scope { families, kinds: KINDS.iter().copied().filter(|kind| families.contains(&family_of(*kind))).collect() }
    }

    /// Every family.
    fn whole() -> Scope {
        Scope::of(&[7, 7, 7, 8, 10, 2, 5])
    }

    /// A random family.
    fn some_family(&self, rng: &mut Random) -> u64 {
        *rng.pick(self.families)
    }

    /// A random kind of one of its families.
    fn some_kind(&self, rng: &mut Random, family: u64) -> u32 {
        let kinds: Vec<u32> = self.kinds.iter().copied().filter(|kind| family_of(*kind) == family).collect();
        match kinds[..] {
            [only] => only,
            _ => *rng.pick(&kinds),
        }
    }
}

/// Rows of one family and their pool.
fn some_rows(rng: &mut Random, scope: &Scope) -> (Vec<u8>, Vec<Vec<u32>>) {
    let family = scope.some_family(rng);
    let mut pool = Vec::new();
    let count = if rng.one_in(200) { rng.below(300) } else { 1 + rng.below(4) };
    let rows = (0..count).map(|_| {
        let kind = scope.some_kind(rng, family);
        valid_row(rng, kind, &mut pool)
    });
    let rows = rows.collect();
    (pool, rows)
}

/// A word put into a row's place: a boundary, a small number, a kind, or a number near the length of the pool.
fn some_word(rng: &mut Random, scope: &Scope, pool: &[u8]) -> u32 {
    match rng.below(6) {
        0 => *rng.pick(&scope.kinds),
        1 => rng.number(),
        2 => (pool.len() + rng.below(3)).saturating_sub(1) as u32,
        3 => rng.boundary(),
        _ => rng.below(4) as u32,
    }
}

/// Damages one row: a word changed, put in or taken out, another kind, no word at all.
fn damage_row(rng: &mut Random, scope: &Scope, row: &mut Vec<u32>, pool: &[u8]) {
    let place = rng.below(row.len());
    let word = some_word(rng, scope, pool);
    match rng.below(8) {
        0 => damage_list(rng, row),
        1 => row.insert(place, word),
        2 if !row.is_empty() => {
            row[0] = if rng.one_in(2) { *rng.pick(&scope.kinds) } else { 256 + rng.below(0x48) as u32 }
        }
        3 if !row.is_empty() => row[place] = row[place].wrapping_add(1),
        4 if !row.is_empty() => row[place] = row[place].wrapping_sub(1),
        _ if !row.is_empty() => row[place] = word,
        _ => row.push(word),
    }
}

/// Damages the pool: its text, its length.
fn damage_pool(rng: &mut Random, pool: &mut Vec<u8>) {
    let place = rng.below(pool.len());
    match rng.below(4) {
        0 => pool.truncate(place),
        1 => pool.push(b'p'),
        2 if place < pool.len() => {
            pool[place] = *rng.pick(&[0x80, 0xbf, 0xc0, 0xc3, 0xe0, 0xed, 0xf0, 0xf4, 0xff, 0x00])
        }
        _ => {
            let name = rng.any_name();
            pool.splice(place..place, name);
        }
    }
}

/// Damages a sheet's framing: its version, the numbers that tell lengths, its end, any byte.
fn damage_framing(rng: &mut Random, scope: &Scope, sheet: &mut Vec<u8>) {
    match rng.below(6) {
        0 if !sheet.is_empty() => sheet[0] = *rng.pick(&[0x00, 0x02, 0x81, 0xff]),
        1 if sheet.len() >= 5 => {
            let length = rng.boundary().wrapping_add(rng.below(3) as u32);
            sheet[1..5].copy_from_slice(&length.to_be_bytes());
        }
        2 if sheet.len() >= 5 => sheet[4] = sheet[4].wrapping_add(*rng.pick(&[1, 255, 4, 252])),
        3 => sheet.extend(some_word(rng, scope, &[]).to_be_bytes()),
        4 => sheet.extend([0; 4]),
        _ => damage_bytes(rng, sheet),
    }
}

/// A sheet: valid, damaged in its rows, pool or framing, of random bytes, or about as long as a sheet may be.
pub(crate) fn some_sheet(rng: &mut Random, scope: &Scope) -> Vec<u8> {
    if rng.one_in(64) {
        let count = rng.below(40);
        return rng.bytes(count);
    }
    let (mut pool, mut rows) = some_rows(rng, scope);
    for _ in 0..rng.below(3) {
        match rng.below(4) {
            0 => damage_pool(rng, &mut pool),
            1 if rng.one_in(2) => damage_list(rng, &mut rows),
            2 if rng.one_in(4) => {
                let kind = *rng.pick(&scope.kinds);
                rows.push(valid_row(rng, kind, &mut pool));
            }
            _ if !rows.is_empty() => {
                let place = rng.below(rows.len());
                damage_row(rng, scope, &mut rows[place], &pool);
            }
            _ => {}
        }
    }
    let mut sheet = frame(&pool, &rows);
    if rng.one_in(4000) && sheet.len() < 65_000 {
        pool.resize(pool.len() + 65_535 + rng.below(3) - sheet.len(), b'p');
        sheet = frame(&pool, &rows);
    }
    if rng.one_in(4) {
        (0..=rng.below(3)).for_each(|_| damage_framing(rng, scope, &mut sheet));
    }
    sheet
}

/// The kinds with names.
const NAMED: [u32; 10] = [1, 2, 7, 8, 15, 17, 18, 19, 20, 21];

/// A sheet of rows that are valid but for names that are not UTF-8.
pub(crate) fn sheet_of_damaged_names(rng: &mut Random) -> Vec<u8> {
    let kind = *rng.pick(&NAMED);
    let kinds: Vec<u32> = NAMED.iter().copied().filter(|other| family_of(*other) == family_of(kind)).collect();
    let mut pool = if rng.one_in(4) { rng.any_name() } else { Vec::new() };
    let mut rows = Vec::new();
    for _ in 0..rng.below(3) {
        let other = *rng.pick(&kinds);
        rows.push(valid_row(rng, other, &mut pool));
    }
    rows.push(row_of_damaged_names(rng, kind, &mut pool));
    if rng.one_in(4) {
        rows.push(row_of_damaged_names(rng, kind, &mut pool));
    }
    frame(&pool, &rows)
}

/// The rooms of body and output that a sheet needs, as far as its rows are some family's.
pub(crate) fn needed_rooms(sheet: &[u8], scope: &Scope) -> (usize, usize) {
    let Some((pool, rows)) = model::unframe(sheet) else { return (4, 8) };
    let mut body = 0;
    for row in &rows {
        let bytes = scope.families.iter().find_map(|family| model::write_row(*family, row, pool).ok());
        body += bytes.map_or(0, |bytes| bytes.len());
    }
    let section = model::Section { used: body as u64, count: rows.len() as u64, ..model::Section::new(7) };
    match section.finish(&vec![0; body], &mut []) {
        Err(refusal) => (body, refusal.value as usize),
        Ok(size) => (body, size),
    }
}

/// Runs as many sheets as said through the model and the library. Err: the smallest input found that differs.
pub fn sheets(rng: &mut Random, count: u64) -> Result<Tally, String> {
    let (mut tally, scope) = (Tally::default(), Scope::whole());
    for _ in 0..count {
        let sheet = if rng.one_in(8) { sheet_of_damaged_names(rng) } else { some_sheet(rng, &scope) };
        let (body, out) = needed_rooms(&sheet, &scope);
        let case = SheetCase { sheet, body_room: some_room(rng, body), out_room: some_room(rng, out) };
        let (answer, differs) = case.run();
        if differs.is_some() {
            return Err(case.smallest());
        }
        tally.add("sheet", &answer);
    }
    Ok(tally)
}

// Readings.

/// A call of `read_type` or `read_import`.
#[derive(Clone, Debug)]
pub(crate) struct ReadingCase {
    pub(crate) import: bool,
    pub(crate) input: Vec<u8>,
    pub(crate) grade: u32,
    pub(crate) room: usize,
}

/// Reads with the model and the library: the model's answer, and the difference if there is one.
pub(crate) fn read_both(import: bool, input: &[u8], grade: u32, room: usize) -> (Result<Item, Refused>, Option<String>) {
    let mut model_row = lent_words(room);
    let mut library_row = model_row.clone();
    let (model, library) = if import {
        let model = model::read_import(input, grade, &mut model_row);
        (model, tbaunarith::read_import(input, grade, &mut library_row))
    } else {
        let model = model::read_type(input, grade, &mut model_row);
        (model, tbaunarith::read_type(input, grade, &mut library_row))
    };
    let rows: [(&str, &[u32], &[u32]); 1] = [("row", &model_row, &library_row)];
    (model, difference(&model, &library, &rows))
}

/// The name of a reading call.
fn reading_name(import: bool) -> &'static str {
    if import {
        "read_import"
    } else {
        "read_type"
    }
}

impl ReadingCase {
    /// The model's answer, and the difference from the library if there is one.
    fn run(&self) -> (Result<Item, Refused>, Option<String>) {
        read_both(self.import, &self.input, self.grade, self.room)
    }

    /// The smallest case found that differs, told in words.
    fn smallest(mut self) -> String {
        let case = self.clone();
        let differs = |input: &[u8]| ReadingCase { input: input.to_vec(), ..case.clone() }.run().1.is_some();
        shrink_list(&mut self.input, &differs);
        let case = self.clone();
        shrink_number(&mut self.room, &|room| ReadingCase { room, ..case.clone() }.run().1.is_some());
        let told = self.run().1.unwrap_or_default();
        let (input, grade, room) = (hex(&self.input), self.grade, self.room);
        format!("{} of {input} at grade {grade} with room for {room} words:{told}", reading_name(self.import))
    }
}

/// An encoding written by the model from a valid row; whether it is an import's.
fn some_encoding(rng: &mut Random) -> (bool, Vec<u8>) {
    let kind = if rng.one_in(3) { 17 } else { rng.below(17) as u32 };
    let family = if kind == 17 { 10 } else { 7 };
    let mut pool = Vec::new();
    let row = valid_row(rng, kind, &mut pool);
    (kind == 17, model::write_row(family, &row, &pool).unwrap_or_default())
}

/// Lists with small entries: the lead byte, an entry's bytes, an entry's words.
const LONG_LISTS: [(u8, &[u8], usize); 6] = [
    (0x6f, &[0x7f], 2),
    (0x6e, &[0x00], 2),
    (0x6d, &[0x01, 0x61], 2),
    (0x72, &[0x00, 0x05], 4),
    (0x71, &[0x00, 0x00, 0x00], 4),
    (0x40, &[0x00, 0x73], 4),
];

/// An encoding of a list with about as many words as a row may have, or with some more.
fn long_encoding(rng: &mut Random) -> Vec<u8> {
    let (lead, entry, words) = *rng.pick(&LONG_LISTS);
    let more = if rng.one_in(4) { rng.below(2000) } else { rng.below(4) };
    let count = 16_384 / words - 2 + more;
    let mut bytes = vec![lead, 0x80 | (count & 0x7f) as u8, (count >> 7) as u8];
    bytes.extend(entry.repeat(count));
    if lead == 0x40 {
        bytes.extend([0x01, 0x00]);
    }
    bytes
}

/// Bytes that look like the front of an encoding.
fn made_up_encoding(rng: &mut Random) -> Vec<u8> {
    let count = rng.below(12);
    (0..count).map(|_| if rng.one_in(3) { rng.below(4) as u8 } else { *rng.pick(&TELLING_BYTES) }).collect()
}

/// What stands behind a name of an entry, by the lead byte of the type, and behind the entries.
const NAMED_TYPES: [(u8, &[u8], &[u8]); 6] = [
    (0x72, &[0x73], &[]),
    (0x71, &[0x00, 0x00], &[]),
    (0x6e, &[], &[]),
    (0x6d, &[], &[]),
    (0x40, &[0x05], &[0x01, 0x00]),
    (0x43, &[0x7f], &[0x00, 0x73]),
];

/// An encoding that is right but for names that are not UTF-8; whether it is an import's.
fn encoding_of_damaged_names(rng: &mut Random) -> (bool, Vec<u8>) {
    let mut bytes = Vec::new();
    if rng.one_in(3) {
        let options = rng.below(4);
        bytes.push(if options == 0 { 0x00 } else { 0x02 });
        any_damaged_name(rng, &mut bytes);
        if options > 0 {
            bytes.push(options as u8);
        }
        for option in 0..options {
            bytes.push(option as u8);
            any_damaged_name(rng, &mut bytes);
        }
        bytes.extend([0x01, 0x00]);
        return (true, bytes);
    }
    let (lead, entry_end, end) = *rng.pick(&NAMED_TYPES);
    let count = 1 + rng.below(4);
    bytes.extend([lead, count as u8]);
    for _ in 0..count {
        any_damaged_name(rng, &mut bytes);
        bytes.extend(entry_end);
    }
    bytes.extend(end);
    (false, bytes)
}

/// A name with its length, right or damaged.
fn any_damaged_name(rng: &mut Random, bytes: &mut Vec<u8>) {
    let name = if rng.one_in(2) { rng.name() } else { rng.damaged_name() };
    model::write_unsigned(name.len() as u32, bytes);
    bytes.extend(name);
}

/// A reading of an encoding whose names are damaged.
pub(crate) fn reading_of_damaged_names(rng: &mut Random, words: &mut [u32]) -> ReadingCase {
    let (import, input) = encoding_of_damaged_names(rng);
    reading_of(rng, import, input, words)
}

/// A reading of an encoding whose numbers are padded; in every second one of them is spoilt, or any byte.
pub(crate) fn reading_of_padded_numbers(rng: &mut Random, words: &mut [u32]) -> ReadingCase {
    let (import, item) = some_encoding(rng);
    let mut input = padded::at_random(rng, import, &item);
    match rng.below(4) {
        0 => input = padded::spoilt(rng, import, &input),
        1 => damage_bytes(rng, &mut input),
        _ => {}
    }
    reading_of(rng, import, input, words)
}

/// A reading of an encoding, mostly damaged.
pub(crate) fn some_reading(rng: &mut Random, words: &mut [u32]) -> ReadingCase {
    let (import, mut input) = match rng.below(16) {
        0 => (rng.one_in(2), made_up_encoding(rng)),
        _ if rng.one_in(4000) => (false, long_encoding(rng)),
        _ => some_encoding(rng),
    };
    (0..rng.below(3)).for_each(|_| damage_bytes(rng, &mut input));
    reading_of(rng, import, input, words)
}

/// A reading of these bytes with a tail; any grade; a room from 0 to enough.
fn reading_of(rng: &mut Random, mut import: bool, mut input: Vec<u8>, words: &mut [u32]) -> ReadingCase {
    if rng.one_in(2) {
        let count = rng.below(6);
        input.extend(rng.bytes(count));
    }
    import ^= rng.one_in(100);
    let grade = if rng.one_in(50) { *rng.pick(&[0, 4, u32::MAX]) } else { *rng.pick(&[1, 2, 3, 3]) };
    let answer = if import { model::read_import(&input, 3, words) } else { model::read_type(&input, 3, words) };
    let needed = match answer {
        Ok(item) => item.words,
        Err(Refused { why: Refusal::Room, value, .. }) => value as usize,
        Err(_) => 8,
    };
    let room = if rng.one_in(500) { 16_383 + rng.below(2000) } else { some_room(rng, needed) };
    ReadingCase { import, input, grade, room }
}

/// Runs as many encodings as said through the model and the library. Err: the smallest input found that differs.
pub fn readings(rng: &mut Random, count: u64) -> Result<Tally, String> {
    let mut tally = Tally::default();
    let mut words = vec![0; 16_384];
    for _ in 0..count {
        let case = match rng.below(8) {
            0 => reading_of_damaged_names(rng, &mut words),
            1 => reading_of_padded_numbers(rng, &mut words),
            _ => some_reading(rng, &mut words),
        };
        let (answer, differs) = case.run();
        if differs.is_some() {
            return Err(case.smallest());
        }
        tally.add(reading_name(case.import), &answer);
    }
    Ok(tally)
}

// Steps.

/// A call on a section, or a change of its state between two calls.
#[derive(Clone, Debug)]
enum Call {
    Row { row: Vec<u32>, pool: Vec<u8> },
    Open,
    Head { words: Vec<u32>, pool: Vec<u8> },
    Result { tag: u32, x: u32 },
    Abandon,
    Finish { room: usize },
    Set { field: usize, number: u64 },
}

impl Call {
    /// The call's name.
    fn name(&self) -> &'static str {
        match self {
            Call::Row { .. } => "row",
            Call::Open => "open",
            Call::Head { .. } => "head",
            Call::Result { .. } => "result",
            Call::Abandon => "abandon",
            Call::Finish { .. } => "finish",
            Call::Set { .. } => "set",
        }
    }

    /// The words and the pool that the call is given, if it is given some.
    fn lists(&mut self) -> Option<(&mut Vec<u32>, &mut Vec<u8>)> {
        match self {
            Call::Row { row: words, pool } | Call::Head { words, pool } => Some((words, pool)),
            _ => None,
        }
    }
}

/// The model's section and the library's, each with its body, of which the bytes from a place on are compared.
struct Pair<'a> {
    model: model::Section,
    library: tbaunarith::Section,
    model_body: &'a mut [u8],
    library_body: &'a mut [u8],
    compared_from: usize,
}

impl Pair<'_> {
    /// Makes one call of both: the model's answer (none for a change of state), and the difference if there is one.
    fn call(&mut self, call: &Call) -> (Option<Result<usize, Refused>>, Option<String>) {
        let room = if let Call::Finish { room } = call { *room } else { 0 };
        let mut model_out = lent_bytes(room);
        let mut library_out = model_out.clone();
        let (model, library) = match call {
            Call::Set { field, number } => {
                let mut state = self.model.state();
                state[*field] = *number;
                self.model = model::Section::from_state(state);
                self.library.state = state;
                return (None, None);
            }
            Call::Finish { .. } => (
                self.model.finish(self.model_body, &mut model_out),
                self.library.finish(self.library_body, &mut library_out),
            ),
            _ => (self.model_step(call), self.library_step(call)),
        };
        let bodies = (&self.model_body[self.compared_from..], &self.library_body[self.compared_from..]);
        let buffers = [("body", bodies.0, bodies.1), ("out", &model_out[..], &library_out[..])];
        let told = difference(&(model, self.model.state()), &(library, self.library.state), &buffers);
        (Some(model), told)
    }

    /// The model's answer to a call that writes into the body.
    fn model_step(&mut self, call: &Call) -> Result<usize, Refused> {
        let (section, body) = (&mut self.model, &mut *self.model_body);
        match call {
            Call::Row { row, pool } => section.row(row, pool, body),
            Call::Open => section.open(body),
            Call::Head { words, pool } => section.head(words, pool, body),
            Call::Result { tag, x } => section.result(*tag, *x, body),
            Call::Abandon => section.abandon(body),
            Call::Finish { .. } | Call::Set { .. } => Ok(0),
        }
    }

    /// The library's answer to a call that writes into the body.
    fn library_step(&mut self, call: &Call) -> Result<usize, Refused> {
        let (section, body) = (&mut self.library, &mut *self.library_body);
        match call {
            Call::Row { row, pool } => section.row(row, pool, body),
            Call::Open => section.open(body),
            Call::Head { words, pool } => section.head(words, pool, body),
            Call::Result { tag, x } => section.result(*tag, *x, body),
            Call::Abandon => section.abandon(body),
            Call::Finish { .. } | Call::Set { .. } => Ok(0),
        }
    }
}

/// A sequence of calls on one section.
#[derive(Clone, Debug)]
struct StepsCase {
    state: [u64; 5],
    body_room: usize,
    calls: Vec<Call>,
}

impl StepsCase {
    /// Makes the calls until one differs, and tells that difference.
    fn run(&self, tally: &mut Tally) -> Option<String> {
        let mut model_body = lent_bytes(self.body_room);
        let mut library_body = model_body.clone();
        let mut pair = Pair {
            model: model::Section::from_state(self.state),
            library: tbaunarith::Section { state: self.state },
            model_body: &mut model_body,
            library_body: &mut library_body,
            compared_from: 0,
        };
        for call in &self.calls {
            let (answer, told) = pair.call(call);
            if told.is_some() {
                return told;
            }
            if let Some(answer) = answer {
                tally.add(call.name(), &answer);
            }
        }
        None
    }

    /// Whether the library and the model differ.
    fn differs(&self) -> bool {
        self.run(&mut Tally::default()).is_some()
    }

    /// The smallest case found that differs, told in words.
    fn smallest(mut self) -> String {
        let case = self.clone();
        shrink_list(&mut self.calls, &|calls| StepsCase { calls: calls.to_vec(), ..case.clone() }.differs());
        for place in 0..self.calls.len() {
            self.shrink_lists(place);
        }
        let case = self.clone();
        shrink_number(&mut self.body_room, &|body_room| StepsCase { body_room, ..case.clone() }.differs());
        let told = self.run(&mut Tally::default()).unwrap_or_default();
        let StepsCase { state, body_room, calls } = self;
        format!("state {state:?}, body room {body_room}, the last of the calls {calls:x?}:{told}")
    }

    /// Removes words and pool bytes of one call.
    fn shrink_lists(&mut self, place: usize) {
        let case = self.clone();
        let Some((words, pool)) = self.calls[place].lists() else { return };
        let differs = |words: &[u32], pool: &[u8]| {
            let mut case = case.clone();
            if let Some((its_words, its_pool)) = case.calls[place].lists() {
                (*its_words, *its_pool) = (words.to_vec(), pool.to_vec());
            }
            case.differs()
        };
        shrink_list(words, &|words| differs(words, pool));
        shrink_list(pool, &|pool| differs(words, pool));
    }
}

/// Words and pool of a valid row, sometimes damaged, seldom about as long as they may be.
fn some_words(rng: &mut Random, scope: &Scope, kind: u32) -> (Vec<u32>, Vec<u8>) {
    let mut pool = if rng.one_in(4) { rng.any_name() } else { Vec::new() };
    if rng.one_in(8) {
        return (row_of_damaged_names(rng, kind, &mut pool), pool);
    }
    let mut words = valid_row(rng, kind, &mut pool);
    if rng.one_in(4) {
        damage_row(rng, scope, &mut words, &pool);
    }
    if rng.one_in(16) {
        damage_pool(rng, &mut pool);
    }
    if rng.one_in(8000) {
        words.resize(16_383 + rng.below(4), 0);
    }
    if rng.one_in(8000) {
        pool.resize(65_535 + rng.below(3), b'p');
    }
    (words, pool)
}

/// A row for a section, mostly of its family.
fn some_row(rng: &mut Random, scope: &Scope, family: u64) -> Call {
    let kind = if rng.one_in(12) { *rng.pick(&scope.kinds) } else { scope.some_kind(rng, family) };
    let (row, pool) = some_words(rng, scope, kind);
    Call::Row { row, pool }
}

/// The calls of a function in steps; they may end by taking it back.
fn some_function(rng: &mut Random, scope: &Scope) -> Vec<Call> {
    let mut pool = Vec::new();
    let row = if rng.one_in(8) { row_of_damaged_names(rng, 15, &mut pool) } else { valid_row(rng, 15, &mut pool) };
    let mut words = row[1..row.len() - 2].to_vec();
    if rng.one_in(6) {
        damage_row(rng, scope, &mut words, &pool);
    }
    if rng.one_in(16) && !words.is_empty() {
        words[0] = rng.number();
    }
    if rng.one_in(12) {
        damage_pool(rng, &mut pool);
    }
    if rng.one_in(4000) {
        words.resize(16_383 + rng.below(4), 0);
    }
    let mut calls = vec![Call::Open, Call::Head { words, pool }];
    let (mut tag, mut x) = (row[row.len() - 2], row[row.len() - 1]);
    if rng.one_in(6) {
        (tag, x) = (rng.below(4) as u32, rng.number());
    }
    calls.push(Call::Result { tag, x });
    if rng.one_in(4) {
        calls.truncate(1 + rng.below(2));
        calls.push(Call::Abandon);
    }
    calls
}

/// A change of the state: a field gets a number that it may or may not have.
fn some_change(rng: &mut Random, body_room: usize) -> Call {
    let field = rng.below(5);
    let near = match field {
        0 => *rng.pick(&[2, 5, 7, 8, 10, 0, 1, 3, 4, 6, 9, 11, 258, 263, (1 << 32) + 5, (1 << 32) + 7]),
        2 => *rng.pick(&[0, 1, u64::from(u32::MAX) - 1, u64::from(u32::MAX), 1 << 32]),
        3 => rng.below(5) as u64,
        _ => rng.below(body_room + 2) as u64,
    };
    Call::Set { field, number: if rng.one_in(4) { rng.wide_number() } else { near } }
}

/// Up to 12 calls on a section, most of them in turn.
fn some_calls(rng: &mut Random, scope: &Scope, family: u64, body_room: usize) -> Vec<Call> {
    let wanted = 1 + rng.below(12);
    let mut calls = Vec::new();
    while calls.len() < wanted {
        match rng.below(12) {
            0..=3 => calls.push(some_row(rng, scope, family)),
            4..=7 => calls.extend(some_function(rng, scope)),
            8 => calls.push(Call::Finish { room: rng.below(body_room + 14) }),
            9 => calls.push(some_change(rng, body_room)),
            10 => calls.push(Call::Result { tag: rng.below(3) as u32, x: 0 }),
            _ => calls.push(Call::Abandon),
        }
    }
    if rng.one_in(3) {
        damage_list(rng, &mut calls);
    }
    calls.push(Call::Finish { room: rng.below(body_room + 14) });
    let more = calls.len().saturating_sub(12);
    calls.drain(..more);
    calls
}

/// A sequence of calls on a fresh section, or on a state that is damaged.
fn some_steps(rng: &mut Random, scope: &Scope) -> StepsCase {
    let family = scope.some_family(rng);
    let most = *rng.pick(&[1, 8, 24, 64, 256, 256, 4096]);
    let body_room = rng.below(most);
    let mut state = [family, 0, 0, 0, 0];
    if rng.one_in(3) {
        state[1] = rng.below(body_room + 1) as u64;
        state[2] = 1 + rng.below(4) as u64;
        let phases = if rng.one_in(16) { 4 } else { 3 };
        state[3] = if family == 7 || rng.one_in(8) { rng.below(phases) as u64 } else { 0 };
        state[4] = if state[3] == 0 { 0 } else { rng.below(state[1] as usize + 1) as u64 };
    }
    for _ in 0..rng.below(8).saturating_sub(6) {
        if let Call::Set { field, number } = some_change(rng, body_room) {
            state[field] = number;
        }
    }
    StepsCase { state, body_room, calls: some_calls(rng, scope, family, body_room) }
}

/// Runs as many sequences of calls as said through the model and the library. Err: the smallest found that differs.
pub fn steps(rng: &mut Random, count: u64) -> Result<Tally, String> {
    let (mut tally, scope) = (Tally::default(), Scope::whole());
    for _ in 0..count {
        let case = some_steps(rng, &scope);
        if case.run(&mut tally).is_some() {
            return Err(case.smallest());
        }
    }
    Ok(tally)
}

// Limits that only long buffers reach. Their memory is asked for as zeros and hardly touched.

/// Inputs as long as a reader's input may be, one byte shorter and one longer. It asks for 1 GiB.
pub fn long_inputs() -> Result<Tally, String> {
    const MOST: usize = 1_073_741_824;
    let fronts: [&[u8]; 5] = [
        &[0x73],
        &[0x00, 0x01, 0x66, 0x01, 0x00],
        &[0x69, 0x80, 0x00],
        &[0x6d, 0x01, 0xff, 0xff, 0xff, 0xff, 0x0f],
        &[0x00, 0xff, 0xff, 0xff, 0xff, 0x0f],
    ];
    let mut tally = Tally::default();
    let mut input = vec![0; MOST + 1];
    for front in fronts {
        input[..8].fill(0);
        input[..front.len()].copy_from_slice(front);
        for length in [MOST - 1, MOST, MOST + 1] {
            for import in [false, true] {
                let (answer, differs) = read_both(import, &input[..length], 3, 16);
                if let Some(told) = differs {
                    let name = reading_name(import);
                    return Err(format!("{name} of {} and zeros, {length} bytes:{told}", hex(front)));
                }
                tally.add(reading_name(import), &answer);
            }
        }
    }
    Ok(tally)
}

/// Sections whose used part is about 4 GiB long. It asks for two bodies of that length and compares their ends.
pub fn wide_sections() -> Result<Tally, String> {
    const EDGE: usize = 1 << 32;
    let (mut model_body, mut library_body) = (vec![0; EDGE + 64], vec![0; EDGE + 64]);
    let compared_from = EDGE - 64;
    let mut tally = Tally::default();
    for state in wide_states(EDGE as u64) {
        for call in plain_calls() {
            model_body[compared_from..].copy_from_slice(&lent_bytes(128));
            library_body[compared_from..].copy_from_slice(&lent_bytes(128));
            let mut pair = Pair {
                model: model::Section::from_state(state),
                library: tbaunarith::Section { state },
                model_body: &mut model_body,
                library_body: &mut library_body,
                compared_from,
            };
            let (answer, differs) = pair.call(&call);
            if let Some(told) = differs {
                let room = EDGE + 64;
                return Err(format!(
                    "state {state:?}, body room {room} compared from {compared_from} on, {call:x?}:{told}"
                ));
            }
            if let Some(answer) = answer {
                tally.add(call.name(), &answer);
            }
        }
    }
    Ok(tally)
}

/// States whose used part is about as long as `edge`; of the families only that of types has open entries.
fn wide_states(edge: u64) -> Vec<[u64; 5]> {
    let mut states = Vec::new();
    for used in edge - 14..edge + 14 {
        for count in [0, 1, 127, 128, (1 << 32) - 1] {
            states.extend(FAMILIES.map(|family| [family, used, count, 0, 0]));
            for start in [0, 1, 12, used - 1, used] {
                states.extend((1..=3).map(|phase| [7, used, count, phase, start]));
            }
        }
    }
    states
}

/// A few calls that are given nothing wrong.
fn plain_calls() -> Vec<Call> {
    let name = || b"a".to_vec();
    vec![
        Call::Row { row: vec![0, 12], pool: Vec::new() },
        Call::Row { row: vec![11, u32::MAX], pool: Vec::new() },
        Call::Row { row: vec![18, 300, 1, 0, 1, 7], pool: name() },
        Call::Row { row: vec![21, 0], pool: Vec::new() },
        Call::Open,
        Call::Head { words: vec![0, 0], pool: Vec::new() },
        Call::Head { words: vec![1, 1, 0, 1, 0, 12], pool: name() },
        Call::Result { tag: 0, x: 12 },
        Call::Result { tag: 1, x: u32::MAX },
        Call::Result { tag: 2, x: 0 },
        Call::Abandon,
        Call::Finish { room: 0 },
        Call::Finish { room: 40 },
    ]
}

/// Makes each of the plain calls on each state of small numbers, families that are none's among them, in a body of two
/// bytes and in one that has room.
pub fn small_states() -> Result<Tally, String> {
    let mut tally = Tally::default();
    let numbers = [4, 5, 4, 4].map(|end| (0..end).collect::<Vec<u64>>());
    let [used, counts, phases, starts] = numbers.map(|mut numbers| {
        numbers.extend([u64::from(u32::MAX), 1 << 32]);
        numbers
    });
    for family in (0..13).chain([256 + 2, 256 + 5, (1 << 32) + 2, (1 << 32) + 5, u64::MAX]) {
        for state in every_state(family, [&used, &counts, &phases, &starts]) {
            for (call, body_room) in plain_calls().into_iter().flat_map(|call| [(call.clone(), 2), (call, 40)]) {
                let case = StepsCase { state, body_room, calls: vec![call] };
                if case.run(&mut tally).is_some() {
                    return Err(case.smallest());
                }
            }
        }
    }
    Ok(tally)
}

/// The states of a family with one of each list's numbers.
fn every_state(family: u64, lists: [&[u64]; 4]) -> Vec<[u64; 5]> {
    let mut states = vec![[family, 0, 0, 0, 0]];
    for (place, list) in lists.iter().enumerate() {
        let with = move |mut state: [u64; 5], number: u64| {
            state[place + 1] = number;
            state
        };
        states = states.into_iter().flat_map(|state| list.iter().map(move |number| with(state, *number))).collect();
    }
    states
}

/// Words of many entries: the family, those before the entries, an entry's, how many entries, and those behind.
type ManyEntries = (u64, Vec<u32>, Vec<u32>, usize, &'static [u32]);

/// Rows and heads of as many words as there may be, and of one entry more; what begins with 1 and a count is a record's row and
/// an async function's head. Wish 8: a row has no more than 8,191 names of
/// 65,536 bytes, so none of these is TOO_BIG.
fn most_entries() -> Vec<ManyEntries> {
    const NAME: [u32; 2] = [0, 65_536];
    let named = |words: &[u32]| [&NAME[..], words].concat();
    let options = || [1, 0, 65_536].repeat(3);
    let item = || [named(&options()), vec![5, u32::MAX]].concat();
    vec![
        (7, vec![7, 8191], named(&[]), 8191, &[]),
        (7, vec![7, 8192], named(&[]), 8192, &[]),
        (7, vec![1, 4095], vec![65_535, 1, 1, 64], 4095, &[]),
        (7, vec![2, 4095], named(&[1, u32::MAX]), 4095, &[]),
        (7, vec![6, 8191], vec![1, u32::MAX], 8191, &[]),
        (7, vec![15, 1, 4094], named(&[1, u32::MAX]), 4094, &[1, u32::MAX]),
        (7, vec![1, 4095], named(&[0, 12]), 4095, &[]),
        (7, vec![1, 4096], named(&[0, 12]), 4096, &[]),
        (7, vec![0, 4095], named(&[1, u32::MAX]), 4095, &[]),
        (10, [vec![17], named(&options())].concat(), vec![2, 1, u32::MAX], 1, &[]),
        (8, vec![256, u32::MAX, u32::MAX, 8190], vec![8, u32::MAX], 8190, &[]),
        (8, vec![257, u32::MAX, 8190], vec![3, u32::MAX], 8190, &[]),
        (2, vec![18, u32::MAX, 5460], named(&[7]), 5460, &[]),
        (2, vec![18, u32::MAX, 5461], named(&[7]), 5461, &[]),
        (5, vec![19, 0, 4095], vec![65_535, 1, 0, 64], 4095, &[]),
        (5, vec![19, u32::MAX, 4095], named(&[0, u32::MAX]), 4095, &[]),
        (2, vec![20, 4095], vec![1, 65_535, 4, 128], 4095, &[]),
        (5, vec![21, 1260], item(), 1260, &[]),
        (5, vec![21, 1261], item(), 1261, &[]),
    ]
}

/// Rows and heads of as many words, names and pool bytes as there may be, and of one more, beside a small body.
pub fn largest_rows() -> Result<Tally, String> {
    let mut tally = Tally::default();
    for pool_size in [65_536, 65_537] {
        for (family, front, entry, count, behind) in most_entries() {
            let words = [&front[..], &entry.repeat(count), behind].concat();
            let pool = vec![b'p'; pool_size];
            let row = Call::Row { row: words.clone(), pool: pool.clone() };
            let calls = match family {
                7 => vec![row.clone(), Call::Open, Call::Head { words, pool }, row],
                _ => vec![row],
            };
            let case = StepsCase { state: [family, 0, 0, 0, 0], body_room: 16, calls };
            if let Some(told) = case.run(&mut tally) {
                return Err(format!("{front:?}, {count} times {entry:?}, pool of {pool_size} bytes:{told}"));
            }
        }
    }
    Ok(tally)
}

// Small inputs, all of them.

/// The bytes at the ends of the ranges of UTF-8.
pub(crate) const ENDS_OF_UTF8: [u8; 23] = [
    0x00, 0x41, 0x7f, 0x80, 0x8f, 0x90, 0x9f, 0xa0, 0xbf, 0xc0, 0xc1, 0xc2, 0xdf, 0xe0, 0xe1, 0xec, 0xed, 0xee, 0xef,
    0xf0, 0xf3, 0xf4, 0xf5,
];

/// Every list of up to `longest` bytes from an alphabet, handed to a call until it says that something differs.
pub(crate) fn every_list(
    alphabet: &[u8],
    longest: usize,
    call: &mut dyn FnMut(&[u8]) -> Result<(), String>,
) -> Result<(), String> {
    let mut places: Vec<usize> = Vec::new();
    loop {
        let list: Vec<u8> = places.iter().map(|place| alphabet[*place]).collect();
        call(&list)?;
        // Counts on: the last place that can go up goes up and those after it start again; else the list gets longer.
        match places.iter().rposition(|place| place + 1 < alphabet.len()) {
            Some(up) => {
                places[up] += 1;
                places[up + 1..].fill(0);
            }
            None if places.len() < longest => places = vec![0; places.len() + 1],
            None => return Ok(()),
        }
    }
}

/// Makes one call on a section of a family in a small body, and counts the answer.
fn one_call(family: u64, call: Call, tally: &mut Tally) -> Result<(), String> {
    let case = StepsCase { state: [family, 0, 0, 0, 0], body_room: 40, calls: vec![call] };
    match case.run(tally) {
        Some(_) => Err(case.smallest()),
        None => Ok(()),
    }
}

/// Every kind up to 600 with rows of up to 20 words that are alike but for the count, in each family; and every name of
/// up to four bytes that stand at the ends of UTF-8's ranges.
pub fn small_rows() -> Result<Tally, String> {
    let mut tally = Tally::default();
    for kind in (0..600).chain([1 << 16, 1 << 31, u32::MAX]) {
        for (length, fill) in (0..20).flat_map(|length| [(length, 0), (length, 1), (length, 2)]) {
            let row: Vec<u32> = std::iter::once(kind).chain(std::iter::repeat_n(fill, length)).collect();
            for family in FAMILIES {
                one_call(family, Call::Row { row: row.clone(), pool: b"abc".to_vec() }, &mut tally)?;
            }
        }
    }
    every_list(&ENDS_OF_UTF8, 4, &mut |name| {
        let row = vec![7, 1, 0, name.len() as u32];
        one_call(7, Call::Row { row, pool: name.to_vec() }, &mut tally)
    })?;
    Ok(tally)
}

/// Every head of up to six words of a few numbers, on an opened function and in the phases before and after that, beside a pool
/// that is text and one that is not, in a body with three bytes left, which no parameter fits, and in one that has room.
pub fn small_heads() -> Result<Tally, String> {
    let mut tally = Tally::default();
    every_list(&[0, 1, 2, 12, 0xff], 6, &mut |numbers| {
        let words: Vec<u32> = numbers.iter().map(|number| if *number == 0xff { u32::MAX } else { u32::from(*number) }).collect();
        for (phase, pool, body_room) in
            [(0, b"ab", 40), (1, b"ab", 40), (1, b"ab", 6), (1, b"a\xc2", 40), (2, b"ab", 40), (3, b"ab", 40)]
        {
            let calls = vec![Call::Head { words: words.clone(), pool: pool.to_vec() }];
            let case = StepsCase { state: [7, 3, 1, phase, 2 * phase.min(1)], body_room, calls };
            if case.run(&mut tally).is_some() {
                return Err(case.smallest());
            }
        }
        Ok(())
    })?;
    Ok(tally)
}

/// Every input of up to two bytes at each grade; and numbers and Vs of up to six bytes that stand at an end of a range.
pub fn short_inputs() -> Result<Tally, String> {
    let mut tally = Tally::default();
    let mut read = |import: bool, input: &[u8], grade: u32| {
        let (answer, differs) = read_both(import, input, grade, 16);
        tally.add(reading_name(import), &answer);
        match differs {
            Some(told) => Err(format!("{} of {} at grade {grade}:{told}", reading_name(import), hex(input))),
            None => Ok(()),
        }
    };
    let every_byte: Vec<u8> = (0..=255).collect();
    every_list(&every_byte, 2, &mut |input| {
        for grade in 1..=3 {
            read(false, input, grade)?;
            read(true, input, grade)?;
        }
        Ok(())
    })?;
    const ENDS: [u8; 10] = [0x00, 0x01, 0x0f, 0x10, 0x3f, 0x40, 0x7f, 0x80, 0xbf, 0xff];
    every_list(&ENDS, 6, &mut |number| {
        read(false, &[&[0x69], number].concat(), 1)?;
        read(false, &[&[0x70], number].concat(), 1)
    })?;
    every_list(&[0x00, 0x01, 0x02, 0x03, 0x04, 0x11, 0x61, 0x64, 0x80], 6, &mut |input| {
        read(true, &[&[0x00, 0x00], input].concat(), 1)?;
        read(true, &[&[0x02, 0x00], input].concat(), 3)
    })?;
    Ok(tally)
}

#[cfg(test)]
mod tests {
    use super::*;

    #[test]
    fn no_row_is_too_big() {
        let pool = vec![b'p'; 65_536];
        let sizes = most_entries().into_iter().map(|(family, front, entry, count, behind)| {
            let row = [&front[..], &entry.repeat(count), behind].concat();
            match tbaunarith::Section::new(family).row(&row, &pool, &mut []) {
                Err(Refused { why: Refusal::Room, value, .. }) => value,
                _ => 0,
            }
        });
        // Flags of 8,191 names of 65,536 bytes and three of length each, behind the lead and two bytes of count.
        assert_eq!(sizes.max(), Some(3 + 8191 * 65_539));
    }
}
