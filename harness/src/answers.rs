//! Stored answers for the program `vectors`: the crate's sections, and the model's refusals and readings.
//!
//! A list is laid out as tools/cases.py says; `tools/vectors FILE` puts it behind the others.

use crate::damage::{needed_rooms, sheet_of_damaged_names, some_room, some_sheet, ReadingCase, Scope};
use crate::damage::{reading_of_damaged_names, reading_of_padded_numbers, some_reading};
use crate::encode::crate_section;
use crate::input::{family_of, Input};
use crate::model;
use crate::random::{valid_row, Random, KINDS};
use crate::tbaunarith::{Item, Refused};

/// The longest input and the largest room of a stored case; the program's own buffers are larger.
const LONGEST: usize = 400;
const LARGEST_ROOM: usize = 1000;

/// What is run.
#[derive(Clone, Copy)]
enum Sort {
    Sheet = 0,
    Type = 1,
    Import = 2,
}

/// One case of a list.
pub struct Case {
    sort: Sort,
    input: Vec<u8>,
    grade: u32,
    body_room: usize,
    /// Bytes of the output, or of the row.
    room: usize,
    number: u32,
    value: u64,
    also: u32,
    made: Vec<u8>,
    body: usize,
}

/// The list's bytes, every number in four of them, big-endian.
pub fn packed(title: &str, cases: &[Case]) -> Vec<u8> {
    let mut list = Vec::new();
    list.extend((cases.len() as u32).to_be_bytes());
    list.extend((title.len() as u32).to_be_bytes());
    list.extend(title.as_bytes());
    for case in cases {
        let Case { sort, input, grade, body_room, room, number, value, also, made, body } = case;
        let numbers = [
            *sort as usize,
            input.len(),
            *grade as usize,
            *body_room,
            *room,
            *number as usize,
            *value as usize,
            *also as usize,
            made.len(),
            *body,
        ];
        list.extend(numbers.iter().flat_map(|number| (*number as u32).to_be_bytes()));
        list.extend(input);
        list.extend(made);
    }
    list
}

/// How many bytes of a section are its entries: those behind id, size and count.
fn body_of(section: &[u8]) -> usize {
    let number_end = |from: usize| from + 1 + section[from..].iter().position(|byte| *byte < 0x80).unwrap_or(0);
    section.len() - number_end(number_end(1))
}

/// The families whose cases come first, each as often as it is to be picked, and those that were added to them.
pub const FIRST: &[u64] = &[7, 7, 7, 8, 10];
pub const INSTANCES: &[u64] = &[2, 5];

/// The families whose rows have names.
const NAMED: &[u64] = &[7, 10, 2, 5];

/// The crate's answers for some families: sections of up to six valid rows, each kind in its turn first.
pub fn crate_answers(rng: &mut Random, families: &[u64], count: usize) -> Vec<Case> {
    let kinds: Vec<u32> = KINDS.iter().copied().filter(|kind| families.contains(&family_of(*kind))).collect();
    let mut cases = Vec::new();
    while cases.len() < count {
        let kind = kinds[cases.len() % kinds.len()];
        let family = family_of(kind);
        let mut input = Input { family, ..Input::default() };
        input.rows.push(valid_row(rng, kind, &mut input.pool));
        for _ in 0..rng.below(6) {
            let other = *rng.pick(&kinds);
            if family_of(other) == family {
                input.rows.push(valid_row(rng, other, &mut input.pool));
            }
        }
        match input.sheet() {
            Some(sheet) if sheet.len() <= 4 * LONGEST => cases.push(taken_sheet(sheet, crate_section(family, &input.beside_pool()))),
            _ => {}
        }
    }
    cases
}

/// A sheet that becomes a section.
fn taken_sheet(input: Vec<u8>, section: Vec<u8>) -> Case {
    let body = body_of(&section);
    Case {
        sort: Sort::Sheet,
        input,
        grade: 0,
        body_room: body,
        room: section.len(),
        number: 0,
        value: section.len() as u64,
        also: 0,
        made: section,
        body,
    }
}

/// The model's refusals of sheets of some families, at most so many of each number.
pub fn refused_sheets(rng: &mut Random, families: &'static [u64], tries: usize, most: usize) -> Vec<Case> {
    let scope = Scope::of(families);
    refusals_of(rng, &scope, |rng| some_sheet(rng, &scope), tries, most)
}

/// The model's refusals of sheets with damaged names, at most so many of each number.
pub fn sheets_of_damaged_names(rng: &mut Random, tries: usize, most: usize) -> Vec<Case> {
    refusals_of(rng, &Scope::of(NAMED), sheet_of_damaged_names, tries, most)
}

/// The model's refusals of sheets that are made so, at most so many of each number.
fn refusals_of(rng: &mut Random, scope: &Scope, make: impl Fn(&mut Random) -> Vec<u8>, tries: usize, most: usize) -> Vec<Case> {
    let mut counts = [0; 16];
    let mut cases = Vec::new();
    for _ in 0..tries {
        let input = make(rng);
        let (body, out) = needed_rooms(&input, scope);
        let (body_room, room) = (some_room(rng, body), some_room(rng, out));
        if input.len() > LONGEST || body_room.max(room) > LARGEST_ROOM {
            continue;
        }
        let answer = model::sheet(&input, &mut vec![0; body_room], &mut vec![0; room]);
        if let Err(Refused { why, value, also }) = answer {
            counts[why as usize] += 1;
            if counts[why as usize] <= most {
                let (sort, number) = (Sort::Sheet, why as u32);
                cases.push(Case { sort, input, grade: 0, body_room, room, number, value, also, made: Vec::new(), body: 0 });
            }
        }
    }
    cases
}

/// The model's readings of types and imports, at most so many of each number for either.
pub fn readings(rng: &mut Random, tries: usize, most: usize) -> Vec<Case> {
    readings_by(rng, some_reading, tries, most)
}

/// The model's readings of encodings with damaged names, at most so many of each number for types and for imports.
pub fn readings_of_damaged_names(rng: &mut Random, tries: usize, most: usize) -> Vec<Case> {
    readings_by(rng, reading_of_damaged_names, tries, most)
}

/// The model's readings of encodings with padded numbers, at most so many of each number for types and for imports.
pub fn readings_of_padded_numbers(rng: &mut Random, tries: usize, most: usize) -> Vec<Case> {
    readings_by(rng, reading_of_padded_numbers, tries, most)
}

/// The model's readings that are made so, at most so many of each number for types and for imports.
fn readings_by(rng: &mut Random, make: fn(&mut Random, &mut [u32]) -> ReadingCase, tries: usize, most: usize) -> Vec<Case> {
    let mut counts = [[0; 16]; 2];
    let mut cases = Vec::new();
    let mut words = vec![0; 16_384];
    for _ in 0..tries {
        let case = make(rng, &mut words);
        if case.input.len() > LONGEST || case.room > LARGEST_ROOM / 4 {
            continue;
        }
        let stored = reading(case);
        let seen = &mut counts[stored.sort as usize - 1][stored.number as usize];
        *seen += 1;
        if *seen <= most {
            cases.push(stored);
        }
    }
    cases
}

/// A reading with the model's answer.
fn reading(case: ReadingCase) -> Case {
    let ReadingCase { import, input, grade, room } = case;
    let mut row = vec![0; room];
    let answer = if import { model::read_import(&input, grade, &mut row) } else { model::read_type(&input, grade, &mut row) };
    let (number, value, also, words) = match answer {
        Ok(Item { words, taken }) => (0, taken as u64, words as u32, words),
        Err(Refused { why, value, also }) => (why as u32, value, also, 0),
    };
    let made = row[..words].iter().flat_map(|word| word.to_be_bytes()).collect();
    let sort = if import { Sort::Import } else { Sort::Type };
    Case { sort, input, grade, body_room: 0, room: 4 * room, number, value, also, made, body: 0 }
}
