//! Loads for the bench: rows that both sides write, and whose section both sides read; sheets of rows; rows that are refused.

use crate::growing::Growing;
use crate::input::{family_of, Input};
use crate::lean::{PLAIN_IMPORTS, PLAIN_INSTANCES};
use crate::model;
use crate::padded;
use crate::random::{row_of, Material, Random, KINDS, POOL_BYTES};
use crate::sample::{Sample, JUDGE, PUMP, WATCH};
use crate::tbaunarith::{IMPORTS, INSTANCES, TYPES};
use std::ops::{Range, RangeInclusive};

/// Rows beside their pool, gone through more than once for a long section; or sheets.
#[derive(Default)]
pub struct Load {
    pub input: Input,
    /// The family for the crate's calls, which may be `PLAIN_IMPORTS` or `PLAIN_INSTANCES`.
    pub their_family: u64,
    pub repeats: usize,
    pub sheets: Vec<Vec<u8>>,
    /// How many rows these are in all.
    pub items: usize,
    /// Their section by the library's rows; of sheets the sections one after another.
    pub section: Vec<u8>,
}

/// A load by its name: what is done with it, how large it is where it is timed and where its instructions are counted, and
/// what makes it of a size.
pub struct Plan {
    pub name: &'static str,
    pub directions: &'static [&'static str],
    pub timed: usize,
    pub counted: usize,
    pub make: Maker,
}

type Maker = fn(usize) -> Load;

/// Loads whose size is about how long the section is, so that growth can be shown.
pub const GROWING: [Plan; 4] = [
    by_bytes("small-types", small_types),
    by_bytes("small-imports", small_imports),
    by_bytes("long-names", long_names),
    by_bytes("long-tuple", long_tuple),
];

/// Loads whose size is the number of rows, all of them made anew. Scripts are mixed within a name. wasmparser 0.239 reads no
/// import with options and no async function.
pub const VARIOUS: [Plan; 25] = [
    by_rows("canonicals", WRITE, |rows| in_a_section(rows, CANONICAL, &[LATIN], any)),
    by_rows("lift-lower", WRITE, |rows| in_a_section(rows, 0x100..=0x101, &[LATIN], any)),
    by_rows("import-options", WRITE, |rows| in_a_section(rows, IMPORT, &[LATIN], has_options)),
    by_rows("core-instances", WRITE, |rows| in_a_section(rows, CORE_INSTANCE, &[LATIN], any)),
    by_rows("instances", WRITE, plain_instances),
    by_rows("items-options", WRITE, |rows| in_a_section(rows, 21..=21, &[LATIN], any)),
    by_rows("index-lists", WRITE_READ, |rows| in_a_section(rows, 3..=3, &[LATIN], |row| row[1] == 1)),
    by_rows("padded-indices", READ, padded_indices),
    by_rows("results", WRITE_READ, |rows| in_a_section(rows, 10..=10, &[LATIN], any)),
    by_rows("variants", WRITE_READ, |rows| in_a_section(rows, 2..=2, &[LATIN], any)),
    by_rows("enums", WRITE_READ, |rows| in_a_section(rows, 8..=8, &[LATIN], any)),
    by_rows("functions", WRITE_READ, |rows| in_a_section(rows, 15..=15, &[LATIN], |row| row[1] == 0)),
    by_rows("cyrillic", WRITE_READ, |rows| in_a_section(rows, 1..=1, &[CYRILLIC], any)),
    by_rows("cjk", WRITE_READ, |rows| in_a_section(rows, 1..=1, &[CJK], any)),
    by_rows("mixed-scripts", WRITE_READ, |rows| in_a_section(rows, 1..=1, &[LATIN, CYRILLIC, CJK], any)),
    by_rows("types-by-3", SHEET, |rows| in_sheets(rows, TYPE, FEW)),
    by_rows("types-by-500", SHEET, |rows| in_sheets(rows, TYPE, MANY)),
    by_rows("imports-by-3", SHEET, |rows| in_sheets(rows, IMPORT, FEW)),
    by_rows("imports-by-500", SHEET, |rows| in_sheets(rows, IMPORT, MANY)),
    by_rows("canon-by-3", SHEET, |rows| in_sheets(rows, CANONICAL, FEW)),
    by_rows("canon-by-500", SHEET, |rows| in_sheets(rows, CANONICAL, MANY)),
    by_rows("core-by-3", SHEET, |rows| in_sheets(rows, CORE_INSTANCE, FEW)),
    by_rows("core-by-500", SHEET, |rows| in_sheets(rows, CORE_INSTANCE, MANY)),
    by_rows("inst-by-3", SHEET, |rows| in_sheets(rows, INSTANCE, FEW)),
    by_rows("inst-by-150", SHEET, |rows| in_sheets(rows, INSTANCE, LONG)),
];

/// Long records, the first load's accepted and the others' refused at their last field, whose words are given: its name's two,
/// tag and primitive. The size is how many fields all records have together.
pub const REFUSED: [Plan; 3] = [
    by_rows("accepted", TRY, |fields| long_records(fields, |_, _| ())),
    by_rows("bad-tag", TRY, |fields| long_records(fields, |field, _| field[2] = 2)),
    by_rows("bad-name", TRY, |fields| long_records(fields, |field, bad_name| field[..2].copy_from_slice(&bad_name))),
];

/// What can be done with a load.
const WRITE: &[&str] = &["write"];
const READ: &[&str] = &["read"];
const WRITE_READ: &[&str] = &["write", "read"];
const SHEET: &[&str] = &["sheet"];
const TRY: &[&str] = &["try"];

/// How long a section is made of rows of its own; a longer one repeats them.
const VARIED: usize = 16 * 1024;

/// How many rows are made anew where time is measured: more than a processor learns the branches of.
const ROWS: usize = 20_000;

/// The rows of a sheet; long ones fill it sooner.
const FEW: usize = 3;
const MANY: usize = 500;
const LONG: usize = 150;

/// The families' kinds, with those of other families between.
const TYPE: RangeInclusive<u32> = 0..=16;
const IMPORT: RangeInclusive<u32> = 17..=17;
const CORE_INSTANCE: RangeInclusive<u32> = 18..=20;
const INSTANCE: RangeInclusive<u32> = 19..=21;
const CANONICAL: RangeInclusive<u32> = 0x100..=0x141;

/// Scripts whose letters have one, two and three bytes: the first letter, and how many there are.
const LATIN: (char, usize) = ('a', 26);
const CYRILLIC: (char, usize) = ('а', 32);
const CJK: (char, usize) = ('一', 20_992);

/// A record's fields, and the bytes of their names.
const FIELDS: usize = 8;
const NAME: usize = 40;

/// The fields of a record that is refused at the last, and a name that is not UTF-8.
const LONG_RECORD: usize = 200;
const BAD_NAME: &[u8] = b"pressur\xff";

/// How many types a long tuple has, and below what their indices are: they take one to three bytes.
const TUPLE: usize = 8_000;
const INDICES: usize = 10_000;

const fn by_bytes(name: &'static str, make: Maker) -> Plan {
    Plan { name, directions: WRITE_READ, timed: VARIED, counted: VARIED, make }
}

const fn by_rows(name: &'static str, directions: &'static [&'static str], make: Maker) -> Plan {
    Plan { name, directions, timed: ROWS, counted: ROWS / 10, make }
}

impl Load {
    /// Rows that are gone through so often.
    fn of_rows(input: Input, repeats: usize) -> Load {
        let rows: Vec<&Vec<u32>> = (0..repeats).flat_map(|_| &input.rows).collect();
        let (items, section) = (rows.len(), section_of(&input, &rows));
        let plain = !input.rows.iter().any(|row| has_options(row));
        let their_family = match input.family {
            IMPORTS if plain => PLAIN_IMPORTS,
            INSTANCES if plain => PLAIN_INSTANCES,
            family => family,
        };
        Load { input, their_family, repeats, items, section, ..Load::default() }
    }

    /// Sheets.
    fn of_sheets(inputs: &[Input]) -> Load {
        let sheets = inputs.iter().map(|input| input.sheet().expect("rows that fit a sheet")).collect();
        let sections: Vec<Vec<u8>> = inputs.iter().map(|input| section_of(input, &input.rows)).collect();
        let items = inputs.iter().map(|input| input.rows.len()).sum();
        Load { sheets, items, section: sections.concat(), ..Load::default() }
    }

    /// Rows from a maker, for a section of about this many bytes.
    fn of_bytes(family: u64, pool: Vec<u8>, bytes: usize, mut make: impl FnMut() -> Vec<u32>) -> Load {
        let mut input = Input { family, rows: Vec::new(), pool };
        let mut made = 0;
        while made < bytes.min(VARIED) {
            let row = make();
            made += section_of(&input, &[&row]).len() - 3;
            input.rows.push(row);
        }
        Load::of_rows(input, bytes.div_ceil(VARIED))
    }
}

/// The section of these rows beside the input's pool.
fn section_of<R: AsRef<[u32]>>(input: &Input, rows: &[R]) -> Vec<u8> {
    Growing::of_rows(input.family, rows, &input.pool).expect("rows of a load are valid")
}

fn small_types(bytes: usize) -> Load {
    of_samples(TYPES, bytes)
}

fn small_imports(bytes: usize) -> Load {
    of_samples(IMPORTS, bytes)
}

/// Rows of the sample components, picked at random.
fn of_samples(family: u64, bytes: usize) -> Load {
    let sample = Sample::of(&[JUDGE, PUMP, WATCH].concat()).expect("the samples are right");
    let (rows, mut random) = (sample.rows(family), Random::new(family));
    Load::of_bytes(family, sample.pool.clone(), bytes, || random.pick(&rows).to_vec())
}

/// Records of long ASCII names.
fn long_names(bytes: usize) -> Load {
    let mut random = Random::new(1);
    let pool: Vec<u8> = (0..64 * NAME).map(|_| b'a' + random.below(26) as u8).collect();
    Load::of_bytes(TYPES, pool, bytes, || {
        let mut row = vec![1, FIELDS as u32];
        for _ in 0..FIELDS {
            row.extend([(random.below(64) * NAME) as u32, NAME as u32, 0, random.below(13) as u32]);
        }
        row
    })
}

/// Tuples of many indices.
fn long_tuple(bytes: usize) -> Load {
    let (mut random, types) = (Random::new(2), TUPLE.min(bytes / 2));
    Load::of_bytes(TYPES, Vec::new(), bytes, || {
        let mut row = vec![6, types as u32];
        row.extend((0..types).flat_map(|_| [1, random.below(INDICES) as u32]));
        row
    })
}

/// Rows of some kinds that fit, all beside one pool.
fn in_a_section(rows: usize, kinds: RangeInclusive<u32>, scripts: Scripts, fits: fn(&[u32]) -> bool) -> Load {
    Load::of_rows(Usual::new(scripts, 0..8).input(rows, kinds, fits), 1)
}

/// List, option, own and borrow of an index, each index in five bytes, as a linker writes them that is to patch them. The rows
/// are there for their number and family only: they would be written in fewer bytes.
fn padded_indices(rows: usize) -> Load {
    let of_index = |row: &[u32]| matches!(row, [3 | 9, 1, _] | [11 | 12, _]);
    let load = in_a_section(rows, 3..=12, &[LATIN], of_index);
    let shortest = |row: &Vec<u32>| model::write_row(TYPES, row, &[]).expect("rows of a load are valid");
    let items: Vec<Vec<u8>> = load.input.rows.iter().map(|row| padded::in_five_bytes(false, &shortest(row))).collect();
    Load { section: padded::section_of(TYPES, &items, || 1), ..load }
}

/// Instances none of which has options.
fn plain_instances(rows: usize) -> Load {
    let mut usual = Usual { options: false, ..Usual::new(&[LATIN], 0..8) };
    Load::of_rows(usual.input(rows, INSTANCE, any), 1)
}

fn any(_: &[u32]) -> bool {
    true
}

/// Of an import, or of component items.
fn has_options(row: &[u32]) -> bool {
    let given = |name: &[u32]| name[2] + name[5] + name[8] > 0;
    match row[0] {
        17 => given(&row[1..]),
        21 => row[2..].chunks(13).any(given),
        _ => false,
    }
}

/// Rows of some kinds in sheets of so many, each with a pool of its own.
fn in_sheets(rows: usize, kinds: RangeInclusive<u32>, in_each: usize) -> Load {
    let mut usual = Usual::new(&[LATIN], 0..8);
    let inputs: Vec<Input> = (0..rows.div_ceil(in_each)).map(|_| usual.input(in_each, kinds.clone(), any)).collect();
    Load::of_sheets(&inputs)
}

/// Long records, changed in the words of their last field, which gets a name that is not UTF-8 to take.
fn long_records(fields: usize, change: fn(&mut [u32], [u32; 2])) -> Load {
    let mut usual = Usual::new(&[LATIN], LONG_RECORD..LONG_RECORD + 1);
    let mut load = Load::of_rows(usual.input(fields / LONG_RECORD, 1..=1, any), 1);
    let start = load.input.pool.len() as u32;
    load.input.pool.extend(BAD_NAME);
    for row in &mut load.input.rows {
        let last = row.len() - 4;
        change(&mut row[last..], [start, BAD_NAME.len() as u32]);
    }
    load
}

/// The scripts that a name's letters are of.
type Scripts = &'static [(char, usize)];

/// Material such as a user has: short names and lists, and indices of one to three bytes, small ones as often as large.
struct Usual {
    random: Random,
    scripts: Scripts,
    entries: Range<usize>,
    /// Whether names have options.
    options: bool,
    pool: Vec<u8>,
    names: Vec<[u32; 2]>,
}

impl Usual {
    fn new(scripts: Scripts, entries: Range<usize>) -> Usual {
        Usual { random: Random::new(3), scripts, entries, options: true, pool: Vec::new(), names: Vec::new() }
    }

    /// So many rows of some kinds that fit, of the first one's family, beside a new pool.
    fn input(&mut self, rows: usize, kinds: RangeInclusive<u32>, fits: fn(&[u32]) -> bool) -> Input {
        let mut input = Input { family: family_of(*kinds.start()), ..Input::default() };
        let fit = |kind: &u32| kinds.contains(kind) && family_of(*kind) == input.family;
        let kinds: Vec<u32> = KINDS.iter().copied().filter(fit).collect();
        self.names.clear();
        while input.rows.len() < rows {
            let row = row_of(*self.random.pick(&kinds), self);
            if fits(&row) {
                input.rows.push(row);
            }
        }
        input.pool = std::mem::take(&mut self.pool);
        input
    }
}

impl Material for Usual {
    fn random(&mut self) -> &mut Random {
        &mut self.random
    }

    fn number(&mut self) -> u32 {
        let bits = self.random.below(15);
        self.random.below(1 << bits) as u32
    }

    fn entries(&mut self, _: usize) -> usize {
        self.entries.start + self.random.below(self.entries.len())
    }

    fn has_option(&mut self) -> bool {
        self.options && self.random.below(2) == 1
    }

    /// A name of 3 to 12 letters at the pool's end, or an earlier one where the pool is full.
    fn name(&mut self) -> [u32; 2] {
        let letters = 3 + self.random.below(10);
        let (start, longest) = (self.pool.len(), 4 * letters);
        if start + longest + BAD_NAME.len() > POOL_BYTES {
            return *self.random.pick(&self.names);
        }
        for _ in 0..letters {
            let (first, count) = *self.random.pick(self.scripts);
            let letter = char::from_u32(first as u32 + self.random.below(count) as u32).expect("a letter");
            self.pool.extend(letter.encode_utf8(&mut [0; 4]).bytes());
        }
        let name = [start as u32, (self.pool.len() - start) as u32];
        self.names.push(name);
        name
    }
}

#[cfg(test)]
mod tests {
    use super::*;
    use crate::frames;
    use crate::tbaunarith::{Refusal, Refused};

    #[test]
    fn long_records_are_refused_at_their_last_field() {
        let answers = REFUSED.map(|plan| {
            let Load { input, .. } = (plan.make)(2 * LONG_RECORD);
            Growing::of_rows(TYPES, &input.rows, &input.pool).map(|_| ())
        });
        let field = 2 + 4 * (LONG_RECORD as u64 - 1);
        let tag = Refused { why: Refusal::Tag, value: field + 2, also: 0 };
        let text = Refused { why: Refusal::Text, value: field, also: 7 };
        assert_eq!(answers, [Ok(()), Err(tag), Err(text)]);
    }

    #[test]
    fn indices_are_padded() {
        let Load { input, section, .. } = padded_indices(300);
        assert_eq!(frames::body(&section).map(<[u8]>::len), Some(300 * 6));
        assert!([3, 9, 11, 12].iter().all(|kind| input.rows.iter().any(|row| row[0] == *kind)));
    }

    #[test]
    fn small_sizes_make_loads() {
        for plan in VARIOUS {
            assert!((plan.make)(1).items > 0, "{}", plan.name);
        }
    }
}
