//! Runs of indices: `list of i`, `own i` and an import of function i, written, compared with the crate and read back; and read
//! with the index in five bytes.

use crate::drive::body_size;
use crate::report::{hex, words, Difference, Table};
use crate::tbaunarith::{read_import, read_type, Item, Refused, Section, IMPORTS, TYPES};
use std::ops::RangeInclusive;
use wasm_encoder::{ComponentImportSection, ComponentSection, ComponentTypeRef, ComponentTypeSection, ComponentValType};

/// How many indices go into one section.
pub const RUN: u32 = 4096;

/// A row with one index: where the index stands, the bytes before it, how the item is read, and how the crate writes a run of
/// them.
struct Form {
    name: &'static str,
    family: u64,
    row: &'static [u32],
    place: usize,
    front: &'static [u8],
    read: fn(&[u8], u32, &mut [u32]) -> Result<Item, Refused>,
    write: fn(RangeInclusive<u32>, &mut Vec<u8>),
}

/// An import's name stands in this pool where it stands in the import's bytes, so the row that is read is the row that
/// was written.
const POOL: &[u8] = &[0, 1, b'f'];

const FORMS: [Form; 3] = [
    Form { name: "list of", family: TYPES, row: &[3, 1, 0], place: 2, front: &[0x70], read: read_type, write: crate_lists },
    Form { name: "own", family: TYPES, row: &[11, 0], place: 1, front: &[0x69], read: read_type, write: crate_owns },
    Form {
        name: "import of function",
        family: IMPORTS,
        row: &[17, 2, 1, 0, 0, 0, 0, 0, 0, 0, 0, 0, 1, 0, 0],
        place: 13,
        front: &[0x00, 0x01, b'f', 0x01],
        read: read_import,
        write: crate_imports,
    },
];

fn crate_lists(run: RangeInclusive<u32>, bytes: &mut Vec<u8>) {
    let mut section = ComponentTypeSection::new();
    run.for_each(|index| section.defined_type().list(ComponentValType::Type(index)));
    section.append_to_component(bytes);
}

fn crate_owns(run: RangeInclusive<u32>, bytes: &mut Vec<u8>) {
    let mut section = ComponentTypeSection::new();
    run.for_each(|index| section.defined_type().own(index));
    section.append_to_component(bytes);
}

fn crate_imports(run: RangeInclusive<u32>, bytes: &mut Vec<u8>) {
    let mut section = ComponentImportSection::new();
    for index in run {
        section.import("f", ComponentTypeRef::Func(index));
    }
    section.append_to_component(bytes);
}

/// The buffers of a sweep, used again for every run.
pub struct Sweep {
    body: Vec<u8>,
    out: Vec<u8>,
    other: Vec<u8>,
    padded: Vec<u8>,
}

impl Default for Sweep {
    /// An item has at most 9 bytes; the section's id, size and count have less than 16.
    fn default() -> Sweep {
        let (body, out) = (vec![0; 9 * RUN as usize], vec![0; 9 * RUN as usize + 16]);
        Sweep { body, out, other: Vec::new(), padded: Vec::new() }
    }
}

impl Sweep {
    /// Every form with every index of a run of at most 4096. A difference is told by the first index that shows one.
    pub fn run(&mut self, run: RangeInclusive<u32>) -> Result<(), Difference> {
        for form in &FORMS {
            if let Err(whole) = self.form(form, run.clone()) {
                run.clone().try_for_each(|index| self.form(form, index..=index))?;
                return Err(whole);
            }
        }
        Ok(())
    }

    fn form(&mut self, form: &Form, run: RangeInclusive<u32>) -> Result<(), Difference> {
        let told = |what: &str, library: String, other: String| Difference {
            what: what.into(),
            input: format!(
                "{} i, i at word {} of {}, i from {} to {}",
                form.name,
                form.place,
                words(form.row),
                run.start(),
                run.end()
            ),
            library,
            other,
        };
        self.other.clear();
        (form.write)(run.clone(), &mut self.other);
        let size = self.write(form, run.clone()).map_err(|refused| told("writing", format!("{refused:?}"), hex(&self.other)))?;
        let section = self.out.get(..size).unwrap_or_default();
        if section != self.other {
            return Err(told("writing", hex(section), hex(&self.other)));
        }
        let front = self.other.len() - body_size(&self.other);
        read_back(form, run.clone(), &section[front..]).map_err(|found| told("reading back", found, hex(section)))?;
        self.padded.clear();
        run.clone().for_each(|index| form.add_padded(index, &mut self.padded));
        read_back(form, run.clone(), &self.padded).map_err(|found| told("reading, padded", found, hex(&self.padded)))
    }

    /// The library's section of the run.
    fn write(&mut self, form: &Form, run: RangeInclusive<u32>) -> Result<usize, Refused> {
        let (mut section, mut row) = (Section::new(form.family), [0; 15]);
        let row = &mut row[..form.row.len()];
        row.copy_from_slice(form.row);
        for index in run {
            row[form.place] = index;
            section.row(row, POOL, &mut self.body)?;
        }
        section.finish(&self.body, &mut self.out)
    }
}

impl Form {
    /// Adds the item with the index in five bytes of seven bits, the lowest first.
    fn add_padded(&self, index: u32, bytes: &mut Vec<u8>) {
        let digit = |place: u32| (index >> (7 * place)) as u8 & 0x7f;
        bytes.extend(self.front);
        bytes.extend([0x80 | digit(0), 0x80 | digit(1), 0x80 | digit(2), 0x80 | digit(3), digit(4)]);
    }
}

/// Each item of the body in turn is the row that was written, read at each grade in turn.
fn read_back(form: &Form, run: RangeInclusive<u32>, body: &[u8]) -> Result<(), String> {
    let (mut row, mut wanted, mut rest) = ([0; 16], [0; 15], body);
    let wanted = &mut wanted[..form.row.len()];
    wanted.copy_from_slice(form.row);
    for index in run {
        wanted[form.place] = index;
        let item = (form.read)(rest, 1 + index % 3, &mut row).map_err(|refused| format!("index {index}: {refused:?}"))?;
        if row.get(..item.words) != Some(&*wanted) {
            return Err(format!("index {index}: {} words: {}", item.words, words(&row)));
        }
        rest = rest.get(item.taken..).ok_or_else(|| format!("index {index}: {} bytes taken", item.taken))?;
    }
    if !rest.is_empty() {
        return Err(format!("{} bytes left over", rest.len()));
    }
    Ok(())
}

/// Every index below 2^22, and those around each power of two.
pub fn compare(table: &mut Table) -> Result<(), Difference> {
    let mut sweep = Sweep::default();
    let low = 1 << 22;
    for first in (0..low).step_by(RUN as usize) {
        sweep.run(first..=first + RUN - 1)?;
    }
    table.add("list of i, own i, import of function i: every i below 2^22", "crate", u64::from(3 * low));
    table.add("  read with i in five bytes", "i", u64::from(3 * low));
    let mut around = 0;
    for power in 0..=32 {
        let place: u64 = 1 << power;
        let (first, last) = (place.saturating_sub(64) as u32, (place + 64).min(u64::from(u32::MAX)) as u32);
        sweep.run(first..=last)?;
        around += 3 * u64::from(last - first + 1);
    }
    table.add("the same, 64 to each side of each power of two", "crate", around);
    table.add("  read with i in five bytes", "i", around);
    Ok(())
}
