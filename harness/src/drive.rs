//! Drives the library with rows, lending it exactly the room that is needed, and compares it with the crate.

use crate::encode::crate_section_if_valid;
use crate::input::Input;
use crate::report::{first_unlike, hex, words, Difference, Table};
use crate::shrink;
use crate::tbaunarith::{self, read_import, read_type, Item, Refusal, Refused, Section, IMPORTS, TYPES};
use std::fmt::{self, Display};

/// What both sides agreed on.
#[derive(Clone, Copy, Default)]
struct Agreed {
    /// The rows are written to the same section; if not, they are none that document 01 takes.
    written: bool,
    /// The rows fit a sheet, which gives the same section.
    sheet: bool,
    /// They are types or imports, and are read back.
    read_back: bool,
}

/// An answer of either side: a section, or why there is none.
type Answer = Result<Vec<u8>, Fault>;

#[derive(Clone, PartialEq, Eq)]
enum Fault {
    /// A step was refused.
    Refused { step: String, refused: Refused },
    /// Something else, in words.
    Told(String),
}

impl Display for Fault {
    fn fmt(&self, to: &mut fmt::Formatter) -> fmt::Result {
        match self {
            Fault::Refused { step, refused: Refused { why, value, also } } => {
                write!(to, "{step} refused: {why:?}, value {value}, also {also}")
            }
            Fault::Told(text) => write!(to, "{text}"),
        }
    }
}

/// One of the library's two reading calls.
type Read = fn(&[u8], u32, &mut [u32]) -> Result<Item, Refused>;

/// What a lent part is filled with where it must stay, and what stands behind every lent part.
const FILL: u8 = 0xa5;
const GUARD: [u8; 8] = [FILL; 8];

/// A buffer of which a part is lent.
#[derive(Default)]
struct Buffer(Vec<u8>);

impl Buffer {
    /// Room of this many bytes, followed by the guard.
    fn lend(&mut self, room: usize) -> &mut [u8] {
        if self.0.len() < room + GUARD.len() {
            self.0.resize(room + GUARD.len(), 0);
        }
        self.0[room..room + GUARD.len()].copy_from_slice(&GUARD);
        &mut self.0[..room]
    }

    /// Whether nothing was written behind the lent part.
    fn kept_guard(&self, room: usize) -> bool {
        self.0[room..room + GUARD.len()] == GUARD
    }

    /// Whether the lent part, filled beforehand, is as it was.
    fn kept_fill(&self, room: usize) -> bool {
        self.0[..room].iter().all(|byte| *byte == FILL)
    }
}

/// The library with the buffers that it is lent, and what was compared so far.
#[derive(Default)]
pub struct Driver {
    body: Buffer,
    out: Buffer,
    row: Vec<u32>,
    written: u64,
    sheets: u64,
    read_back: u64,
    refused: u64,
}

impl Driver {
    /// Compares the library with the crate. A difference is told by the smallest input that was found to show one.
    pub fn compare(&mut self, input: &Input) -> Result<(), Difference> {
        let agreed = match self.agreed(input) {
            Ok(agreed) => agreed,
            Err(first) => return Err(shrink::smallest(input.clone(), |smaller| self.agreed(smaller).err()).unwrap_or(first)),
        };
        self.written += u64::from(agreed.written);
        self.sheets += u64::from(agreed.sheet);
        self.read_back += u64::from(agreed.read_back);
        self.refused += u64::from(!agreed.written);
        Ok(())
    }

    /// The same for rows that were made to be valid.
    pub fn compare_valid(&mut self, input: &Input) -> Result<(), Difference> {
        self.compare(input)?;
        match self.refused {
            0 => Ok(()),
            _ => Err(format!("both sides refuse what was made to be valid: {}", input.shown()).into()),
        }
    }

    /// Adds what was compared to the table: a line for the sections, and one for each thing besides.
    pub fn add_to(self, table: &mut Table, what: &str) {
        table.add(what, "crate", self.written);
        let besides = [
            ("  as a sheet, if they fit one", "crate", self.sheets),
            ("  read back, and what was read written by the crate", "crate", self.read_back),
            ("  others of them, no valid rows: refused", "document 01", self.refused),
        ];
        for (what, with, times) in besides.into_iter().filter(|line| line.2 > 0) {
            table.add(what, with, times);
        }
    }

    fn agreed(&mut self, input: &Input) -> Result<Agreed, Difference> {
        let Some(section) = crate_section_if_valid(input.family, &input.beside_pool()) else {
            return match self.by_rows(input, 1 << 20, 1 << 20) {
                Err(Fault::Refused { refused, .. }) if refused.why != Refusal::Room => Ok(Agreed::default()),
                taken => Err(told("rows that document 01 refuses", input, &taken, &Err(Fault::Told("no such row".into())))),
            };
        };
        let (body, room) = (body_size(&section), section.len());
        let section = Ok(section);
        let mut agreed = Agreed { written: true, ..Agreed::default() };
        same("rows, written one by one", input, &self.by_rows(input, body, room), &section)?;
        if input.rows.len() == 1 {
            self.refuses_short_room(input, body, room)?;
        }
        agreed.read_back = self.reads_back(input, body, &section)?;
        if let Some(sheet) = input.sheet() {
            same("rows, written as a sheet", input, &self.by_sheet(&sheet, body, room), &section)?;
            agreed.sheet = true;
        }
        Ok(agreed)
    }

    /// The items of a body, read one after the other with the rest behind them, are rows that the crate writes to the same
    /// section. A row that is read has its names in the bytes, so these are its pool, if they are not too long for one.
    fn reads_back(&mut self, input: &Input, body: usize, section: &Answer) -> Result<bool, Difference> {
        let read = match input.family {
            TYPES => read_type,
            IMPORTS => read_import,
            _ => return Ok(false),
        };
        if body > 65_536 {
            return Ok(false);
        }
        same("items read back and written again by the crate", input, &self.written_again(input, body, read), section)?;
        Ok(true)
    }

    /// The crate's section of the rows that are read from the body, of which there must be as many as were written.
    fn written_again(&mut self, input: &Input, body: usize, read: Read) -> Answer {
        let (mut rows, mut place) = (Vec::new(), 0);
        self.row.resize(16_384, 0);
        while rows.len() < input.rows.len() {
            let rest = self.body.0[..body + GUARD.len()].get(place..).unwrap_or_default();
            let item = read(rest, 3, &mut self.row).map_err(refusal(&format!("reading at {place}")))?;
            rows.push((
                self.row[..item.words.min(self.row.len())].to_vec(),
                self.body.0[..body].get(place..).unwrap_or_default(),
            ));
            place += item.taken;
        }
        let again = crate_section_if_valid(input.family, &rows).filter(|_| place == body);
        again.ok_or_else(|| Fault::Told(format!("{place} bytes read, the last as row {}", words(&rows[rows.len() - 1].0))))
    }

    /// A row alone, with a byte too little for it or for its section, gets ROOM with the size, and nothing is written.
    fn refuses_short_room(&mut self, input: &Input, body: usize, room: usize) -> Result<(), Difference> {
        self.body.lend(body - 1).fill(FILL);
        self.out.lend(room - 1).fill(FILL);
        let short_body = self.by_rows(input, body - 1, room - 1);
        let short_body = if self.body.kept_fill(body - 1) { short_body } else { Err(Fault::Told("wrote to the body".into())) };
        same("a row with a byte of room too little", input, &short_body, &needs_room("row 0", body))?;
        let short_out = self.by_rows(input, body, room - 1);
        let short_out = if self.out.kept_fill(room - 1) { short_out } else { Err(Fault::Told("wrote to the output".into())) };
        same("a section with a byte of room too little", input, &short_out, &needs_room("finish", room))
    }

    /// The section, built row by row and finished with this much room for the body and for the section.
    fn by_rows(&mut self, input: &Input, body_room: usize, room: usize) -> Answer {
        let body = self.body.lend(body_room);
        let mut section = Section::new(input.family);
        for (place, row) in input.rows.iter().enumerate() {
            let before = section.used();
            let added = section.row(row, &input.pool, body).map_err(|refused| refusal(&format!("row {place}"))(refused))?;
            if section.used() != before + added {
                let used = section.used();
                return Err(Fault::Told(format!("row {place} says {added} bytes, but the body went from {before} to {used}")));
            }
        }
        let size = section.finish(body, self.out.lend(room)).map_err(refusal("finish"))?;
        self.kept(body_room, room, size)
    }

    /// The section that the sheet gives, with this much room for its body and for the section.
    fn by_sheet(&mut self, sheet: &[u8], body_room: usize, room: usize) -> Answer {
        let written = tbaunarith::sheet(sheet, self.body.lend(body_room), self.out.lend(room));
        let size = written.map_err(refusal("sheet"))?;
        self.kept(body_room, room, size)
    }

    /// The section at the front of the output, if nothing was written behind what was lent.
    fn kept(&self, body_room: usize, room: usize, size: usize) -> Answer {
        if !self.body.kept_guard(body_room) || !self.out.kept_guard(room) {
            return Err(Fault::Told("wrote behind the lent room".into()));
        }
        let section = self.out.0[..room].get(..size).map(<[u8]>::to_vec);
        section.ok_or_else(|| Fault::Told(format!("says {size} bytes, with room for {room}")))
    }
}

/// Makes a step's refusal an answer's fault.
fn refusal(step: &str) -> impl Fn(Refused) -> Fault + '_ {
    move |refused| Fault::Refused { step: step.into(), refused }
}

/// The answer ROOM of a step that would add this many bytes.
fn needs_room(step: &str, size: usize) -> Answer {
    Err(refusal(step)(Refused { why: Refusal::Room, value: size as u64, also: 0 }))
}

/// The size of a finished section's body: what follows id, size and count.
pub fn body_size(section: &[u8]) -> usize {
    let number = |from: usize| from + 1 + section[from..].iter().take_while(|byte| **byte >= 0x80).count();
    section.len() - number(number(1))
}

/// A difference unless the two answers are the same.
fn same(what: &str, input: &Input, library: &Answer, other: &Answer) -> Result<(), Difference> {
    if library == other {
        Ok(())
    } else {
        Err(told(what, input, library, other))
    }
}

fn told(what: &str, input: &Input, library: &Answer, other: &Answer) -> Difference {
    let shown = |answer: &Answer| answer.as_ref().map_or_else(Fault::to_string, |bytes| hex(bytes));
    let place = match (library, other) {
        (Ok(library), Ok(other)) => first_unlike(library, other),
        _ => String::new(),
    };
    Difference { what: format!("{what}{place}"), input: input.shown(), library: shown(library), other: shown(other) }
}
