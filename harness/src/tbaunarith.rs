//! A safe wrapper over the C interface (include/tbaunarith.h). Copy this file to use the library from Rust.

/// Why something is refused, with the numbers and names of document 01.
#[derive(Clone, Copy, Debug, PartialEq, Eq, Hash, PartialOrd, Ord)]
#[repr(u32)]
pub enum Refusal {
    Limit = 1,
    Kind = 2,
    Row = 3,
    Tag = 4,
    Range = 5,
    Text = 6,
    TooBig = 7,
    Room = 8,
    Order = 9,
    Count = 10,
    Cut = 11,
    Code = 12,
    Number = 13,
    Newer = 14,
    Sheet = 15,
}

/// A refusal, and the value that document 01 returns with it. After TEXT `also` is the byte of the name, counted from its
/// first, at which no valid reading can go on (the name's length if it merely ends early); else it is 0.
#[derive(Clone, Copy, Debug, PartialEq, Eq, Hash, PartialOrd, Ord)]
pub struct Refused {
    pub why: Refusal,
    pub value: u64,
    pub also: u32,
}

/// An item that was read: words of the row, and bytes of the input that it took.
#[derive(Clone, Copy, Debug, PartialEq, Eq, Hash, PartialOrd, Ord)]
pub struct Item {
    pub words: usize,
    pub taken: usize,
}

#[repr(C)]
struct Reply {
    number: u32,
    also: u32,
    value: u64,
}

mod c {
    use super::Reply;

    #[link(name = "cabi", kind = "static")]
    extern "C" {
        pub fn tb_sheet(sheet: *const u8, size: usize, body: *mut u8, body_size: usize, out: *mut u8, out_size: usize) -> Reply;
        pub fn tb_read_type(input: *const u8, size: usize, grade: u32, row: *mut u32, words: usize) -> Reply;
        pub fn tb_read_import(input: *const u8, size: usize, grade: u32, row: *mut u32, words: usize) -> Reply;
        pub fn tb_row(state: *mut [u64; 5], row: *const u32, words: usize, pool: *const u8, pool_size: usize, body: *mut u8, body_size: usize) -> Reply;
        pub fn tb_open(state: *mut [u64; 5], body: *mut u8, body_size: usize) -> Reply;
        pub fn tb_head(state: *mut [u64; 5], words: *const u32, count: usize, pool: *const u8, pool_size: usize, body: *mut u8, body_size: usize) -> Reply;
        pub fn tb_result(state: *mut [u64; 5], tag: u32, x: u32, body: *mut u8, body_size: usize) -> Reply;
        pub fn tb_abandon(state: *mut [u64; 5], body: *mut u8, body_size: usize) -> Reply;
        pub fn tb_finish(state: *const [u64; 5], body: *const u8, body_size: usize, out: *mut u8, out_size: usize) -> Reply;
    }
}

fn refusal(number: u32) -> Refusal {
    use Refusal::*;
    const ALL: [Refusal; 15] = [Limit, Kind, Row, Tag, Range, Text, TooBig, Room, Order, Count, Cut, Code, Number, Newer, Sheet];
    ALL[number as usize - 1]
}

impl Reply {
    fn item(self) -> Result<Item, Refused> {
        match self.number {
            0 => Ok(Item { words: self.also as usize, taken: self.value as usize }),
            n => Err(Refused { why: refusal(n), value: self.value, also: self.also }),
        }
    }

    fn size(self) -> Result<usize, Refused> {
        self.item().map(|item| item.taken)
    }
}

/// A whole sheet: its rows' bytes at the front of `body`, the finished section at the front of `out`, whose size is returned.
/// A refusal's value is the row, from 0.
pub fn sheet(sheet: &[u8], body: &mut [u8], out: &mut [u8]) -> Result<usize, Refused> {
    unsafe { c::tb_sheet(sheet.as_ptr(), sheet.len(), body.as_mut_ptr(), body.len(), out.as_mut_ptr(), out.len()) }.size()
}

/// The type at the front of the input; its names are places of the input.
pub fn read_type(input: &[u8], grade: u32, row: &mut [u32]) -> Result<Item, Refused> {
    unsafe { c::tb_read_type(input.as_ptr(), input.len(), grade, row.as_mut_ptr(), row.len()) }.item()
}

/// The import at the front of the input; its names are places of the input.
pub fn read_import(input: &[u8], grade: u32, row: &mut [u32]) -> Result<Item, Refused> {
    unsafe { c::tb_read_import(input.as_ptr(), input.len(), grade, row.as_mut_ptr(), row.len()) }.item()
}

/// A section's state: family, bytes of the body used, entries, phase, and the start of an open function.
#[derive(Clone, Copy, Debug, PartialEq, Eq, Hash)]
pub struct Section {
    pub state: [u64; 5],
}

/// The families, which are the sections' ids.
pub const CORE_INSTANCES: u64 = 2;
pub const INSTANCES: u64 = 5;
pub const TYPES: u64 = 7;
pub const CANONICALS: u64 = 8;
pub const IMPORTS: u64 = 10;

/// Each step returns the bytes that it added to the body, which must be the same body throughout.
impl Section {
    pub fn new(family: u64) -> Section {
        Section { state: [family, 0, 0, 0, 0] }
    }

    /// How much of the body is used.
    pub fn used(&self) -> usize {
        self.state[1] as usize
    }

    pub fn row(&mut self, row: &[u32], pool: &[u8], body: &mut [u8]) -> Result<usize, Refused> {
        unsafe { c::tb_row(&mut self.state, row.as_ptr(), row.len(), pool.as_ptr(), pool.len(), body.as_mut_ptr(), body.len()) }.size()
    }

    /// Opens a function type.
    pub fn open(&mut self, body: &mut [u8]) -> Result<usize, Refused> {
        unsafe { c::tb_open(&mut self.state, body.as_mut_ptr(), body.len()) }.size()
    }

    /// Whether the open function is async, and its parameters: a, n, n of (name, value type), as in a function's row.
    pub fn head(&mut self, words: &[u32], pool: &[u8], body: &mut [u8]) -> Result<usize, Refused> {
        unsafe { c::tb_head(&mut self.state, words.as_ptr(), words.len(), pool.as_ptr(), pool.len(), body.as_mut_ptr(), body.len()) }.size()
    }

    pub fn result(&mut self, tag: u32, x: u32, body: &mut [u8]) -> Result<usize, Refused> {
        unsafe { c::tb_result(&mut self.state, tag, x, body.as_mut_ptr(), body.len()) }.size()
    }

    /// Takes an open function back.
    pub fn abandon(&mut self, body: &mut [u8]) -> Result<usize, Refused> {
        unsafe { c::tb_abandon(&mut self.state, body.as_mut_ptr(), body.len()) }.size()
    }

    /// The finished section at the front of `out`, whose size is returned. The state stays.
    pub fn finish(&self, body: &[u8], out: &mut [u8]) -> Result<usize, Refused> {
        unsafe { c::tb_finish(&self.state, body.as_ptr(), body.len(), out.as_mut_ptr(), out.len()) }.size()
    }
}
