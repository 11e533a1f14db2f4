//! A section built through the library in a body that grows: how a program calls it that need not spare memory.

use crate::tbaunarith::{Refusal, Refused, Section};

/// A section with its body.
pub struct Growing {
    section: Section,
    body: Vec<u8>,
}

impl Growing {
    pub fn new(family: u64) -> Growing {
        Growing { section: Section::new(family), body: Vec::new() }
    }

    /// The section of these rows.
    pub fn of_rows<R: AsRef<[u32]>>(family: u64, rows: &[R], pool: &[u8]) -> Result<Vec<u8>, Refused> {
        let mut growing = Growing::new(family);
        for row in rows {
            growing.step(|section, body| section.row(row.as_ref(), pool, body))?;
        }
        growing.finish()
    }

    /// A step with the body. One that finds too little room says how much it needs, gets that, and is tried again.
    pub fn step(&mut self, step: impl Fn(&mut Section, &mut [u8]) -> Result<usize, Refused>) -> Result<usize, Refused> {
        match step(&mut self.section, &mut self.body) {
            Err(Refused { why: Refusal::Room, value, .. }) => {
                self.body.resize(2 * self.section.used() + value as usize, 0);
                step(&mut self.section, &mut self.body)
            }
            reply => reply,
        }
    }

    /// The finished section, whose size a try without room tells.
    pub fn finish(&mut self) -> Result<Vec<u8>, Refused> {
        let size = match self.section.finish(&self.body, &mut []) {
            Err(Refused { why: Refusal::Room, value, .. }) => value as usize,
            reply => reply?,
        };
        let mut out = vec![0; size];
        self.section.finish(&self.body, &mut out)?;
        Ok(out)
    }
}
