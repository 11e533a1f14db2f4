//! Sample components as text: sections of rows and steps in the words of document 01, some of them with a name.
//!
//! `;` begins a comment. `types`, `imports`, `canonicals`, `core-instances` or `instances` begins a section of the library; each
//! line of it is a row, or a step after `step`. `crate` stands for a section that wasm-encoder writes, and the rest of the line says
//! what it is.
//! In a row a number is a word, "text" a name, @5 the value type of index 5, and other words are in the list below.

use crate::growing::Growing;
use crate::tbaunarith::{Refused, CANONICALS, CORE_INSTANCES, IMPORTS, INSTANCES, TYPES};

// The samples, whose rows a user of wasm-encoder would write as in stations.rs.
pub const JUDGE: &str = include_str!("../samples/judge.txt");
pub const PUMP: &str = include_str!("../samples/pump.txt");
pub const WATCH: &str = include_str!("../samples/watch.txt");
pub const GAUGE: &str = include_str!("../samples/gauge.txt");
pub const NEWER: &str = include_str!("../samples/newer.txt");

/// A component's sections, and the pool of all their names.
#[derive(Default)]
pub struct Sample {
    pub sections: Vec<Section>,
    pub pool: Vec<u8>,
}

/// A section's family and what is added to it; no family if wasm-encoder writes it.
pub struct Section {
    pub family: Option<u64>,
    pub entries: Vec<Entry>,
}

/// What is added to a section.
pub enum Entry {
    Row(Vec<u32>),
    Open,
    Head(Vec<u32>),
    Result(u32, u32),
    Abandon,
}

impl Sample {
    /// The sample with this text; a fault is told by its line.
    pub fn of(text: &str) -> Result<Sample, String> {
        let mut sample = Sample::default();
        for (number, line) in text.lines().enumerate() {
            let line = line.split(';').next().unwrap_or_default().trim();
            if !line.is_empty() {
                sample.add(line).ok_or_else(|| format!("line {} of the sample: {line}", number + 1))?;
            }
        }
        Ok(sample)
    }

    /// A line that is not empty: a section's beginning, or an entry of the section that was begun last.
    fn add(&mut self, line: &str) -> Option<()> {
        let family = match line {
            "types" => Some(TYPES),
            "imports" => Some(IMPORTS),
            "canonicals" => Some(CANONICALS),
            "core-instances" => Some(CORE_INSTANCES),
            "instances" => Some(INSTANCES),
            _ if line.starts_with("crate ") => None,
            _ => {
                let entry = self.entry(line)?;
                let section = self.sections.last_mut().filter(|section| section.family.is_some())?;
                section.entries.push(entry);
                return Some(());
            }
        };
        self.sections.push(Section { family, entries: Vec::new() });
        Some(())
    }

    /// A row or a step.
    fn entry(&mut self, line: &str) -> Option<Entry> {
        let Some(step) = line.strip_prefix("step ") else { return self.words(line).map(Entry::Row) };
        let (step, rest) = step.split_once(' ').unwrap_or((step, ""));
        let words = self.words(rest)?;
        match (step, words.as_slice()) {
            ("open", []) => Some(Entry::Open),
            ("head", _) => Some(Entry::Head(words)),
            ("result", [tag, x]) => Some(Entry::Result(*tag, *x)),
            ("abandon", []) => Some(Entry::Abandon),
            _ => None,
        }
    }

    /// The words that a line stands for; its names go to the end of the pool.
    fn words(&mut self, line: &str) -> Option<Vec<u32>> {
        let mut words = Vec::new();
        for token in line.split_whitespace() {
            if let Some(name) = token.strip_prefix('"') {
                let name = name.strip_suffix('"')?;
                words.extend([self.pool.len() as u32, name.len() as u32]);
                self.pool.extend(name.as_bytes());
            } else if let Some(index) = token.strip_prefix('@') {
                words.extend([1, index.parse().ok()?]);
            } else if let Ok(word) = token.parse() {
                words.push(word);
            } else {
                words.extend(VOCABULARY.iter().find(|(name, _)| *name == token)?.1);
            }
        }
        Some(words)
    }

    /// The rows of a family, without those in steps.
    pub fn rows(&self, family: u64) -> Vec<&[u32]> {
        let sections = self.sections.iter().filter(|section| section.family == Some(family));
        let rows = sections.flat_map(|section| &section.entries).filter_map(|entry| match entry {
            Entry::Row(row) => Some(row.as_slice()),
            _ => None,
        });
        rows.collect()
    }
}

impl Section {
    /// The section as the library writes it, beside the sample's pool; nothing if wasm-encoder writes it.
    pub fn written(&self, pool: &[u8]) -> Option<Result<Vec<u8>, Refused>> {
        let mut growing = Growing::new(self.family?);
        let taken = self.entries.iter().try_for_each(|entry| {
            let step = growing.step(|section, body| match entry {
                Entry::Row(row) => section.row(row, pool, body),
                Entry::Open => section.open(body),
                Entry::Head(words) => section.head(words, pool, body),
                Entry::Result(tag, x) => section.result(*tag, *x, body),
                Entry::Abandon => section.abandon(body),
            });
            step.map(|_| ())
        });
        Some(taken.and_then(|()| growing.finish()))
    }
}

/// Words with a name.
#[rustfmt::skip]
const VOCABULARY: &[(&str, &[u32])] = &[
    // Value types: primitives, and (2,0) for absent.
    ("bool", &[0, 0]), ("s8", &[0, 1]), ("u8", &[0, 2]), ("s16", &[0, 3]), ("u16", &[0, 4]), ("s32", &[0, 5]), ("u32", &[0, 6]),
    ("s64", &[0, 7]), ("u64", &[0, 8]), ("f32", &[0, 9]), ("f64", &[0, 10]), ("char", &[0, 11]), ("string", &[0, 12]),
    ("error-context", &[0, 13]), ("-", &[2, 0]),
    // Kinds of types; a resource's rep; whether a function is async.
    ("primitive", &[0]), ("record", &[1]), ("variant", &[2]), ("list", &[3]), ("map", &[4]), ("fixed-list", &[5]), ("tuple", &[6]),
    ("flags", &[7]), ("enum", &[8]), ("option", &[9]), ("result", &[10]), ("own", &[11]), ("borrow", &[12]), ("future", &[13]),
    ("stream", &[14]), ("function", &[15, 0]), ("async-function", &[15, 1]), ("resource", &[16]), ("i32", &[0]), ("i64", &[1]),
    // An import; whether each of the three options of a name is there; an import's reference.
    ("import", &[17]), ("without", &[0, 0, 0]), ("plain", &[0, 0, 0, 0, 0, 0, 0, 0, 0]), ("with", &[1]),
    ("of-module", &[0]), ("of-function", &[1]), ("of-value", &[2]), ("equal-to", &[3, 0]), ("fresh-resource", &[3, 1, 0]),
    ("of-component", &[4]), ("of-instance", &[5]),
    // Instances; kinds of core items; sorts of arguments and items.
    ("instantiate-core", &[18]), ("instantiate", &[19]), ("core-items", &[20]), ("items", &[21]),
    ("core:function", &[0]), ("core:table", &[1]), ("core:memory", &[2]), ("core:global", &[3]), ("core:tag", &[4]),
    ("sort:module", &[0]), ("sort:function", &[1]), ("sort:value", &[2]), ("sort:type", &[3]), ("sort:component", &[4]),
    ("sort:instance", &[5]),
    // Canonicals.
    ("lift", &[0x100]), ("lower", &[0x101]), ("resource.new", &[0x102]), ("resource.drop", &[0x103]), ("resource.rep", &[0x104]),
    ("task.cancel", &[0x105]), ("subtask.cancel", &[0x106]), ("context.get", &[0x10a]), ("context.set", &[0x10b]),
    ("thread.yield", &[0x10c]), ("subtask.drop", &[0x10d]), ("stream.new", &[0x10e]), ("stream.read", &[0x10f]),
    ("stream.cancel-read", &[0x111]), ("stream.cancel-write", &[0x112]), ("stream.drop-readable", &[0x113]),
    ("stream.drop-writable", &[0x114]), ("future.new", &[0x115]), ("future.read", &[0x116]), ("future.cancel-read", &[0x118]),
    ("future.cancel-write", &[0x119]), ("future.drop-readable", &[0x11a]), ("future.drop-writable", &[0x11b]),
    ("error-context.drop", &[0x11e]), ("waitable-set.new", &[0x11f]), ("waitable-set.wait", &[0x120]),
    ("waitable-set.poll", &[0x121]), ("waitable-set.drop", &[0x122]), ("waitable.join", &[0x123]), ("backpressure.inc", &[0x124]),
    ("backpressure.dec", &[0x125]), ("thread.index", &[0x126]), ("thread.new-indirect", &[0x127]), ("thread.suspend", &[0x129]),
    ("thread.suspend-then-resume", &[0x12a]), ("thread.yield-then-resume", &[0x12b]), ("thread.suspend-then-promote", &[0x12c]),
    ("thread.yield-then-promote", &[0x12d]), ("stream.forward", &[0x12e]), ("future.forward", &[0x12f]),
    ("thread.spawn-ref", &[0x140]), ("thread.spawn-indirect", &[0x141]),
    // Options of a canonical.
    ("utf8", &[0, 0]), ("utf16", &[1, 0]), ("compact-utf16", &[2, 0]), ("memory", &[3]), ("realloc", &[4]), ("post-return", &[5]),
    ("async", &[6, 0]), ("callback", &[7]), ("core-type", &[8]), ("gc", &[9, 0]),
];

#[cfg(test)]
mod tests {
    use super::*;

    #[test]
    fn lines_become_rows_and_steps() {
        let text = "types\nrecord 1 \"x\" @5 ; a field\n\ncrate aliases\ntypes\nstep open\nstep result -\n";
        let sample = Sample::of(text).expect("a right sample");
        assert_eq!(sample.rows(TYPES), [[1, 1, 0, 1, 1, 5]]);
        assert_eq!(sample.pool, b"x");
        assert_eq!(sample.sections.iter().map(|section| section.family).collect::<Vec<_>>(), [Some(TYPES), None, Some(TYPES)]);
        assert!(matches!(sample.sections[2].entries[..], [Entry::Open, Entry::Result(2, 0)]));
    }

    #[test]
    fn a_fault_is_told_by_its_line() {
        for text in ["types\nrecrd 0", "types\nstep opne", "types\nflags 1 \"x", "crate it\nown 0", "\nown 0"] {
            assert!(Sample::of(text).is_err_and(|fault| fault.starts_with("line 2")), "{text}");
        }
    }
}
