//! Whole components built through the library: the bytes that wasm-encoder writes, and valid to a tool nobody here wrote.

use crate::frames;
use crate::random::KINDS;
use crate::report::{first_unlike, hex, Difference, Table};
use crate::sample::{self, Entry, Sample};
use crate::stations;
use std::collections::BTreeSet;
use std::path::{Path, PathBuf};
use std::process::Command;

/// A sample component: its text for the library, the same in calls of wasm-encoder, and whether the tool knows its forms.
struct Component {
    name: &'static str,
    text: &'static str,
    by_crate: fn() -> Vec<u8>,
    known: bool,
}

const COMPONENTS: [Component; 5] = [
    Component { name: "judge", text: sample::JUDGE, by_crate: stations::judge, known: true },
    Component { name: "pump", text: sample::PUMP, by_crate: stations::pump, known: true },
    Component { name: "watch", text: sample::WATCH, by_crate: stations::watch, known: true },
    Component { name: "gauge", text: sample::GAUGE, by_crate: stations::gauge, known: true },
    Component { name: "newer", text: sample::NEWER, by_crate: stations::newer, known: false },
];

/// Each component: built, compared, and judged by wasm-tools if TBAUNARITH_WASM_TOOLS says where it is.
pub fn compare(table: &mut Table) -> Result<(), Difference> {
    let tool = std::env::var_os("TBAUNARITH_WASM_TOOLS").map(PathBuf::from);
    let mut validated = BTreeSet::new();
    for component in &COMPONENTS {
        let sample = Sample::of(component.text).map_err(|fault| component.told(fault))?;
        let bytes = component.built(&sample)?;
        let sections = sample.sections.iter().filter(|section| section.family.is_some()).count();
        table.add(
            &format!("component {}: {} bytes, {sections} sections by the library", component.name, bytes.len()),
            "crate",
            1,
        );
        match &tool {
            None => table.add("  not validated: no wasm-tools", "wasm-tools", 0),
            Some(tool) => component.judged(&component.stored(&bytes)?, tool, table)?,
        }
        if component.known && tool.is_some() {
            validated.extend(kinds_of(&sample));
        }
    }
    let missing: Vec<String> = KINDS.iter().filter(|kind| !validated.contains(*kind)).map(|kind| format!("{kind:x}")).collect();
    table.add(&format!("  kinds that no validated component has: {}", missing.join(" ")), "", missing.len() as u64);
    Ok(())
}

impl Component {
    /// The component with the library's sections, each in the place of the crate's; the two must be the same.
    fn built(&self, sample: &Sample) -> Result<Vec<u8>, Difference> {
        let by_crate = (self.by_crate)();
        let theirs = frames::sections(&by_crate).ok_or_else(|| self.told("the crate's component has broken framing"))?;
        if sample.sections.len() != theirs.len() {
            return Err(self.told(format!("{} sections in the sample, {} by the crate", sample.sections.len(), theirs.len())));
        }
        let mut bytes = frames::HEADER.to_vec();
        for (place, (section, other)) in sample.sections.iter().zip(theirs).enumerate() {
            let ours = section.written(&sample.pool).unwrap_or_else(|| Ok(other.to_vec()));
            let ours = ours.map_err(|refused| self.told(format!("section {place}: {refused:?}")))?;
            if ours != other {
                let what = format!("component {}, section {place}{}", self.name, first_unlike(&ours, other));
                let input = format!("samples/{}.txt", self.name);
                return Err(Difference { what, input, library: hex(&ours), other: hex(other) });
            }
            bytes.extend(ours);
        }
        Ok(bytes)
    }

    /// The file that the component is written to.
    fn stored(&self, bytes: &[u8]) -> Result<PathBuf, Difference> {
        let folder = Path::new(env!("CARGO_MANIFEST_DIR")).join("target/components");
        let file = folder.join(self.name).with_extension("wasm");
        let stored = std::fs::create_dir_all(&folder).and_then(|()| std::fs::write(&file, bytes));
        stored.map(|()| file).map_err(|error| self.told(error))
    }

    /// wasm-tools finds the component valid and prints every name of it; or refuses it, if it has forms that the tool
    /// does not know. What it prints is kept beside the component.
    fn judged(&self, file: &Path, tool: &Path, table: &mut Table) -> Result<(), Difference> {
        let validated = self.run(Command::new(tool).args(["validate", "-f", "all"]).arg(file));
        if !self.known {
            if validated.is_ok() {
                return Err(self.told("the tool knows its forms by now: let it be validated"));
            }
            table.add("  refused, as it has forms newer than the tool", "wasm-tools", 1);
            return Ok(());
        }
        validated?;
        let text = self.run(Command::new(tool).arg("print").arg(file))?;
        std::fs::write(file.with_extension("wat"), &text).map_err(|error| self.told(error))?;
        let names = names_of(self.text);
        if let Some(name) = names.iter().find(|name| !text.contains(&format!("\"{name}\""))) {
            return Err(self.told(format!("printed without the name {name}")));
        }
        let lines = text.lines().count();
        table.add(&format!("  valid; printed on {lines} lines with all {} names", names.len()), "wasm-tools", 1);
        Ok(())
    }

    /// What a command prints; a difference if it fails.
    fn run(&self, command: &mut Command) -> Result<String, Difference> {
        let output = command.output().map_err(|error| self.told(error))?;
        if !output.status.success() {
            return Err(self.told(format!("wasm-tools: {}", String::from_utf8_lossy(&output.stderr).trim())));
        }
        Ok(String::from_utf8_lossy(&output.stdout).into_owned())
    }

    fn told(&self, what: impl ToString) -> Difference {
        format!("component {}: {}", self.name, what.to_string()).into()
    }
}

/// The kinds of a sample's rows; a function in steps is of kind 15.
fn kinds_of(sample: &Sample) -> BTreeSet<u32> {
    let entries = sample.sections.iter().flat_map(|section| &section.entries);
    let kinds = entries.map(|entry| match entry {
        Entry::Row(row) => row[0],
        _ => 15,
    });
    kinds.collect()
}

/// The names of a sample's rows and steps.
fn names_of(text: &str) -> Vec<&str> {
    text.split('"').skip(1).step_by(2).collect()
}
