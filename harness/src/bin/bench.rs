//! Times the library beside wasm-encoder and wasmparser: bench; or one pass, for a profile:
//! bench --once LOAD DIRECTION SIDE [SIZE].
//!
//! LOAD and DIRECTION are a pair that `bench --loads TABLE` prints for the tables beside, growth and refused, SIDE is ours or
//! theirs, SIZE about how many bytes a section has or how many rows are made, as the load is measured.
//! A pass writes a section of rows that stand ready, or reads all items of a section, or makes sections of sheets, or tries
//! rows that may be refused, into buffers that are never cleared. Items are rows, in sheets too.
//! Rounds of both sides alternate, so that what disturbs the machine hits both, and the median round counts.

use harness::frames;
use harness::lean::{append_section, append_sheet};
use harness::loads::{Load, Plan, GROWING, REFUSED, VARIOUS};
use harness::tbaunarith::{read_import, read_type, sheet, Section, TYPES};
use std::hint::black_box;
use std::process::ExitCode;
use std::time::{Duration, Instant};
use wasmparser::{BinaryReader, ComponentImportSectionReader, ComponentTypeSectionReader, FromReader, SectionLimited};

/// How many rounds each side gets, and about how long one takes: short, so that most are not interrupted on a busy machine.
/// Where a pass alone is much longer there are fewer.
const ROUNDS: usize = 101;
const ROUND: Duration = Duration::from_micros(300);
const ROUNDS_OF_LONG: usize = 3;

/// The sizes at which time per byte is shown.
const SIZES: [(&str, usize); 3] = [("1 KiB", 1 << 10), ("64 KiB", 1 << 16), ("16 MiB", 1 << 24)];

fn main() -> ExitCode {
    let arguments: Vec<String> = std::env::args().skip(1).collect();
    let done = match arguments.iter().map(String::as_str).collect::<Vec<_>>()[..] {
        [] => {
            beside();
            growth();
            refused();
            Some(())
        }
        ["--loads", table] => table_of(table).map(|plans| {
            for plan in plans {
                plan.directions.iter().for_each(|direction| println!("{} {direction}", plan.name));
            }
        }),
        ["--once", load, direction, side] => once(load, direction, side, None),
        ["--once", load, direction, side, size] => size.parse().ok().and_then(|size| once(load, direction, side, Some(size))),
        _ => None,
    };
    if done.is_none() {
        eprintln!("bench, bench --loads beside|growth|refused, or bench --once LOAD write|read|sheet|try ours|theirs [SIZE]");
        return ExitCode::FAILURE;
    }
    ExitCode::SUCCESS
}

/// The loads of a table.
fn table_of(table: &str) -> Option<Vec<Plan>> {
    match table {
        "beside" => Some(compared().collect()),
        "growth" => Some(GROWING.into()),
        "refused" => Some(REFUSED.into()),
        _ => None,
    }
}

/// The loads of both sides.
fn compared() -> impl Iterator<Item = Plan> {
    GROWING.into_iter().chain(VARIOUS)
}

/// A load with the buffers that the passes use.
struct Bench {
    load: Load,
    body: Vec<u8>,
    out: Vec<u8>,
    row: Vec<u32>,
}

/// A pass of one side; it gives how much it made, so that nothing of it can be left out.
type Pass = fn(&mut Bench) -> usize;

/// The passes by direction and side.
const PASSES: [(&str, &str, Pass); 7] = [
    ("write", "ours", write_ours),
    ("write", "theirs", write_theirs),
    ("read", "ours", read_ours),
    ("read", "theirs", read_theirs),
    ("sheet", "ours", sheet_ours),
    ("sheet", "theirs", sheet_theirs),
    ("try", "ours", try_ours),
];

fn pass(direction: &str, side: &str) -> Option<Pass> {
    PASSES.iter().find(|each| each.0 == direction && each.1 == side).map(|each| each.2)
}

impl Bench {
    fn new(load: Load) -> Bench {
        let room = load.section.len();
        Bench { load, body: vec![0; room], out: vec![0; room], row: vec![0; 16_384] }
    }

    /// Holds what a pass made to the load's bytes, if its direction is one that writes.
    fn check(&self, direction: &str, made: usize) {
        if direction == "write" || direction == "sheet" {
            assert!(self.out[..made] == self.load.section, "the bytes of a load are the same on both sides");
        }
    }
}

#[inline(never)]
fn write_ours(bench: &mut Bench) -> usize {
    let input = &bench.load.input;
    let mut section = Section::new(input.family);
    for row in (0..bench.load.repeats).flat_map(|_| &input.rows) {
        section.row(row, &input.pool, &mut bench.body).expect("a valid row");
    }
    section.finish(&bench.body, &mut bench.out).expect("room enough")
}

#[inline(never)]
fn write_theirs(bench: &mut Bench) -> usize {
    let input = &bench.load.input;
    let rows = (0..bench.load.repeats).flat_map(|_| &input.rows);
    bench.out.clear();
    append_section(bench.load.their_family, rows.map(Vec::as_slice), &input.pool, &mut bench.out);
    bench.out.len()
}

#[inline(never)]
fn read_ours(bench: &mut Bench) -> usize {
    let read = if bench.load.input.family == TYPES { read_type } else { read_import };
    let mut rest = frames::body(&bench.load.section).expect("a whole section");
    let mut words = 0;
    while !rest.is_empty() {
        let item = read(rest, 3, &mut bench.row).expect("a right item");
        words += black_box(&bench.row[..item.words]).len();
        rest = &rest[item.taken..];
    }
    words
}

#[inline(never)]
fn read_theirs(bench: &mut Bench) -> usize {
    let reader = BinaryReader::new(frames::content(&bench.load.section).expect("a whole section"), 0);
    if bench.load.input.family == TYPES {
        read_items(ComponentTypeSectionReader::new(reader).expect("a section of types"))
    } else {
        read_items(ComponentImportSectionReader::new(reader).expect("a section of imports"))
    }
}

#[inline(never)]
fn sheet_ours(bench: &mut Bench) -> usize {
    let mut made = 0;
    for each in &bench.load.sheets {
        made += sheet(each, &mut bench.body, &mut bench.out[made..]).expect("a right sheet");
    }
    made
}

#[inline(never)]
fn sheet_theirs(bench: &mut Bench) -> usize {
    bench.out.clear();
    for each in &bench.load.sheets {
        append_sheet(each, &mut bench.out);
    }
    bench.out.len()
}

/// Each row in a section of its own; gives how many are accepted.
#[inline(never)]
fn try_ours(bench: &mut Bench) -> usize {
    let input = &bench.load.input;
    let mut accepted = 0;
    for row in &input.rows {
        let answer = Section::new(input.family).row(row, &input.pool, &mut bench.body);
        accepted += usize::from(answer.is_ok());
    }
    accepted
}

/// Reads every item. None of wasmparser's items is lazy: each owns the list of its fields, with names found and checked.
fn read_items<'a, T: FromReader<'a>>(section: SectionLimited<'a, T>) -> usize {
    let mut items = 0;
    for item in section {
        black_box(&item.expect("a right item"));
        items += 1;
    }
    items
}

/// Time and speed of both sides for each load and direction.
fn beside() {
    println!("{:<21} {:>19}   {:>19}   {:>6}", "", "ours", "theirs", "ours/");
    println!("{:<14} {:<6} {:>10} {:>8}   {:>10} {:>8}   {:>6}", "load", "", "ns/item", "MB/s", "ns/item", "MB/s", "theirs");
    for Plan { name, directions, timed, make, .. } in compared() {
        let mut bench = Bench::new(make(timed));
        let (items, bytes) = (bench.load.items as f64, bench.load.section.len() as f64);
        let speed = |pass: f64| format!("{:>10.1} {:>8.0}", pass / items, bytes * 1000.0 / pass);
        for direction in directions {
            let passes = ["ours", "theirs"].map(|side| pass(direction, side).expect("a pass"));
            for pass in passes {
                let made = pass(&mut bench);
                bench.check(direction, made);
            }
            let [ours, theirs] = medians(&mut bench, passes);
            let with = if *direction == "read" { "wasmparser" } else { "wasm-encoder" };
            println!("{name:<14} {direction:<6} {}   {}   {:>6.2} {with}", speed(ours), speed(theirs), ours / theirs);
        }
    }
}

/// Our time per byte at each size.
fn growth() {
    println!("\n{:<14} {:<6} ours, ns/byte at {}", "load", "", SIZES.map(|(name, _)| format!("{name:>8}")).join(""));
    for Plan { name, directions, make, .. } in GROWING {
        for direction in directions {
            let ours = pass(direction, "ours").expect("a pass");
            let at_size = SIZES.map(|(_, size)| {
                let mut bench = Bench::new(make(size));
                let bytes = bench.load.section.len() as f64;
                format!("{:>8.2}", medians(&mut bench, [ours])[0] / bytes)
            });
            println!("{name:<14} {direction:<6}                  {}", at_size.join(""));
        }
    }
}

/// Our time for long records that are accepted, and for those that are refused at the end.
fn refused() {
    println!("\n{:<14} {:>10} {:>12}", "long record", "ns/row", "of accepted");
    let mut accepted = None;
    for Plan { name, timed, make, .. } in REFUSED {
        let mut bench = Bench::new(make(timed));
        let row = medians(&mut bench, [try_ours])[0] / bench.load.items as f64;
        println!("{name:<14} {row:>10.1} {:>12.2}", row / *accepted.get_or_insert(row));
    }
}

/// The median time of each pass, in nanoseconds.
fn medians<const N: usize>(bench: &mut Bench, passes: [Pass; N]) -> [f64; N] {
    let wanted = ROUND.as_nanos() as f64;
    let first = passes.map(|pass| timed(bench, pass, 1));
    let count = if first.iter().any(|pass| *pass > 100.0 * wanted) { ROUNDS_OF_LONG } else { ROUNDS };
    let mut rounds = [const { Vec::new() }; N];
    for _ in 0..count {
        for (place, pass) in passes.iter().enumerate() {
            rounds[place].push(timed(bench, *pass, (wanted / first[place]).ceil() as usize));
        }
    }
    rounds.map(|mut rounds| {
        rounds.sort_by(f64::total_cmp);
        rounds[count / 2]
    })
}

/// The time of a pass, in nanoseconds, gone through this often.
fn timed(bench: &mut Bench, pass: Pass, times: usize) -> f64 {
    let begun = Instant::now();
    for _ in 0..times {
        black_box(pass(black_box(bench)));
    }
    begun.elapsed().as_nanos() as f64 / times as f64
}

/// One pass, and the items and bytes of its load; nothing where there is no such pass.
fn once(load: &str, direction: &str, side: &str, size: Option<usize>) -> Option<()> {
    let plan = compared().chain(REFUSED).find(|plan| plan.name == load)?;
    let pass = pass(direction, side).filter(|_| plan.directions.contains(&direction))?;
    let mut bench = Bench::new((plan.make)(size.unwrap_or(plan.counted)));
    println!("{} items {} bytes", bench.load.items, bench.load.section.len());
    mark_pass();
    let made = pass(&mut bench);
    mark_pass();
    bench.check(direction, made);
    Some(())
}

/// Entered before and after a pass, for callgrind, which on some processors sees a function entered and not left.
#[inline(never)]
fn mark_pass() {
    black_box(());
}
