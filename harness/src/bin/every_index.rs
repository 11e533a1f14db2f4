//! Every index of 32 bits through the three forms of the sweep: every_index PROGRESS [THREADS [FIRST LAST]].
//!
//! The indices go in blocks of 2^24, numbered 0 to 255. A block that is done is a line of the file PROGRESS, so that a
//! stopped run goes on where it stood.

use harness::report::Difference;
use harness::sweep::{Sweep, RUN};
use std::collections::HashSet;
use std::fs::{read_to_string, File, OpenOptions};
use std::io::Write;
use std::process::ExitCode;
use std::sync::Mutex;
use std::time::Instant;

/// How many indices a block has.
const BLOCK: u32 = 1 << 24;

/// What the threads share: the blocks to do, the progress file, and how far the run is.
struct Work {
    blocks: Vec<u32>,
    progress: File,
    done: u32,
    all: u32,
    since: Instant,
    difference: Option<Difference>,
}

fn main() -> ExitCode {
    let arguments: Vec<String> = std::env::args().skip(1).collect();
    let number = |place: usize, otherwise: u32| arguments.get(place).map_or(otherwise, |text| text.parse().expect("a number"));
    let path = arguments.first().expect("the progress file");
    let (threads, first, last) = (number(1, 1).clamp(1, 2), number(2, 0), number(3, 255).min(255));
    let kept: HashSet<u32> = read_to_string(path).unwrap_or_default().lines().filter_map(|line| line.parse().ok()).collect();
    let blocks: Vec<u32> = (first..=last).rev().filter(|block| !kept.contains(block)).collect();
    let progress = OpenOptions::new().create(true).append(true).open(path).expect("the progress file can be written");
    println!("blocks {first} to {last}: {} to do, {threads} threads", blocks.len());
    let all = blocks.len() as u32;
    let work = Mutex::new(Work { blocks, progress, done: 0, all, since: Instant::now(), difference: None });
    std::thread::scope(|scope| (0..threads).for_each(|_| drop(scope.spawn(|| do_blocks(&work)))));
    let work = work.into_inner().expect("no thread panicked");
    if let Some(difference) = work.difference {
        println!("{difference}");
        return ExitCode::FAILURE;
    }
    let indices = u64::from(last - first + 1) * u64::from(BLOCK);
    println!("blocks {first} to {last}: {indices} indices in 3 forms written, compared and read back, in five bytes too, 0 differences");
    ExitCode::SUCCESS
}

/// Takes block after block until none is left or a difference is found.
fn do_blocks(work: &Mutex<Work>) {
    let mut sweep = Sweep::default();
    let next = || work.lock().expect("no thread panicked").blocks.pop();
    while let Some(block) = next() {
        let compared = block_runs(block).try_for_each(|first| sweep.run(first..=first + (RUN - 1)));
        let mut work = work.lock().expect("no thread panicked");
        match compared {
            Ok(()) => work.note(block),
            Err(difference) => {
                work.blocks.clear();
                work.difference = Some(difference);
            }
        }
    }
}

/// The first index of each run of a block.
fn block_runs(block: u32) -> impl Iterator<Item = u32> {
    (0..BLOCK / RUN).map(move |run| block * BLOCK + run * RUN)
}

impl Work {
    /// A block is done.
    fn note(&mut self, block: u32) {
        writeln!(self.progress, "{block}").expect("the progress file can be written");
        self.done += 1;
        let seconds = self.since.elapsed().as_secs_f64();
        let left = seconds / f64::from(self.done) * f64::from(self.all - self.done);
        println!("block {block} done, {} of {}, {seconds:.0} s, about {left:.0} s left", self.done, self.all);
    }
}
