//! Every order of up to seven steps: the library against the crate's encoders, and against the model of document 01.

use crate::encode::{add_type, framed, Fields};
use crate::model;
use crate::report::{hex, Difference, Table};
use crate::tbaunarith::{Refusal, Refused, Section, TYPES};
use std::panic::{catch_unwind, set_hook, take_hook, AssertUnwindSafe};
use wasm_encoder::{ComponentFuncTypeEncoder, ComponentTypeSection};

/// The most steps of a sequence.
const MOST: u32 = 7;

#[derive(Clone, Copy, Debug, PartialEq, Eq)]
enum Step {
    Open,
    Head(u32),
    ResultAbsent,
    ResultPresent,
    Abandon,
    Row,
    Finish,
}

const STEPS: [Step; 8] = [
    Step::Open,
    Step::Head(0),
    Step::Head(1),
    Step::ResultAbsent,
    Step::ResultPresent,
    Step::Abandon,
    Step::Row,
    Step::Finish,
];

/// What the steps are given; heads by their a, the first word.
#[derive(Debug)]
struct Given {
    heads: [&'static [u32]; 2],
    result: [u32; 2],
    row: &'static [u32],
}

const POOL: &[u8] = b"ab";

/// Heads of two parameters, a result and a row that name a type; then no parameters, a string, and a function's row.
const GIVEN: [Given; 2] = [
    Given {
        heads: [&[0, 2, 0, 1, 0, 12, 1, 1, 1, 115], &[1, 2, 0, 1, 0, 12, 1, 1, 1, 115]],
        result: [1, 115],
        row: &[3, 1, 115],
    },
    Given { heads: [&[0, 0], &[1, 0]], result: [0, 12], row: &[15, 1, 1, 0, 2, 0, 12, 2, 0] },
];

/// How the last steps of the sequences were judged.
#[derive(Default)]
struct Tally {
    crate_panics: u64,
    both_go_on: u64,
    model_alone: u64,
}

/// Every sequence, with each of the things given.
pub fn compare(table: &mut Table) -> Result<(), Difference> {
    let mut tally = Tally::default();
    let hook = take_hook();
    set_hook(Box::new(|_| {}));
    let compared = GIVEN.iter().try_for_each(|given| every_sequence(given, &mut tally));
    set_hook(hook);
    compared?;
    let all = tally.crate_panics + tally.both_go_on + tally.model_alone;
    table.add("sequences of 1 to 7 steps: replies, states, every lent byte", "model", all);
    table.add("  whose last step makes the crate panic: ORDER", "crate", tally.crate_panics);
    table.add("  whose last step both take: body and finished section", "crate", tally.both_go_on);
    table.add("  whose last step the crate lets by or does not have", "model", tally.model_alone);
    Ok(())
}

fn every_sequence(given: &Given, tally: &mut Tally) -> Result<(), Difference> {
    for length in 1..=MOST {
        for number in 0..STEPS.len().pow(length) {
            let sequence: Vec<Step> = (0..length).map(|place| STEPS[number / STEPS.len().pow(place) % STEPS.len()]).collect();
            let input = || format!("{sequence:?} with {given:?}");
            judge(given, &sequence, tally).map_err(|difference| Difference { input: input(), ..difference })?;
        }
    }
    Ok(())
}

/// Runs a sequence from a fresh section. The crate judges its last step; the others it judged in the shorter sequences.
fn judge(given: &Given, sequence: &[Step], tally: &mut Tally) -> Result<(), Difference> {
    let mut trial = Trial::new(given);
    let Some((last, front)) = sequence.split_last() else { return Ok(()) };
    for step in front {
        let _ = trial.take(*step)?;
    }
    let panics = trial.encoder && last.is_for_encoder() && crate_panics(given, &trial.entries, *last);
    let reply = trial.take(*last)?;
    match reply {
        Ok(_) if panics => return Err(unlike("a step out of turn", &format!("{reply:?}"), "panics")),
        Err(_) if panics => tally.crate_panics += 1,
        Err(_) if trial.encoder && last.is_for_encoder() => {
            return Err(unlike("a step in turn", &format!("{reply:?}"), "goes on"))
        }
        Err(_) => tally.model_alone += 1,
        Ok(_) if *last == Step::Abandon => tally.model_alone += 1,
        Ok(_) => tally.both_go_on += 1,
    }
    trial.same_as_crate(*last == Step::Finish && reply.is_ok())
}

impl Step {
    /// Whether the step is one or two calls of the crate's function encoder.
    fn is_for_encoder(self) -> bool {
        matches!(self, Step::Head(_) | Step::ResultAbsent | Step::ResultPresent)
    }
}

/// A section with the buffers lent to it.
struct Lent<S> {
    section: S,
    body: [u8; 128],
    out: [u8; 144],
}

impl<S> Lent<S> {
    fn new(section: S) -> Lent<S> {
        Lent { section, body: [0xa5; 128], out: [0xa5; 144] }
    }
}

/// The same step on either section: the library's and the model's have the same methods.
macro_rules! take_step {
    ($lent:expr, $step:expr, $given:expr) => {
        match $step {
            Step::Open => $lent.section.open(&mut $lent.body),
            Step::Head(a) => $lent.section.head($given.heads[a as usize], POOL, &mut $lent.body),
            Step::ResultAbsent => $lent.section.result(2, 0, &mut $lent.body),
            Step::ResultPresent => $lent.section.result($given.result[0], $given.result[1], &mut $lent.body),
            Step::Abandon => $lent.section.abandon(&mut $lent.body),
            Step::Row => $lent.section.row($given.row, POOL, &mut $lent.body),
            Step::Finish => $lent.section.finish(&$lent.body, &mut $lent.out),
        }
    };
}

/// What the crate is told for an entry: a row, or a function with the steps that were accepted.
enum Entry {
    Row,
    Function(Vec<Step>),
}

/// The library and the model side by side, and what the crate is to be told.
struct Trial<'a> {
    given: &'a Given,
    library: Lent<Section>,
    model: Lent<model::Section>,
    entries: Vec<Entry>,
    /// Whether a Rust user could still call the encoder of the last function: nothing else was done with the section since.
    encoder: bool,
}

impl Trial<'_> {
    fn new(given: &Given) -> Trial<'_> {
        let (library, model) = (Lent::new(Section::new(TYPES)), Lent::new(model::Section::new(TYPES)));
        Trial { given, library, model, entries: Vec::new(), encoder: false }
    }

    /// A step on both sides, which must agree in the reply, the state and every lent byte.
    fn take(&mut self, step: Step) -> Result<Result<usize, Refused>, Difference> {
        let reply = take_step!(self.library, step, self.given);
        let wanted = take_step!(self.model, step, self.given);
        if reply != wanted {
            return Err(unlike("a step's reply", &format!("{reply:?}"), &format!("{wanted:?}")));
        }
        let (state, model_state) = (self.library.section.state, self.model.section.state());
        if state != model_state {
            return Err(unlike("the state after a step", &format!("{state:?}"), &format!("{model_state:?}")));
        }
        if self.library.body != self.model.body || self.library.out != self.model.out {
            let shown = |body: &[u8], out: &[u8]| format!("body {}; out {}", hex(body), hex(out));
            let (library, model) = (&self.library, &self.model);
            return Err(unlike("a lent byte after a step", &shown(&library.body, &library.out), &shown(&model.body, &model.out)));
        }
        match reply {
            Ok(_) => self.accept(step),
            Err(refused) if refused.why != Refusal::Order => {
                return Err(unlike("a step's refusal", &format!("{refused:?}"), "ORDER"))
            }
            Err(_) => {}
        }
        Ok(reply)
    }

    /// Notes for the crate what an accepted step did.
    fn accept(&mut self, step: Step) {
        match step {
            Step::Open => self.entries.push(Entry::Function(Vec::new())),
            Step::Row => self.entries.push(Entry::Row),
            Step::Abandon => drop(self.entries.pop()),
            Step::Finish => {}
            _ => {
                if let Some(Entry::Function(steps)) = self.entries.last_mut() {
                    steps.push(step);
                }
            }
        }
        self.encoder = step == Step::Open || self.encoder && step.is_for_encoder();
    }

    /// The crate, told the accepted steps, has the library's count and body, also while a function is open; and its
    /// finished section if the last step finished.
    fn same_as_crate(&self, finished: bool) -> Result<(), Difference> {
        let section = framed(&crate_section_of(self.given, &self.entries));
        let [_, used, count, ..] = self.library.section.state;
        let body = &self.library.body[..used as usize];
        let library = [&[TYPES as u8, used as u8 + 1, count as u8], body].concat();
        if library != section {
            return Err(unlike("count and body", &hex(&library), &hex(&section)));
        }
        if finished && self.library.out[..section.len()] != section {
            return Err(unlike("the finished section", &hex(&self.library.out), &hex(&section)));
        }
        Ok(())
    }
}

/// The crate's section after the accepted steps. The crate's encoders borrow their section, so it is built anew each time.
fn crate_section_of(given: &Given, entries: &[Entry]) -> ComponentTypeSection {
    let mut section = ComponentTypeSection::new();
    for entry in entries {
        match entry {
            Entry::Row => add_type(&mut section, &mut Fields { words: given.row, pool: POOL }).expect("a valid row"),
            Entry::Function(steps) => {
                crate_function(given, &mut section, steps);
            }
        }
    }
    section
}

/// The crate's encoder of a function after these steps.
fn crate_function<'a>(given: &Given, section: &'a mut ComponentTypeSection, steps: &[Step]) -> ComponentFuncTypeEncoder<'a> {
    let mut function = section.function();
    steps.iter().for_each(|step| call(given, &mut function, *step));
    function
}

/// A step as a call of the crate's encoder; a head is two.
fn call(given: &Given, function: &mut ComponentFuncTypeEncoder, step: Step) {
    let result = |words: &[u32]| Fields { words, pool: POOL }.optional().expect("a valid result");
    match step {
        Step::Head(a) => {
            let mut params = Fields { words: &given.heads[a as usize][1..], pool: POOL };
            function.async_(a == 1).params(params.many(Fields::member).expect("valid parameters"))
        }
        Step::ResultAbsent => function.result(result(&[2, 0])),
        Step::ResultPresent => function.result(result(&given.result)),
        _ => unreachable!("{step:?} is no call of the encoder"),
    };
}

/// Whether the encoder of the last function panics at this step.
fn crate_panics(given: &Given, entries: &[Entry], step: Step) -> bool {
    let Some(Entry::Function(steps)) = entries.last() else { return false };
    let mut section = ComponentTypeSection::new();
    let mut function = crate_function(given, &mut section, steps);
    catch_unwind(AssertUnwindSafe(|| call(given, &mut function, step))).is_err()
}

/// A difference whose input is told later: it is the sequence.
fn unlike(what: &str, library: &str, other: &str) -> Difference {
    Difference { what: what.into(), input: String::new(), library: library.into(), other: other.into() }
}
