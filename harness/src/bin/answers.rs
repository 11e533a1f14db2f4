//! Writes the crate's and the model's stored answers: answers FOLDER puts crate.list and model.list there.

use harness::answers::{crate_answers, packed, refused_sheets, sheets_of_damaged_names, FIRST, INSTANCES};
use harness::answers::{readings, readings_of_damaged_names, readings_of_padded_numbers};
use harness::random::Random;
use std::{env, fs, path::Path};

fn main() {
    let folder = env::args().nth(1).expect("answers FOLDER");
    let rng = &mut Random::new(2026);
    let mut crate_cases = crate_answers(rng, FIRST, 3_300);
    let mut model_cases = refused_sheets(rng, FIRST, 60_000, 250);
    model_cases.extend(readings(rng, 100_000, 250));
    crate_cases.extend(crate_answers(rng, INSTANCES, 400));
    model_cases.extend(refused_sheets(rng, INSTANCES, 20_000, 80));
    model_cases.extend(sheets_of_damaged_names(rng, 2_000, 300));
    model_cases.extend(readings_of_damaged_names(rng, 3_000, 300));
    model_cases.extend(readings_of_padded_numbers(rng, 3_000, 300));
    let lists = [
        ("crate.list", "Answers of wasm-encoder 0.262.0", crate_cases),
        ("model.list", "Answers of the model in harness/src/model.rs", model_cases),
    ];
    for (file, title, cases) in lists {
        fs::write(Path::new(&folder).join(file), packed(title, &cases)).expect("the folder can be written");
        println!("{file}: {} cases", cases.len());
    }
}
