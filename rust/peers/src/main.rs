//! Kerbs and strokes beside another library: the regions that their edges
//! enclose, beside what GEOS makes of the same lines.

mod fill;
mod geos;
#[allow(dead_code)]
#[path = "../../bench/src/inputs.rs"]
mod inputs;
mod kerb_run;
mod kerbs;
mod rounding;
mod stroke_run;
mod strokes;

use geos::Geos;
use std::process::ExitCode;

fn main() -> ExitCode {
    let words: Vec<String> = std::env::args().skip(1).collect();
    let strokes = words.first().is_some_and(|word| word == "strokes");
    let words = &words[strokes as usize..];
    let number = |place: usize, other: u64| match words.get(place) {
        Some(word) => word.parse().expect("run [strokes] [COUNT [SEED]]"),
        None => other,
    };
    let (count, seed) = (number(0, 500), number(1, 1));
    let geos = Geos::new();
    println!("GEOS {}, seed {seed}", Geos::version());
    let held = match strokes {
        true => stroke_run::run(&geos, count, seed),
        false => kerb_run::run(&geos, count, seed),
    };
    match held {
        true => ExitCode::SUCCESS,
        false => ExitCode::FAILURE,
    }
}
