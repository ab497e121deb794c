//! Times the proved library beside `plain` and `tuned`, in one process, on the
//! same inputs.

mod archive;
mod bare_calls;
mod circles;
mod clock;
mod every_call;
mod goals;
mod inputs;
mod lines;
mod programs;
mod records;
mod rounds;
mod table;
mod tiles;

use inputs::Input;
use programs::{Call, CALLS};
use rounds::{Rounds, LEAST_RUNS};
use std::fs::read_to_string;
use std::io;
use std::process::ExitCode;
use table::{Layout, Table};

const USAGE: &str = "\
bench [--markdown] [CALL...]
  --markdown   the table for docs/SPEED.md
  CALL         draw, keep, read, replace, goals, circles, tiles or records: times only these
bench lines [--markdown]
                a sheet of 10,000 lines kept on one core and on two, by the clock on the wall
bench sheet DIRECTORY
                writes that sheet as an old archive
bench archive DIRECTORY GRADE
                the keep calls alone of every line of an old archive, on all cores";

const MARKDOWN: &str = "--markdown";

/// The name of what is timed of tiles.
const TILES: &str = "tiles";

/// The name of what is timed of vertex records, beside the library itself.
const RECORDS: &str = "records";

/// The name of what is timed of circles at the finest grade.
const CIRCLES: &str = "circles";

/// The name of the table with the goals.
const GOALS: &str = "goals";

/// The word for many lines at once, and for their archive.
const LINES: &str = "lines";
const SHEET: &str = "sheet";

/// The word for the keep calls of an archive.
const ARCHIVE: &str = "archive";

const GRADES: [u32; 3] = [2, 4, 8];

fn main() -> ExitCode {
    let words: Vec<String> = std::env::args().skip(1).collect();
    match words.iter().map(String::as_str).collect::<Vec<_>>()[..] {
        [ARCHIVE, directory, grade] => return of_archive(directory, grade),
        [SHEET, directory] => return ended(directory, lines::write_archive(directory.as_ref())),
        [LINES] => return of_lines(Layout::Text),
        [LINES, MARKDOWN] | [MARKDOWN, LINES] => return of_lines(Layout::Markdown),
        _ => (),
    }
    let (flags, names): (Vec<&str>, Vec<&str>) = words
        .iter()
        .map(String::as_str)
        .partition(|word| word.starts_with('-'));
    let layout = match flags[..] {
        [] => Some(Layout::Text),
        [MARKDOWN] => Some(Layout::Markdown),
        _ => None,
    };
    let all = names.is_empty();
    let (tiles, names): (Vec<&str>, Vec<&str>) = names.iter().partition(|&&name| name == TILES);
    let (records, names): (Vec<&str>, Vec<&str>) = names.iter().partition(|&&name| name == RECORDS);
    let (circles, names): (Vec<&str>, Vec<&str>) = names.iter().partition(|&&name| name == CIRCLES);
    let (goals, names): (Vec<&str>, Vec<&str>) = names.iter().partition(|&&name| name == GOALS);
    let (Some(layout), Some(calls)) = (layout, calls(&names)) else {
        eprintln!("{USAGE}");
        return ExitCode::from(2);
    };
    if let Err(reason) = fair() {
        eprintln!("{reason}");
        return ExitCode::FAILURE;
    }
    println!("{}", conditions());
    println!();
    if all || !names.is_empty() {
        print!("{}", timed(&calls).laid_out(layout));
        println!();
    }
    if all || !goals.is_empty() {
        let tally = goals::Tally::default();
        println!("{}\n", goals::CONDITIONS);
        print!("{}", goals::timed(&tally).laid_out(layout));
        println!("\n{tally}\n");
    }
    if all || !circles.is_empty() {
        print!("{}", circles::timed().laid_out(layout));
        println!();
    }
    if all || !tiles.is_empty() {
        print!("{}", tiles::timed().laid_out(layout));
        println!();
    }
    if all || !records.is_empty() {
        print!("{}", records::timed().laid_out(layout));
    }
    ExitCode::SUCCESS
}

/// Times the keep calls of an archive.
fn of_archive(directory: &str, grade: &str) -> ExitCode {
    let Ok(grade) = grade.parse() else {
        eprintln!("{USAGE}");
        return ExitCode::from(2);
    };
    let told = archive::timed(directory.as_ref(), grade);
    ended(directory, told.map(|told| println!("{told}")))
}

/// Times many lines at once.
fn of_lines(layout: Layout) -> ExitCode {
    let table = lines::timed();
    ended(
        LINES,
        table.map(|table| print!("{}", table.laid_out(layout))),
    )
}

/// How work on something ended, and what failed.
fn ended(what: &str, result: io::Result<()>) -> ExitCode {
    match result {
        Ok(()) => ExitCode::SUCCESS,
        Err(error) => {
            eprintln!("{what}: {error}");
            ExitCode::FAILURE
        }
    }
}

/// The calls of these names, or all of them.
fn calls(names: &[&str]) -> Option<Vec<Call>> {
    let named = |name: &&str| CALLS.into_iter().find(|call| call.name() == *name);
    match names {
        [] => Some(CALLS.to_vec()),
        _ => names.iter().map(named).collect(),
    }
}

/// Whether `plain` was built as it is compared: optimised, for any processor
/// of its kind.
fn fair() -> Result<(), &'static str> {
    if cfg!(debug_assertions) {
        return Err("plain is not optimised in this build: cargo run --release");
    }
    if cfg!(any(target_feature = "sse3", target_feature = "lse")) {
        return Err("plain is built for a newer processor than the library: unset target-cpu");
    }
    Ok(())
}

/// What both were compiled for, and what the library's code is.
fn code() -> (&'static str, &'static str) {
    ("x86-64", "the archive that rt lib writes, for x86-64-v2")
}

/// The processor, as the system describes it.
fn processor() -> String {
    let description = read_to_string("/proc/cpuinfo").unwrap_or_default();
    let said = |name: &str| {
        let mut lines = description.lines();
        let rest = lines.find_map(|line| line.strip_prefix(name))?;
        Some(rest.trim_start_matches([' ', '\t', ':']).to_string())
    };
    let by_number = || {
        let (maker, part) = (said("CPU implementer")?, said("CPU part")?);
        Some(format!("implementer {maker}, part {part}"))
    };
    said("model name")
        .or_else(by_number)
        .unwrap_or("not known".to_string())
}

fn conditions() -> String {
    let (machine, code) = code();
    format!(
        "The proved library beside rust/plain: one process, the same inputs, both optimised for\n\
         any {machine} processor.\n\
         The library's code is {code}.\n\
         \n\
         A time is the processor time of the best of {LEAST_RUNS} runs or more, the two by turns. Ratio is\n\
         the library's time over plain's: below 1 the library is faster.\n\
         \n\
         Buffers are not cleared between runs: each run writes what the run before it wrote. That\n\
         both give the same replies and the same memory was checked before and after each timing.\n\
         Replace moves the vertex in the middle there and back, and its time is half of that. The\n\
         library allocates nothing; plain's time includes the memory that it allocates.\n\
         \n\
         Processor: {}.",
        processor()
    )
}

/// A row for each call, input and grade.
fn timed(calls: &[Call]) -> Table<9> {
    let mut table = Table::new([
        "call",
        "input",
        "grade",
        "edges",
        "library ns/vertex",
        "plain ns/vertex",
        "library ns/edge",
        "plain ns/edge",
        "ratio",
    ]);
    let inputs = [
        Input::hedge(100),
        Input::hedge(900),
        Input::hedge(4096),
        Input::circles(900),
    ];
    for &call in calls {
        for input in &inputs {
            for grade in GRADES {
                let mut rounds = Rounds::new(input, grade);
                let [library, plain] = rounds.best(call);
                let per = |time: f64, count: usize| format!("{:.1}", time / count as f64);
                table.push([
                    call.name().to_string(),
                    input.name.clone(),
                    grade.to_string(),
                    rounds.edges().to_string(),
                    per(library, input.vertices()),
                    per(plain, input.vertices()),
                    per(library, rounds.edges()),
                    per(plain, rounds.edges()),
                    format!("{:.2}", library / plain),
                ]);
            }
        }
    }
    table
}
