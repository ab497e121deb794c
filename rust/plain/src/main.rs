//! Lists of cases and their answers, one case and one answer a line.

mod answers;
mod balance;
mod cases;

use balance::Tally;
use plain::reasons;
use std::io::{self, BufRead, BufWriter, Read, Write};
use std::process::ExitCode;

const USAGE: &str = "\
plain numbers < cases > answers
plain numbers-cases
plain arcs < cases > answers
plain arcs-cases
plain calls < cases > answers
plain calls-cases SEED COUNT (0 0 prints the fixed list)
plain reasons < store > lines
plain reasons-store [SEED] > store
plain closing < cases of calls
plain closing-cases SEED COUNT";

/// Hands over each line of the standard input, as numbers.
fn each_case(mut take: impl FnMut(&[i128]) -> Result<(), String>) -> io::Result<()> {
    for (line, text) in io::stdin().lock().lines().enumerate() {
        let text = text?;
        let numbers = text.split_whitespace().map(|word| word.parse().ok());
        let numbers = numbers.collect::<Option<Vec<i128>>>();
        let taken = match numbers {
            Some(case) => take(&case),
            None => Err("it is no case".to_string()),
        };
        if let Err(reason) = taken {
            let message = format!("line {}: {reason}", line + 1);
            return Err(io::Error::new(io::ErrorKind::InvalidData, message));
        }
    }
    Ok(())
}

/// Answers each line of the standard input.
fn answer(answer: impl Fn(&[i128]) -> Option<String>) -> io::Result<()> {
    let mut out = BufWriter::new(io::stdout().lock());
    each_case(|case| {
        let answer = answer(case).ok_or("it is no case")?;
        writeln!(out, "{answer}").map_err(|error| error.to_string())
    })?;
    out.flush()
}

/// Counts whether all that the cases on standard input draw is balanced.
fn close() -> io::Result<()> {
    let mut tally = Tally::default();
    each_case(|case| tally.count(case))?;
    println!("{tally}");
    Ok(())
}

/// Prints why each edge of the store on standard input is there, or why it is
/// refused.
fn name_edges() -> io::Result<()> {
    let mut store = Vec::new();
    io::stdin().lock().read_to_end(&mut store)?;
    print!("{}", reasons::printed(&store));
    Ok(())
}

/// Prints a list of cases.
fn print(cases: impl IntoIterator<Item = String>) -> io::Result<()> {
    let mut out = BufWriter::new(io::stdout().lock());
    for case in cases {
        writeln!(out, "{case}")?;
    }
    out.flush()
}

fn run(words: &[&str]) -> Option<io::Result<()>> {
    Some(match words {
        ["numbers"] => answer(answers::numbers),
        ["numbers-cases"] => print(cases::numbers::list()),
        ["arcs"] => answer(answers::arcs),
        ["arcs-cases"] => print(cases::arcs::list()),
        ["calls"] => answer(answers::calls),
        ["calls-cases", "0", "0"] => print(cases::calls::fixed()),
        ["calls-cases", seed, count] => print(cases::calls::random(
            seed.parse().ok()?,
            count.parse().ok()?,
        )),
        ["reasons"] => name_edges(),
        ["reasons-store"] => io::stdout().write_all(&cases::reasons::store()),
        ["reasons-store", seed] => {
            io::stdout().write_all(&cases::reasons::random(seed.parse().ok()?))
        }
        ["closing"] => close(),
        ["closing-cases", seed, count] => print(cases::closing::random(
            seed.parse().ok()?,
            count.parse().ok()?,
        )),
        _ => return None,
    })
}

fn main() -> ExitCode {
    let words: Vec<String> = std::env::args().skip(1).collect();
    let words: Vec<&str> = words.iter().map(String::as_str).collect();
    let message = match run(&words) {
        Some(Ok(())) => return ExitCode::SUCCESS,
        Some(Err(error)) => error.to_string(),
        None => USAGE.to_string(),
    };
    eprintln!("{message}");
    ExitCode::FAILURE
}
