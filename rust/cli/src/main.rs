//! `sehmelir`: paths and kerbs kept as sheets, read, drawn, changed, converted, explained,
//! compared, laid side by side, salvaged and shown, paths taken from and to the oldest chunks, sheets stored in tiles, and
//! archives of old chunks migrated.
//! What rests on a proof comes from the library, `rust/sehmelir`; what is here
//! is text, files, pictures and words.

mod arguments;
mod calls;
mod changes;
mod commands;
mod demo;
mod destination;
mod failure;
mod kerbs;
mod memory;
mod migration;
mod oldest;
mod path_text;
mod picture;
mod progress;
mod ranges;
mod reasons;
mod report;
mod salvage;
mod sentence;
mod sheet;
mod sides;
mod source;
mod stack;
mod tile;
mod whole_file;
mod words;

use arguments::Arguments;
use clap::{CommandFactory, Parser};
use failure::Failure;
use std::env::args_os;
use std::process::ExitCode;

/// Runs the command that the arguments ask for: 0, or 1 with why on standard
/// error; 2 where a migration failed. Without any this prints its help.
fn main() -> ExitCode {
    let command = match Arguments::try_parse() {
        Ok(Arguments {
            command: Some(command),
        }) => command,
        Ok(_) => return ended(Arguments::command().print_help().is_ok()),
        Err(told) if told.print().is_ok() && !told.use_stderr() => return ExitCode::SUCCESS,
        Err(_) => return ExitCode::from(if is_migration() { 2 } else { 1 }),
    };
    let done = stack::with_enough(|| commands::run(command));
    let done = done.map_err(Failure::Thread).and_then(|done| done);
    match done {
        Ok(()) => ExitCode::SUCCESS,
        Err(failure) => {
            eprintln!("{failure}");
            ExitCode::from(failure.status())
        }
    }
}

/// Whether wrong usage is of a migration: there 1 has a meaning of its own.
fn is_migration() -> bool {
    args_os().nth(1).is_some_and(|word| word == "migrate")
}

/// The exit status of help.
fn ended(well: bool) -> ExitCode {
    if well {
        ExitCode::SUCCESS
    } else {
        ExitCode::FAILURE
    }
}
