//! Finds the proved library's archive, or has it built, and links it.

use std::env;
use std::fs;
use std::path::{Path, PathBuf};
use std::process::{exit, Command};

const ARCHIVE: &str = "libsehmelir.a";
const DIRECTORY_VARIABLE: &str = "SEHMELIR_ARCHIVE_DIR";

/// What the archive is made of and by, from the repository's root on, beside
/// the crates.
const SOURCES: [&str; 2] = ["crates.txt", "tools/archive"];

/// What a crate is made of; its other folders hold no source.
const PARTS: [&str; 3] = ["src", "specs", "proofs"];

fn main() {
    println!("cargo:rerun-if-env-changed={DIRECTORY_VARIABLE}");
    match archive_directory() {
        Ok(directory) => {
            let (directory, archive) = (directory.display(), directory.join(ARCHIVE));
            println!("cargo:rerun-if-changed={}", archive.display());
            println!("cargo:rustc-link-search=native={directory}");
            println!("cargo:rustc-link-lib=static=sehmelir");
        }
        Err(reason) => {
            eprintln!("{reason}");
            exit(1);
        }
    }
}

/// The directory that holds the archive: the one that the environment names,
/// or the repository's own, where `tools/archive` keeps it up to date.
fn archive_directory() -> Result<PathBuf, String> {
    if let Some(named) = env::var_os(DIRECTORY_VARIABLE) {
        let directory = Path::new(&named).canonicalize().unwrap_or(named.into());
        return match directory.join(ARCHIVE).is_file() {
            true => Ok(directory),
            false => Err(format!(
                "{DIRECTORY_VARIABLE} is {}, where there is no {ARCHIVE}.",
                directory.display()
            )),
        };
    }
    own_target()?;
    let root = Path::new("../..").canonicalize();
    let root = root.map_err(|error| format!("The repository's root is not found: {error}."))?;
    for source in SOURCES
        .map(|it| root.join(it))
        .into_iter()
        .chain(parts(&root))
    {
        println!("cargo:rerun-if-changed={}", source.display());
    }
    build(&root)
}

/// The folders that hold the crates' sources.
fn parts(root: &Path) -> Vec<PathBuf> {
    let crates = fs::read_dir(root.join("crates"))
        .into_iter()
        .flatten()
        .flatten();
    crates
        .flat_map(|it| PARTS.map(|part| it.path().join(part)))
        .filter(|it| it.is_dir())
        .collect()
}

/// Whether what is being built is for the machine at hand: the archive is.
fn own_target() -> Result<(), String> {
    match (env::var("TARGET"), env::var("HOST")) {
        (Ok(target), Ok(host)) if target == host => Ok(()),
        (target, host) => Err(format!(
            "tools/archive compiles for this machine, {}, and not for {}: \
             set {DIRECTORY_VARIABLE} to a directory that holds {ARCHIVE}.",
            host.unwrap_or_default(),
            target.unwrap_or_default()
        )),
    }
}

/// Has the archive built in the repository, where it must be; its directory.
fn build(root: &Path) -> Result<PathBuf, String> {
    let why = match Command::new(root.join("tools/archive")).output() {
        Err(error) => format!("it could not be started: {error}."),
        Ok(output) if output.status.success() => {
            let printed = String::from_utf8_lossy(&output.stdout);
            return Ok(PathBuf::from(printed.trim_end()));
        }
        Ok(output) => format!(
            "it ended with {}:\n{}",
            output.status,
            String::from_utf8_lossy(&output.stderr)
        ),
    };
    Err(format!(
        "tools/archive did not give {ARCHIVE}: {why}\n\
         Install the Rattle kit so that `rt` is found, or set {DIRECTORY_VARIABLE} to a directory that holds {ARCHIVE}."
    ))
}
