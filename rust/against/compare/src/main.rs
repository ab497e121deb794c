//! Runs `plain` and the crate's own text beside each other.

mod fixed;
mod kerbs;
mod shrink;
mod tally;
mod text;
mod trial;

use against::list::{edges_text, line, parse, path_text, Beside};
use against::paths::{self, size, Path, SMALL_TEXT, STYLES};
use against::runs::{collapsed, collapsed_by_kind};
use i_overlay::i_float::guess::{self, Between, Guesses, Halves, Inside, Normal, Root};
use shrink::shrunk;
use std::process::ExitCode;
use std::time::Instant;
use tally::{sum, Found, Tally};
use text::Text;
use trial::{Setting, Trial, Verdict};

const USAGE: &str = "\
compare [COUNT [SEED]]          compares COUNT random paths (100000)
compare guesses [COUNT [SEED]]  the same with each guess turned the other way
compare list                    prints list.txt
compare show PATH               all edges of a path such as \"(0,0,5) (20,0,5)\"
compare kerbs [COUNT [SEED]]    compares each join's side of COUNT random kerbs (100000)
compare kerbs-list              prints kerbs.txt";

fn main() -> ExitCode {
    let words: Vec<String> = std::env::args().skip(1).collect();
    let words: Vec<&str> = words.iter().map(String::as_str).collect();
    let done = match words[..] {
        ["list"] => Some(list()),
        ["kerbs-list"] => Some(kerbs::list()),
        ["kerbs", ref rest @ ..] => numbers(rest).map(|(count, seed)| kerbs::compare(count, seed)),
        ["show", path] => parse(&format!("{path}:")).map(|(path, _)| show(&path)),
        ["guesses", ref rest @ ..] => numbers(rest).map(|(count, seed)| guesses(count, seed)),
        ref rest => numbers(rest).map(|(count, seed)| compare(count, seed)),
    };
    done.unwrap_or_else(|| {
        eprintln!("{USAGE}");
        ExitCode::from(2)
    })
}

fn numbers(words: &[&str]) -> Option<(u64, u64)> {
    match words {
        [] => Some((100_000, 1)),
        [count] => Some((count.parse().ok()?, 1)),
        [count, seed] => Some((count.parse().ok()?, seed.parse().ok()?)),
        _ => None,
    }
}

/// Compares, tells what was compared and set aside, and each disagreement.
fn compare(count: u64, seed: u64) -> ExitCode {
    let start = Instant::now();
    let tally = Tally::of(seed, count, usize::MAX);
    let (compared, aside) = (sum(&tally.compared), sum(&tally.set_aside));
    println!(
        "{} paths: all {} small ones ({SMALL_TEXT}), and {count} random ones, seed {seed}",
        compared.paths + aside.paths,
        paths::small_count(),
    );
    println!(
        "Compared: edges in order, each end-to-end run of arc edges made into one, and the kinds\n\
         of all edges; plain at grades 1 to 8, the text at four step angles, widths odd and even.\n"
    );
    println!("style       compared  disagree   set aside  of these disagree");
    let names = STYLES.iter().map(|style| style.name).chain(["small"]);
    let total = [("all", (&compared, &aside))];
    for (name, (compared, aside)) in names
        .zip(tally.compared.iter().zip(&tally.set_aside))
        .chain(total)
    {
        println!(
            "{name:9} {:10} {:9}  {:10} {:18}",
            compared.paths, compared.disagree, aside.paths, aside.disagree
        );
    }
    println!();
    println!(
        "Set aside: paths with a Major arc whose rays have dot > 0 and |cross|·2^20 <= dot,\n\
         its ends not equal. There i_float's angle decides whether the arc is a full circle."
    );
    println!("{:.0} s.", start.elapsed().as_secs_f64());
    if let Some(path) = smallest(&tally.found_aside, true) {
        tell("set aside and disagrees", &path, Setting::COARSE);
    }
    for (_, path, number) in &tally.found {
        tell("disagrees", path, Setting::of(*number));
    }
    if tally.found.is_empty() {
        println!("No disagreement outside of what is set aside.");
        ExitCode::SUCCESS
    } else {
        ExitCode::FAILURE
    }
}

/// A path with the edges of both sides, and their kinds if only these differ.
fn tell(title: &str, path: &[[i32; 3]], setting: Setting) {
    let trial = Trial::new(&mut Text::new(), path, setting);
    println!("  {title}: {}", path_text(path));
    println!("    plain: {}", edges_text(&collapsed(&trial.plain)));
    println!("    text:  {}", edges_text(&collapsed(&trial.text)));
    if trial.verdict() == Verdict::Kinds {
        println!("    plain: {:?}", collapsed_by_kind(&trial.plain));
        println!("    text:  {:?}", collapsed_by_kind(&trial.text));
    }
}

/// Compares with each guess turned the other way, one at a time.
fn guesses(count: u64, seed: u64) -> ExitCode {
    let chosen = Guesses::CHOSEN;
    let halves = |halves| Guesses { halves, ..chosen };
    let root = |root| Guesses { root, ..chosen };
    let normal = |normal| Guesses { normal, ..chosen };
    let between = |between| Guesses { between, ..chosen };
    let inside = |inside| Guesses { inside, ..chosen };
    let table = [
        ("as chosen", chosen),
        ("halves towards zero", halves(Halves::Down)),
        ("halves to even", halves(Halves::ToEven)),
        ("halves to odd", halves(Halves::ToOdd)),
        ("root to the nearest", root(Root::Nearest)),
        ("direction to the nearest", normal(Normal::Nearest)),
        ("direction 1/100 short", normal(Normal::Short)),
        ("direction cut to 24 bits", normal(Normal::Bits24)),
        ("direction cut to 16 bits", normal(Normal::Bits16)),
        ("angle down", between(Between::Down)),
        ("angle 0 within 600 units", between(Between::Zero600)),
        ("angle 0 within 30000 units", between(Between::Zero30000)),
        ("points inside arcs down", inside(Inside::Down)),
    ];
    for (name, guesses) in table {
        guess::set(guesses);
        let tally = Tally::of(seed, count, TRIED);
        let (compared, aside) = (sum(&tally.compared), sum(&tally.set_aside));
        println!(
            "{name}: {} of {} compared disagree; {} of {} set aside",
            compared.disagree, compared.paths, aside.disagree, aside.paths
        );
        if let Some(path) = smallest(&tally.found, false) {
            tell("disagrees", &path, Setting::COARSE);
        } else if let Some(path) = smallest(&tally.found_aside, true) {
            tell("set aside and disagrees", &path, Setting::COARSE);
        }
    }
    ExitCode::SUCCESS
}

/// How many of the paths found are made smaller.
const TRIED: usize = 20;

/// The smallest path that can be had from those found.
fn smallest(found: &Found, set_aside: bool) -> Option<Path> {
    let mut text = Text::new();
    let mut shows = |path: &[[i32; 3]]| {
        let trial = Trial::new(&mut text, path, Setting::COARSE);
        trial.set_aside == set_aside && trial.verdict() != Verdict::Agree
    };
    let paths = found.iter().take(TRIED);
    paths
        .map(|(_, path, _)| shrunk(path, &mut shows))
        .min_by_key(|path| (size(path), path.clone()))
}

/// Prints the list: the collapsed edges are the text's.
fn list() -> ExitCode {
    print!("{}", fixed::HEAD);
    let mut text = Text::new();
    for (title, paths) in fixed::paths() {
        println!("# {title}");
        for path in paths {
            let trial = Trial::new(&mut text, &path, Setting::COARSE);
            let beside = match trial.set_aside {
                true => Beside::SetAside,
                false => Beside::Edges(collapsed(&trial.text)),
            };
            if !trial.set_aside && rests_on_halves(&mut text, &path) {
                println!("{}", fixed::HALF);
            }
            println!("{}", line(&path, &beside));
        }
    }
    ExitCode::SUCCESS
}

/// Whether another rule for halves would change the collapsed edges.
fn rests_on_halves(text: &mut Text, path: &[[i32; 3]]) -> bool {
    let mut edges = |halves| {
        guess::set(Guesses {
            halves,
            ..Guesses::CHOSEN
        });
        collapsed(&Trial::new(text, path, Setting::COARSE).text)
    };
    let others = [Halves::Down, Halves::ToEven, Halves::ToOdd].map(&mut edges);
    let chosen = edges(Guesses::CHOSEN.halves);
    others.iter().any(|other| *other != chosen)
}

/// Prints all edges of a path: plain's at grade 1, the text's at its default
/// step angle.
fn show(path: &[[i32; 3]]) -> ExitCode {
    let setting = Setting {
        step: Text::DEFAULT,
        ..Setting::COARSE
    };
    let trial = Trial::new(&mut Text::new(), path, setting);
    for (name, edges) in [("plain", &trial.plain), ("text", &trial.text)] {
        println!("{name}: {} edges", edges.len());
        for (edge, kind) in edges {
            println!("  {} {kind:?}", edges_text(&[(*edge, kind.is_arc())]));
        }
    }
    ExitCode::SUCCESS
}
