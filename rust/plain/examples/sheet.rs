//! What the repository's command does with sheets, in plain Rust, for its tests: standard input to standard output, and on a refusal the reply and its
//! number to standard error.
//!
//! sheet keep GRADE | sheet draw GRADE | sheet read | sheet replace K X Y RADIUS | sheet convert GRADE | sheet import | sheet export
//! sheet keep-kerb GRADE STYLE | sheet draw-kerb GRADE STYLE, a style being --radius R --join bevel|round [--closed]
//! sheet explain [EDGE] | sheet salvage
//! sheet side BEFORE AFTER before|after VERTEX, the two sheets by their names
//! sheet chunk-make ENTRIES BYTES | sheet chunk-add KEY OUTLINE | sheet chunk-find KEY | sheet chunk-remove KEY | sheet chunk-compact

use plain::calls::{
    convert, draw, draw_kerb, keep_kerb, keep_records, numbers, read, replace, Record, Reply,
};
use plain::chunks;
use plain::kerbs::StyleWords;
use plain::oldest::{export, import};
use plain::reasons;
use plain::salvage::salvage;
use plain::sides::side;
use std::io::{self, Read, Write};
use std::process::ExitCode;

/// The numbers of each line of a text that has any. A `#` begins a comment.
fn lines(text: &[u8]) -> Vec<Vec<i64>> {
    let text = std::str::from_utf8(text).expect("a path text is plain text");
    let number = |word: &str| word.parse().expect("a path text has whole numbers");
    let line = |line: &str| {
        let content = line.split('#').next().unwrap_or("");
        content.split_whitespace().map(number).collect()
    };
    let lines = text.lines().map(line);
    lines.filter(|line: &Vec<i64>| !line.is_empty()).collect()
}

/// The numbers of a kerb's text.
fn points(text: &[u8]) -> Vec<i32> {
    lines(text).concat().iter().map(|&n| n as i32).collect()
}

/// The vertices of a path text: x, y, radius and, if there is a fourth number,
/// the point number.
fn records(text: &[u8]) -> Vec<Record> {
    let record = |line: &Vec<i64>| Record {
        x: line[0] as i32,
        y: line[1] as i32,
        radius: line[2] as i32,
        number: line.get(3).map_or(0, |&number| number as u32),
    };
    lines(text).iter().map(record).collect()
}

/// The numbers of a path text without point numbers.
fn path(text: &[u8]) -> Vec<i32> {
    let three = |record: &Record| [record.x, record.y, record.radius];
    records(text).iter().flat_map(three).collect()
}

/// Rows of so many numbers, one a line.
fn rows(numbers: &[i32], width: usize) -> Vec<u8> {
    let row = |numbers: &[i32]| {
        numbers
            .iter()
            .map(i32::to_string)
            .collect::<Vec<_>>()
            .join(" ")
    };
    let lines = numbers
        .chunks_exact(width)
        .map(|numbers| row(numbers) + "\n");
    lines.collect::<String>().into_bytes()
}

/// What a call writes into as many entries as it counts, `each` for one, when
/// it is first lent some; or why it refuses.
fn lent<T: Clone + Default>(
    mut room: Vec<T>,
    each: usize,
    mut call: impl FnMut(&mut [T]) -> Reply,
) -> Result<Vec<T>, Reply> {
    let mut reply = call(&mut room);
    if reply.reply == 5 {
        room.resize(each * reply.number as usize, T::default());
        reply = call(&mut room);
    }
    if reply.reply != 0 {
        return Err(reply);
    }
    room.truncate(each * reply.number as usize);
    Ok(room)
}

/// A chunk after a call, or why it refuses.
fn changed(mut chunk: Vec<u8>, call: impl FnOnce(&mut [u8]) -> Reply) -> Result<Vec<u8>, Reply> {
    match call(&mut chunk) {
        Reply { reply: 0, .. } => Ok(chunk),
        refusal => Err(refusal),
    }
}

/// What a command of chunks writes, or why it refuses. The chunk is the
/// standard input.
fn chunk_answer(words: &[&str], chunk: Vec<u8>) -> Option<Result<Vec<u8>, Reply>> {
    Some(match words {
        ["chunk-make", entries, bytes] => {
            let (entries, bytes) = (entries.parse().ok()?, bytes.parse().ok()?);
            changed(vec![0; bytes], |chunk| chunks::make(chunk, entries))
        }
        ["chunk-add", key, outline] => {
            let (key, outline) = (key.parse().ok()?, std::fs::read(outline).ok()?);
            changed(chunk, |chunk| chunks::add(chunk, key, &outline))
        }
        ["chunk-find", key] => match chunks::find(&chunk, key.parse().ok()?) {
            found if found.reply != 0 => Err(Reply::new(found.reply, found.number)),
            found => Ok(chunk[found.offset as usize..][..found.length as usize].to_vec()),
        },
        ["chunk-remove", key] => {
            let key = key.parse().ok()?;
            changed(chunk, |chunk| chunks::remove(chunk, key))
        }
        ["chunk-compact"] => changed(chunk, chunks::compact),
        _ => return None,
    })
}

/// A kerb's style.
fn style(words: &[&str]) -> Option<StyleWords> {
    let (radius, join, closed) = match *words {
        ["--radius", radius, "--join", join] => (radius, join, 0),
        ["--radius", radius, "--join", join, "--closed"] => (radius, join, 1),
        _ => return None,
    };
    let join = ["bevel", "round"].iter().position(|&name| name == join)?;
    Some([radius.parse().ok()?, join as u32, closed])
}

/// A sheet's path as text, or a kerb's style and points.
fn as_text(sheet: &[u8]) -> Result<Vec<u8>, Reply> {
    let mut room = vec![0; 3 * 4096];
    let reply = read(sheet, &mut room);
    let [radius, join, closed] = reply.style;
    let count = reply.number as usize;
    match (reply.reply, reply.kind) {
        (0, 0) => {
            let points = lent(vec![], 1, |room| numbers(sheet, room))?;
            let row = |(vertex, &point): (&[i32], &u32)| {
                let row = String::from_utf8(rows(vertex, 3)).expect("digits");
                match point {
                    0 => row,
                    point => format!("{} {point}\n", row.trim_end()),
                }
            };
            let rows = room[..3 * count].chunks_exact(3).zip(&points).map(row);
            Ok(rows.collect::<String>().into_bytes())
        }
        (0, _) => {
            let join = ["bevel", "round"][join as usize];
            let closed = if closed == 1 { " --closed" } else { "" };
            let style = format!("# kerb: --radius {radius} --join {join}{closed}\n");
            Ok([style.into_bytes(), rows(&room[..2 * count], 2)].concat())
        }
        _ => Err(reply),
    }
}

/// The body of a vertex in one of two sheets, an edge a line.
fn body(before: &[u8], after: &[u8], later: bool, vertex: usize) -> Result<Vec<u8>, Reply> {
    let part = side(before, after, later, vertex);
    if part.reply != 0 {
        return Err(Reply::new(part.reply, part.number));
    }
    let chosen = if later { after } else { before };
    let bytes = &chosen[part.offset as usize..][..part.length as usize];
    let number = |word: &[u8]| i32::from_le_bytes(word.try_into().unwrap());
    let numbers: Vec<i32> = bytes.chunks_exact(4).map(number).collect();
    Ok(rows(&numbers, 4))
}

/// The sheet that is salvaged from a spoiled one.
fn salvaged(spoiled: &[u8]) -> Result<Vec<u8>, Reply> {
    let mut list = vec![0; 2 * (4096 + 2)];
    lent(vec![], 1, |room| {
        let salvaged = salvage(spoiled, room, &mut list);
        Reply::new(salvaged.reply, salvaged.number)
    })
}

/// Why an edge of a sheet is there, a line.
fn why(sheet: &[u8], edge: usize) -> Result<Vec<u8>, Reply> {
    let (refusal, why) = reasons::explain(sheet, edge);
    let why = why.ok_or(refusal)?;
    Ok(format!("{}\n", why.line(edge)).into_bytes())
}

/// Why each edge of a sheet is there, a line an edge.
fn whys(sheet: &[u8]) -> Result<Vec<u8>, Reply> {
    let words = [
        "left-side",
        "right-side",
        "start-cap",
        "end-cap",
        "left-join",
        "right-join",
        "gap",
        "circle",
    ];
    let numbers = lent(vec![], 5, |room| reasons::list(sheet, room))?;
    let line = |(edge, why): (usize, &[u64])| {
        let (reason, vertex, place) = (words[why[0] as usize], why[1], why[2]);
        let mut line = format!("{edge} {reason} {vertex} {place}");
        if reason.ends_with("-side") {
            for exact in &why[3..] {
                line += [" rounded", " exact"][*exact as usize];
            }
        }
        line + "\n"
    };
    let lines = numbers.chunks_exact(5).enumerate().map(line);
    Ok(lines.collect::<String>().into_bytes())
}

/// What the command writes, or why it refuses.
fn answer(words: &[&str], input: Vec<u8>) -> Option<Result<Vec<u8>, Reply>> {
    Some(match words {
        ["keep", grade] => {
            let (path, grade) = (records(&input), grade.parse().ok()?);
            lent(vec![], 1, |room| keep_records(&path, grade, room))
        }
        ["draw", grade] => {
            let (path, grade) = (path(&input), grade.parse().ok()?);
            lent(vec![], 4, |room| draw(&path, grade, room)).map(|edges| rows(&edges, 4))
        }
        ["keep-kerb", grade, words @ ..] => {
            let (points, grade, style) = (points(&input), grade.parse().ok()?, style(words)?);
            lent(vec![], 1, |room| keep_kerb(&points, grade, style, room))
        }
        ["draw-kerb", grade, words @ ..] => {
            let (points, grade, style) = (points(&input), grade.parse().ok()?, style(words)?);
            let edges = lent(vec![], 4, |room| draw_kerb(&points, grade, style, room));
            edges.map(|edges| rows(&edges, 4))
        }
        ["read"] => as_text(&input),
        ["replace", index, x, y, radius] => {
            let (index, x, y) = (index.parse().ok()?, x.parse().ok()?, y.parse().ok()?);
            let radius = radius.parse().ok()?;
            lent(input, 1, |room| replace(room, index, x, y, radius))
        }
        ["convert", grade] => {
            let grade = grade.parse().ok()?;
            lent(input, 1, |room| convert(room, grade))
        }
        ["salvage"] => salvaged(&input),
        ["explain"] => whys(&input),
        ["explain", edge] => why(&input, edge.parse().ok()?),
        ["side", before, after, which, vertex] => {
            let (before, after) = (std::fs::read(before).ok()?, std::fs::read(after).ok()?);
            body(&before, &after, *which == "after", vertex.parse().ok()?)
        }
        ["import"] => {
            let float = |word: &[u8]| f32::from_le_bytes(word.try_into().unwrap());
            let floats: Vec<f32> = input.chunks_exact(4).map(float).collect();
            lent(vec![], 3, |room| import(&floats, room)).map(|path| rows(&path, 3))
        }
        ["export"] => {
            let path = path(&input);
            let floats = lent(vec![], 3, |room| export(&path, room));
            floats.map(|floats| floats.into_iter().flat_map(f32::to_le_bytes).collect())
        }
        _ => return chunk_answer(words, input),
    })
}

fn main() -> ExitCode {
    let words: Vec<String> = std::env::args().skip(1).collect();
    let words: Vec<&str> = words.iter().map(String::as_str).collect();
    let mut input = Vec::new();
    io::stdin()
        .read_to_end(&mut input)
        .expect("standard input is read");
    match answer(&words, input) {
        Some(Ok(output)) => {
            io::stdout()
                .write_all(&output)
                .expect("standard output is written");
            ExitCode::SUCCESS
        }
        Some(Err(refusal)) => {
            eprintln!("{} {}", refusal.reply, refusal.number);
            ExitCode::FAILURE
        }
        None => {
            eprintln!(
                "sheet keep GRADE | sheet draw GRADE | sheet read | sheet replace K X Y RADIUS | sheet convert GRADE\n\
                 sheet import | sheet export\n\
                 sheet keep-kerb GRADE STYLE | sheet draw-kerb GRADE STYLE | sheet explain [EDGE] | sheet salvage | sheet chunk-..\n\
                 sheet side BEFORE AFTER before|after VERTEX"
            );
            ExitCode::FAILURE
        }
    }
}
