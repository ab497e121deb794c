//! Kerbs in words: their style, as the command line has it and as it is told.

use crate::failure::Failure;
use crate::sheet::Sheet;
use crate::words::whole;
use clap::{Args, ValueEnum};
use sehmelir::{Form, Join, Style};

/// How the corners of a kerb are drawn, as the command line has it.
#[derive(Clone, Copy, ValueEnum)]
enum Corners {
    /// Cut straight
    Bevel,
    /// Along an arc
    Round,
}

/// The style of a kerb, as the command line has it.
#[derive(Args)]
pub struct Styling {
    /// Half the width of the whole line: 0 to 268435456
    #[arg(long, allow_negative_numbers = true)]
    radius: String,
    /// How its corners are drawn
    #[arg(long, value_enum)]
    join: Corners,
    /// Back to the first point
    #[arg(long)]
    closed: bool,
}

impl Styling {
    /// The style. That a radius is not too large is the library's test.
    pub fn style(&self) -> Result<Style, Failure> {
        let due = Failure::Words("--radius is a whole number, 0 to 268435456");
        Ok(Style {
            radius: whole(self.radius.as_bytes()).ok_or(due)?,
            join: match self.join {
                Corners::Bevel => Join::Bevel,
                Corners::Round => Join::Round,
            },
            closed: self.closed,
        })
    }
}

/// The name of a join.
fn join(style: Style) -> &'static str {
    match style.join {
        Join::Bevel => "bevel",
        Join::Round => "round",
    }
}

/// A style as the command line takes it, on a line that counts for nothing in a
/// text.
pub fn comment(style: Style) -> String {
    let closed = if style.closed { " --closed" } else { "" };
    let (radius, join) = (style.radius, join(style));
    format!("# kerb: --radius {radius} --join {join}{closed}\n")
}

/// A style in words.
fn told(style: Style) -> String {
    let ends = if style.closed { "closed" } else { "open" };
    format!("radius {}, {}, {ends}", style.radius, join(style))
}

/// What a sheet is of, in words: nothing of a path.
pub fn of(sheet: &Sheet) -> String {
    match sheet.form() {
        Form::Stroke => String::new(),
        Form::Kerb(style) => format!(", kerb of {}", told(style)),
    }
}

/// The styles of two kerbs, in a line.
pub fn styles(before: Style, after: Style) -> String {
    match before == after {
        true => format!("style: {} on each sheet", told(after)),
        false => format!("style: {} before; {} after", told(before), told(after)),
    }
}

#[cfg(test)]
mod tests {
    use super::{comment, styles};
    use sehmelir::{Join, Style};

    #[test]
    fn a_style_is_told() {
        let style = Style {
            radius: 150,
            join: Join::Round,
            closed: true,
        };
        assert_eq!(
            comment(style),
            "# kerb: --radius 150 --join round --closed\n"
        );
        let open = Style {
            closed: false,
            ..style
        };
        assert_eq!(comment(open), "# kerb: --radius 150 --join round\n");
        assert_eq!(
            styles(style, open),
            "style: radius 150, round, closed before; radius 150, round, open after"
        );
        assert_eq!(
            styles(open, open),
            "style: radius 150, round, open on each sheet"
        );
    }
}
