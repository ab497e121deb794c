//! The table with the goals: every call beside plain and beside tuned, on long
//! lines, on short ones with a call each, and what a call costs by itself.

use crate::bare_calls::{self, CallTimes};
use crate::every_call::{self, Times};
use crate::inputs::Input;
use crate::table::Table;
use std::cell::Cell;
use std::fmt;

const GRADES: [u32; 3] = [2, 4, 8];

/// What a call may cost beside its vertices' own time, in nanoseconds: draw, and
/// the other three.
const DRAW_CALL: f64 = 60.0;
const OTHER_CALL: f64 = 150.0;

/// What times may be at most, in times another's; where there is no goal, none.
#[derive(Default)]
struct Goals {
    draw_to_plain: Option<f64>,
    draw_to_tuned: Option<f64>,
    keep_to_draw: Option<f64>,
    read_to_draw: Option<f64>,
    replace_to_read: Option<f64>,
}

impl Goals {
    fn of_hedges() -> Goals {
        Goals {
            draw_to_plain: None,
            draw_to_tuned: Some(1.15),
            keep_to_draw: Some(1.4),
            read_to_draw: Some(1.2),
            replace_to_read: Some(1.3),
        }
    }

    fn of_lone_circles() -> Goals {
        Goals {
            draw_to_plain: Some(1.0),
            draw_to_tuned: Some(2.5),
            ..Goals::default()
        }
    }
}

/// What a row is of: lines, a call each.
struct Lines {
    name: &'static str,
    lines: Vec<Input>,
    goals: Goals,
}

impl Lines {
    fn new(name: &'static str, lines: Vec<Input>, goals: Goals) -> Lines {
        Lines { name, lines, goals }
    }

    fn each_grade(&self) -> [Times; 3] {
        GRADES.map(|grade| every_call::best(&self.lines, grade))
    }
}

/// How many goals there were, and how many of them are met.
#[derive(Default)]
pub struct Tally {
    goals: Cell<usize>,
    met: Cell<usize>,
}

impl Tally {
    /// A number as it is printed, with its goal beside it if it has one.
    fn held(&self, number: String, goal: Option<f64>) -> String {
        let Some(goal) = goal else {
            return number;
        };
        let met = number.parse().is_ok_and(|number: f64| number <= goal);
        self.goals.update(|goals| goals + 1);
        self.met.update(|count| count + met as usize);
        let sign = if met { '≤' } else { '>' };
        format!("{number} {sign} {goal}")
    }

    fn ratio(&self, time: f64, to: f64, goal: Option<f64>) -> String {
        self.held(format!("{:.2}", time / to), goal)
    }
}

impl fmt::Display for Tally {
    fn fmt(&self, out: &mut fmt::Formatter) -> fmt::Result {
        let (met, goals) = (self.met.get(), self.goals.get());
        write!(out, "{met} of {goals} goals are met.")
    }
}

/// What the rows are, for whoever reads them.
pub const CONDITIONS: &str = "\
Nanoseconds a vertex; tuned is rust/tuned's draw. Where lines are many each has a call of its
own. Replace moves the first vertex, the one in the middle or the last one there and back; the
last one's replacement has no end to its reach, so it has no goal. Below stand nanoseconds a
call: what a lone circle takes beyond one of 512 in one path, of replace beyond that circle's
reading and drawing; and calls that have next to nothing to draw, or refuse. A goal stands
beside its number, ≤ where it is met and > where not.";

/// A row for each input and grade.
pub fn timed(tally: &Tally) -> Table<16> {
    let mut table = Table::new([
        "input",
        "grade",
        "plain",
        "tuned",
        "draw",
        "keep",
        "read",
        "replace first",
        "middle",
        "last",
        "draw to plain",
        "draw to tuned",
        "keep to draw",
        "read to draw",
        "replace to read",
        "last to read",
    ]);
    let circles = Input::circles(512);
    let lone = circles.cut(1);
    let hedges = [
        Lines::new("hedge of 900", vec![Input::hedge(900)], Goals::of_hedges()),
        Lines::new("hedge of 100", vec![Input::hedge(100)], Goals::of_hedges()),
        Lines::new(
            "200 hedges of 5",
            Input::hedge(1000).cut(5),
            Goals::of_hedges(),
        ),
    ];
    let circles = Lines::new("512 circles in one path", vec![circles], Goals::default());
    let lone = Lines::new("512 lone circles", lone, Goals::of_lone_circles());
    for hedges in hedges {
        push_lines(&mut table, tally, &hedges, &hedges.each_grade());
    }
    let (together, apart) = (circles.each_grade(), lone.each_grade());
    push_lines(&mut table, tally, &circles, &together);
    push_lines(&mut table, tally, &lone, &apart);
    let beyond = std::array::from_fn(|place| beyond(&apart[place], &together[place]));
    push_calls(&mut table, tally, "a lone circle's call", beyond);
    for bare in bare_calls::each() {
        push_calls(
            &mut table,
            tally,
            bare.name,
            GRADES.map(|grade| bare.best(grade)),
        );
    }
    table
}

/// What calls take beyond their vertices' own time.
fn beyond(apart: &Times, together: &Times) -> CallTimes {
    CallTimes {
        plain: apart.plain - together.plain,
        draw: apart.draw - together.draw,
        keep: apart.keep - together.keep,
        read: apart.read - together.read,
        replace: apart.replace[0] - together.read - together.draw,
    }
}

fn push_lines(table: &mut Table<16>, tally: &Tally, lines: &Lines, times: &[Times; 3]) {
    for (grade, times) in GRADES.iter().zip(times) {
        let Times {
            plain,
            tuned,
            draw,
            keep,
            read,
            replace: [first, middle, last],
        } = *times;
        let goals = &lines.goals;
        let each = |time: f64| format!("{time:.0}");
        table.push([
            lines.name.to_string(),
            grade.to_string(),
            each(plain),
            each(tuned),
            each(draw),
            each(keep),
            each(read),
            each(first),
            each(middle),
            each(last),
            tally.ratio(draw, plain, goals.draw_to_plain),
            tally.ratio(draw, tuned, goals.draw_to_tuned),
            tally.ratio(keep, draw, goals.keep_to_draw),
            tally.ratio(read, draw, goals.read_to_draw),
            tally.ratio(first.max(middle), read, goals.replace_to_read),
            tally.ratio(last, read, None),
        ]);
    }
}

fn push_calls(table: &mut Table<16>, tally: &Tally, name: &str, times: [CallTimes; 3]) {
    for (grade, times) in GRADES.iter().zip(times) {
        let each = |time: f64, goal| tally.held(format!("{time:.0}"), goal);
        let mut cells = [
            name.to_string(),
            grade.to_string(),
            each(times.plain, None),
            String::new(),
            each(times.draw, Some(DRAW_CALL)),
            each(times.keep, Some(OTHER_CALL)),
            each(times.read, Some(OTHER_CALL)),
            each(times.replace, Some(OTHER_CALL)),
        ]
        .into_iter();
        table.push(std::array::from_fn(|_| cells.next().unwrap_or_default()));
    }
}
