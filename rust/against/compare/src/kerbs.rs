//! Kerbs on both sides.

use crate::text::Text;
use against::kerbs::{self, alike, apart, plain_shape, shape, Kerb, Order, Shape};
use against::kerbs_list::{line, sides};
use i_overlay::i_float::int::angle::Angle;
use i_overlay::mesh::int::arc::ArcOptions;
use i_overlay::mesh::int::{
    stroke::Kerb as TextKerb,
    style::{IntLineJoin, IntStrokeStyle},
};
use plain::arcs::Edge;
use plain::kerbs::Join;
use std::process::ExitCode;

/// The text's edges of a kerb. A width is twice the radius, or one less.
fn text_edges(kerb: &Kerb, step: usize, odd: bool) -> Vec<Edge> {
    let steps = [
        ArcOptions::MAX_STEP,
        ArcOptions::default().max_step,
        Angle::from_bits(1 << 25),
        ArcOptions::MIN_STEP,
    ];
    let join = match kerb.style.join {
        Join::Bevel => IntLineJoin::Bevel,
        Join::Round => IntLineJoin::Round(ArcOptions {
            max_step: steps[step],
            ..ArcOptions::default()
        }),
    };
    let width = 2 * kerb.style.radius as i32 - odd as i32;
    let style = IntStrokeStyle::new(width).line_join(join);
    TextKerb::new(&style).edges(&kerb.points, kerb.style.closed)
}

/// A kerb on both sides: nothing of a side that is not in order.
pub struct Pair {
    pub plain: Option<Shape>,
    pub text: Option<Shape>,
}

impl Pair {
    pub fn of(kerb: &Kerb, number: u64) -> Pair {
        let grade = match number % 64 {
            few @ 0..8 => 8 - few as u32,
            8..14 => 2,
            _ => 1,
        };
        let step = match number % 61 {
            few @ 0..12 => few as usize % Text::STEPS,
            _ => 0,
        };
        let edges = text_edges(kerb, step, number % 2 == 1);
        Pair {
            plain: plain_shape(kerb, grade),
            text: shape(kerb, &edges, Order::RightFirst),
        }
    }

    pub fn agrees(&self, join: Join) -> bool {
        match (&self.plain, &self.text) {
            (Some(plain), Some(text)) => alike(join, plain, text),
            _ => false,
        }
    }
}

/// Compares kerbs, and tells what was compared and each disagreement.
pub fn compare(count: u64, seed: u64) -> ExitCode {
    let (mut kerbs, mut joints, mut round, mut right, mut back) = (0u64, 0, 0, 0, 0);
    let (mut disagree, mut farthest, mut contacts, mut unlike) = (0u64, 0, 0u64, 0u64);
    for number in 0..kerbs::small_count() + count {
        let kerb = match number.checked_sub(kerbs::small_count()) {
            None => kerbs::small(number),
            Some(number) => kerbs::random(seed, number),
        };
        let pair = Pair::of(&kerb, number);
        kerbs += 1;
        if !pair.agrees(kerb.style.join) {
            disagree += 1;
            if disagree <= 20 {
                println!("  disagrees: {}", line(&kerb, &sides(&pair.text)));
                println!("    plain: {:?}", pair.plain);
                println!("    text:  {:?}", pair.text);
            }
            continue;
        }
        let (Some(plain), Some(text)) = (&pair.plain, &pair.text) else {
            continue;
        };
        let distance = apart(plain, text);
        farthest = farthest.max(distance);
        contacts += 1;
        unlike += (distance > 0) as u64;
        for joint in &plain.joints {
            joints += 1;
            round += (kerb.style.join == Join::Round && joint.outer > 1) as u64;
            right += joint.right as u64;
            back += (joint.right && joint.left) as u64;
        }
    }
    println!(
        "{kerbs} kerbs: all {} small ones ({}), and {count} random ones, seed {seed}",
        kerbs::small_count(),
        kerbs::SMALL_TEXT
    );
    println!(
        "{joints} joins: the right side is the outer one in {right}, either in {back}; \
         {round} round ones of more than one edge"
    );
    println!("contacts differ in {unlike} of {contacts} kerbs, by at most {farthest} in x or y");
    println!("{disagree} disagree");
    match disagree {
        0 => ExitCode::SUCCESS,
        _ => ExitCode::FAILURE,
    }
}

/// Prints kerbs.txt: the sides are the text's.
pub fn list() -> ExitCode {
    print!("{}", against::kerbs_list::HEAD);
    let some = (0..4_000).map(|number| kerbs::random(2, number));
    let some = some.filter(|kerb| (2..=6).contains(&kerb.points.len()) && kerb.style.radius > 1);
    for kerb in against::kerbs_list::fixed()
        .into_iter()
        .chain(some.take(200))
    {
        println!("{}", line(&kerb, &sides(&Pair::of(&kerb, 100).text)));
    }
    ExitCode::SUCCESS
}
