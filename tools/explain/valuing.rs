//! What is told of a placing that was handed in: the point that it stands for, whether the point call gives
//! the same there, and 17.

use crate::handed::Handed;
use crate::library::{Figure, Refusal};
use crate::parts::{Part, words};
use crate::point::Point;
use crate::request::Question;
use crate::torskavel::refused;
use crate::walk::Walk;

/// What the valuing call gives, and what it has to give: the point call's answer at the point that the
/// placing stands for, or 17 where it stands for none.
pub struct Valued {
    pub given: Result<Figure, Refusal>,
    pub right: Result<Figure, Refusal>,
}

impl Valued {
    pub fn agrees(&self) -> bool {
        self.given == self.right
    }
}

/// The refusal of a placing that no point has.
pub const IMPOSSIBLE: Refusal = Refusal { number: refused::PLACING, place: 0 };

pub const WRONG: &str = "no point has this placing, with this net and this table";

fn handed(walk: &Walk) -> Option<Handed> {
    if let Question::Placing(handed) = walk.question { Some(handed) } else { None }
}

/// What its caller likely did, and what to do about it.
fn likely(handed: &Handed) -> (&'static str, &'static str) {
    if handed.is_zeros() {
        let refused = "all ten numbers are 0: likely the placing call was refused, and its number says why";
        (refused, "look at the number that the placing call gave, and value no placing that it refused")
    } else if handed.of_some_unit() {
        let another = "another unit gives it: likely the point was placed with another net or table, \
                       or else a field was changed";
        (
            another,
            "place the point with the net and the table that it is valued with, and hand on all ten \
             numbers as they came",
        )
    } else {
        let changed =
            "no unit gives such a placing: likely a field was changed, or read from the wrong bytes";
        (changed, "hand on all ten numbers as the placing call gave them")
    }
}

/// The rules that are broken, and what was likely done; without a placing, how to see them.
pub fn beside(walk: &Walk) -> Vec<String> {
    let (Some(handed), Ok(net), Ok(block)) = (handed(walk), &walk.net, &walk.block) else {
        let words = "placing K1 K2 K3 P R S L0 L1 L2 L3";
        return vec![format!(
            "to see which rule it breaks, ask with its ten numbers: explain FILE ORDER {words}"
        )];
    };
    let rules = if handed.is_zeros() { Vec::new() } else { handed.broken(net, block) };
    rules.into_iter().chain([likely(&handed).0.to_string()]).collect()
}

pub fn to_do(walk: &Walk) -> &'static str {
    match handed(walk) {
        Some(handed) => likely(&handed).1,
        None => {
            "place the point with the net and the table that it is valued with, and hand the placing on \
                 unchanged; one of zeros is from a placing call that was refused"
        }
    }
}

fn shown(answer: &Result<Figure, Refusal>) -> String {
    match answer {
        Ok(Figure { numerator, uncertainty, denominator }) => {
            format!("N {numerator}, U {uncertainty}, denominator {denominator}")
        }
        Err(Refusal { number, place }) => format!("refused {number}, place {place}"),
    }
}

/// The remainders of a possible placing, in its axis order, as sums of weights.
fn remainders(Handed { axes, weights, .. }: &Handed) -> String {
    let on_axis = |i: usize| {
        let later = &weights[i + 1..];
        let sum = later.iter().map(u32::to_string).collect::<Vec<_>>().join(" + ");
        let equals =
            if later.len() > 1 { format!(" = {}", later.iter().sum::<u32>()) } else { String::new() };
        format!("{sum}{equals} on axis {}", axes[i])
    };
    [0, 1, 2].map(on_axis).join(", ")
}

pub fn told(walk: &Walk, parts: &mut Vec<Part>) {
    let (Some(handed), Some(valued)) = (handed(walk), &walk.valued) else { return };
    parts.push(Part::Heading("The placing".to_string()));
    let mut line = |text: String| parts.push(Part::Line(text));
    let (cell, axes, weights) = (words(&handed.cell), words(&handed.axes), words(&handed.weights));
    line(format!("cell {cell}, axis order {axes}, weights {weights}, together {}", handed.divisor()));
    if let Some(Point { coordinates, divisor, origin }) = walk.point {
        line(format!("remainders: {}", remainders(&handed)));
        let cell = if origin == [0; 3] { "the cell" } else { "the origin and the cell together" };
        let each = format!("on each axis {cell} times {divisor}, and the remainder");
        line(format!("it stands for the point {} over {divisor}: {each}", words(&coordinates)));
    }
    if !valued.agrees() {
        line("THE VALUING CALL DOES NOT AGREE WITH THE POINT CALL:".to_string());
        line(format!("it gives {}, and not {}", shown(&valued.given), shown(&valued.right)));
    }
}
