//! The live call at the point or the placing that was asked: it must give the exact call's N and U as floats,
//! or meet 15.

use crate::divisors;
use crate::library::{Figure, Net, Refusal};
use crate::parts::Part;
use crate::point::Point;
use crate::sums::denominator;
use crate::torskavel::{MAX_LIVE_DENOMINATOR, refused};
use crate::walk::{Outcome, Walk};

/// N and U, or the refusal.
pub type Answer = Result<[f64; 2], Refusal>;

/// What is given with the uncertainty on and with it switched off, and what follows from the exact call.
pub struct Live {
    given: [Answer; 2],
    right: [Answer; 2],
}

/// Whether two answers are the same to the last bit.
fn same(a: &Answer, b: &Answer) -> bool {
    match (a, b) {
        (Ok(a), Ok(b)) => a.map(f64::to_bits) == b.map(f64::to_bits),
        (Err(a), Err(b)) => a == b,
        _ => false,
    }
}

/// The exact call's answer as a live call has it. 15 is looked at after 11 and before 12, or after 17.
fn right(exact: &Result<Figure, Refusal>, degree: usize, divisor: u32) -> Answer {
    match exact {
        Err(refusal)
            if matches!(refusal.number, refused::DIVISOR | refused::DENOMINATOR | refused::PLACING) =>
        {
            Err(*refusal)
        }
        _ if denominator(degree, divisor) > MAX_LIVE_DENOMINATOR.into() => {
            Err(Refusal { number: refused::LIVE_DENOMINATOR, place: 0 })
        }
        Err(refusal) => Err(*refusal),
        Ok(figure) => Ok([figure.numerator as f64, figure.uncertainty as f64]),
    }
}

impl Live {
    /// For a point or a placing that passes every check on net and block; the live call takes the flag.
    pub fn of(
        exact: &Result<Figure, Refusal>,
        net: &Net,
        divisor: u32,
        live: impl Fn(bool) -> Answer,
    ) -> Live {
        let right = right(exact, net.degree(), divisor);
        Live { given: [true, false].map(live), right: [right, right.map(|[numerator, _]| [numerator, 0.0])] }
    }

    pub fn agrees(&self) -> bool {
        self.given.iter().zip(&self.right).all(|(given, right)| same(given, right))
    }
}

fn shown(answer: &Answer) -> String {
    match answer {
        Ok([numerator, uncertainty]) => format!("N {numerator:?}, U {uncertainty:?}"),
        Err(Refusal { number, place }) => format!("refused {number}, place {place}"),
    }
}

/// What differs from the exact call.
fn differing(live: &Live) -> Vec<String> {
    let mut lines = vec!["THE LIVE CALL DOES NOT AGREE WITH THE EXACT CALL:".to_string()];
    for (how, (given, right)) in ["on", "switched off"].iter().zip(live.given.iter().zip(&live.right)) {
        if !same(given, right) {
            lines.push(format!("uncertainty {how}: {}, and not {}", shown(given), shown(right)));
        }
    }
    lines
}

fn meets_15(net: &Net, point: &Point, outcome: &Outcome) -> Vec<String> {
    let (m, divisor) = (net.degree(), point.divisor);
    let later = match outcome {
        Outcome::Refused(refusal) => format!(", looked at before {}", refusal.number),
        _ => String::new(),
    };
    let power = format!("{m}! x {divisor}^{m} = {}", denominator(m, divisor));
    let largest = divisors::largest_live(m);
    vec![
        format!("refused by 15{later}: {power} is above 2^37 = {MAX_LIVE_DENOMINATOR}"),
        format!("the largest divisor for degree {m} in a live call is {largest}"),
    ]
}

/// What a live call answers here; of one that is refused as the exact call is, nothing.
pub fn told(walk: &Walk, parts: &mut Vec<Part>) {
    let Some(live) = &walk.live else { return };
    let lines = match (&live.right[0], &walk.net, &walk.point) {
        _ if !live.agrees() => differing(live),
        (Ok(_), ..) => vec![
            format!("{}: the same numbers as floats, over the same denominator", shown(&live.given[0])),
            format!("with the uncertainty switched off: {}", shown(&live.given[1])),
        ],
        (Err(refusal), Ok(net), Some(point)) if refusal.number == refused::LIVE_DENOMINATOR => {
            meets_15(net, point, &walk.outcome)
        }
        _ => return,
    };
    parts.push(Part::Heading("The live call".to_string()));
    parts.extend(lines.into_iter().map(Part::Line));
}
