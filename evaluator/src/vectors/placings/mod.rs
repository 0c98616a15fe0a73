//! Placing calls, and valuing calls, exact and live, at the placings that they give and at broken ones.

mod broken;
mod moved;
mod order;
mod possible;

use super::scene::{Case, Scene, header, slice};
use super::{Shelf, live};
use crate::formats::join;
use crate::live as live_calls;
use crate::net::Multiplicities;
use crate::placing::{Placing, place};
use crate::point::Exact;
use crate::unit::{Unit, told};
use crate::value::{Call, lent_value, value};
use std::fmt;

const FORMS: &str = "\
# place UNIT X Y Z D placing K1 K2 K3 P R S L0 L1 L2 L3
# place UNIT X Y Z D refused NUMBER PLACE
# value UNIT NET C U K1 K2 K3 P R S L0 L1 L2 L3 answer N U DENOMINATOR
# value UNIT NET C U K1 K2 K3 P R S L0 L1 L2 L3 refused NUMBER PLACE
# live-value UNIT NET C U K1 K2 K3 P R S L0 L1 L2 L3 FLAG both BITS BITS
# live-value UNIT NET C U K1 K2 K3 P R S L0 L1 L2 L3 FLAG shift BITS
# live-value UNIT NET C U K1 K2 K3 P R S L0 L1 L2 L3 FLAG refused NUMBER PLACE
";

const WORDS: &str = "\
#                      K1 K2 K3 is the cell, P R S the axis order, L0 to L3 are the weights; a call place is lent nothing
";

/// One valuing call, apart from the numbers lent to it.
#[derive(Clone, Copy)]
struct Valuing {
    unit: Unit,
    /// The lengths of net, corrections and uncertainties.
    lengths: [usize; 3],
    placing: Placing,
}

impl Valuing {
    /// What the case hands in, at this placing.
    fn at(placing: Placing, case: &Case) -> Valuing {
        Valuing { unit: case.unit, lengths: case.lengths, placing }
    }
}

impl fmt::Display for Valuing {
    fn fmt(&self, f: &mut fmt::Formatter) -> fmt::Result {
        write!(f, "{} {} {}", self.unit, join(self.lengths), self.placing)
    }
}

/// Calls over a lent net and a lent block. The cases of the scene are those of placing calls.
pub struct Placings {
    scene: Scene,
    valuings: Vec<Valuing>,
}

impl Placings {
    /// The placing of each case that has one is valued too.
    fn of_points(scene: Scene) -> Placings {
        let valuing = |case: &Case| Some(Valuing::at(place(&case.unit, case.coordinates, case.divisor).ok()?, case));
        let valuings = scene.cases.iter().filter_map(valuing).collect();
        Placings { scene, valuings }
    }

    fn call(&self, valuing: &Valuing) -> Call<'_> {
        let Valuing { unit, lengths: [net_length, c, u], placing } = *valuing;
        let (corrections, uncertainties) = (&self.scene.block.corrections[..c], &self.scene.block.uncertainties[..u]);
        Call { unit, net_length, corrections, uncertainties, placing }
    }

    /// The answer from the lent numbers; where these are the unit's own net, the recurrence must say the same.
    fn answer(&self, valuing: &Valuing, lent_numbers: &[u32]) -> Exact {
        let call = self.call(valuing);
        let answer = lent_value(&call, &slice(lent_numbers, call.net_length));
        if self.scene.lends_net_of(&call.unit) {
            assert_eq!(answer, value(&call), "the net and the recurrence agree");
        }
        answer
    }

    fn text(&self, shelf: &Shelf) -> String {
        let lent_numbers = self.scene.lent_numbers(shelf);
        let mut text = self.scene.lent_text();
        text.extend(self.scene.cases.iter().map(place_line));
        for (number, valuing) in self.valuings.iter().enumerate() {
            let exact = self.answer(valuing, &lent_numbers);
            let flag = [live::ON[0], live::OFF, live::ON[1]][number % 3];
            let floats = live_calls::value(&self.call(valuing), exact, flag != live::OFF);
            text.push_str(&format!("value {valuing} {}\n", told(&exact)));
            text.push_str(&format!("live-value {valuing} {flag} {}\n", told(&floats)));
        }
        text
    }
}

fn place_line(case: &Case) -> String {
    let Case { unit, coordinates, divisor, .. } = case;
    let placed = place(unit, *coordinates, *divisor).map(|placing| format!("placing {placing}"));
    format!("place {unit} {} {divisor} {}\n", join(coordinates), told(&placed))
}

pub fn shapes() -> Vec<Multiplicities> {
    [possible::shapes(), broken::shapes(), order::shapes(), moved::shapes()].concat()
}

pub fn scenes(shelf: &Shelf) -> Vec<Placings> {
    let all = [possible::scenes(shelf), broken::scenes(), order::scenes(shelf), moved::scenes()];
    all.into_iter().flatten().collect()
}

/// The file of these scenes.
pub fn text(scenes: &[Placings], shelf: &Shelf) -> String {
    let texts = scenes.iter().map(|scene| scene.text(shelf));
    let words = format!("{WORDS}{}", live::WORDS);
    std::iter::once(header("Placing and valuing calls", FORMS, &words)).chain(texts).collect()
}
