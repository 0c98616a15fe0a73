//! Points of blocks that begin elsewhere than at 0. A placing has no origin in it, so it is valued alike in all of
//! them.

use super::super::origins;
use super::super::refusals::moved::{setting, some_cases};
use super::super::refusals::{self, assert_refused, inside, pairs};
use super::super::scene::Case;
use super::order::{PLACING_CHECKS, broken};
use super::{Placings, Valuing};
use crate::net::Multiplicities;
use crate::placing::{Placing, place};
use crate::point::largest_divisor;
use crate::unit::Unit;
use crate::value::value;

pub fn shapes() -> Vec<Multiplicities> {
    [origins::shapes(), refusals::shapes()].concat()
}

pub fn scenes() -> Vec<Placings> {
    vec![valued_elsewhere(), refused()]
}

/// Each point is placed; of each origin and divisor one placing is valued in a unit with the next origin.
fn valued_elsewhere() -> Placings {
    let scene = origins::scene();
    let of_origins: Vec<_> = scene.cases.chunks(2 * origins::POINTS).collect();
    let elsewhere = of_origins.iter().cycle().skip(1).map(|cases| cases[0].unit);
    let valued = |(number, (cases, unit)): (usize, (&&[Case], Unit))| {
        let of_divisor = |(of_divisor, cases): (usize, &[Case])| {
            let case = &cases[origins::turn(number, of_divisor)];
            let placing = place(&case.unit, case.coordinates, case.divisor).expect("the point is inside");
            Valuing { unit, ..Valuing::at(placing, case) }
        };
        cases.chunks(origins::POINTS).enumerate().map(of_divisor).collect::<Vec<_>>()
    };
    let valuings = of_origins.iter().zip(elsewhere).enumerate().flat_map(valued).collect();
    Placings { scene, valuings }
}

/// Each refusal of the placing call alone and with each other one, and 17 in each way.
fn refused() -> Placings {
    let mut scene = setting(false, false);
    for pair in pairs(&PLACING_CHECKS, false, false) {
        let cases = some_cases(&scene, pair);
        cases.iter().for_each(|case| assert_refused(pair, place(&case.unit, case.coordinates, case.divisor)));
        scene.cases.extend(cases);
    }
    let case = scene.case(inside(&scene, 10), 10);
    let placing = place(&case.unit, case.coordinates, case.divisor).expect("the point is inside");
    let past = largest_divisor(scene.net.degree()) + 1;
    let valuings = broken(placing, past).map(|placing: Placing| Valuing::at(placing, &case)).to_vec();
    let placings = Placings { scene, valuings };
    placings.valuings.iter().for_each(|valuing| assert_refused([17; 2], value(&placings.call(valuing))));
    placings
}
