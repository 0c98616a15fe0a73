use super::*;
use crate::net::Multiplicities;
use crate::unit::Sizes;
use std::collections::BTreeSet;

fn unit(v: [usize; 4], n: [usize; 3]) -> Unit {
    Unit::EMPTY.with_net(Multiplicities::new(v).unwrap()).with_block(Sizes::new(n).unwrap(), [0; 3])
}

/// Where the first entry stands, as a coordinate over this divisor.
fn start(unit: &Unit, divisor: u32) -> [i32; 3] {
    unit.o.map(|o| i32::from(o) * divisor as i32)
}

/// That of the example in docs/SPECIFICATION.md, 9.6.
fn example() -> Unit {
    unit([2, 1, 1, 1], [4, 3, 2])
}

fn placing(cell: [u32; 3], order: [u8; 3], weights: [u32; 4]) -> Placing {
    Placing { cell, order, weights }
}

fn number(unit: &Unit, placing: Placing) -> u8 {
    point_of(unit, &placing).map_or_else(|refusal| refusal.number, |_| 0)
}

/// Lists of so many numbers, each from 0 to a greatest.
fn lists<const N: usize>(greatest: [u32; N]) -> Vec<[u32; N]> {
    let mut lists = vec![[0; N]];
    for b in 0..N {
        let with = |list: &[u32; N], number: u32| {
            let mut list = *list;
            list[b] = number;
            list
        };
        lists = lists.iter().flat_map(|list| (0..=greatest[b]).map(move |number| with(list, number))).collect();
    }
    lists
}

#[test]
fn of_equal_remainders_the_lower_axis_is_first() {
    assert_eq!(axis_order([5, 5, 5]), [0, 1, 2]);
    assert_eq!(axis_order([1, 5, 5]), [1, 2, 0]);
    assert_eq!(axis_order([1, 5, 1]), [1, 0, 2]);
    assert_eq!(axis_order([0, 1, 2]), [2, 1, 0]);
}

#[test]
fn the_placings_worked_by_hand() {
    let place = |point| place(&example(), point, 4);
    assert_eq!(place([10, 5, 7]), Ok(placing([2, 1, 1], [3, 1, 2], [1, 1, 1, 1])));
    assert_eq!(place([16, 5, 7]), Ok(placing([3, 1, 1], [1, 3, 2], [0, 1, 2, 1])));
    assert_eq!(place([15, 12, 8]), Ok(placing([3, 2, 1], [2, 3, 1], [0, 0, 1, 3])));
    assert_eq!(place([7, 5, 7]), Err(Refusal::from(12)));
    assert_eq!(place([17, 5, 7]), Err(Refusal::from(12)));
}

/// What a search through all coordinates of the block finds.
fn all_placings(unit: &Unit, largest_divisor: u32) -> BTreeSet<Placing> {
    let n = unit.n.map(u32::from);
    let place_each = |divisor| {
        let start = start(unit, divisor);
        // from one before the first entry to one past the far face
        let points = lists(n.map(|n| n * divisor + 2)).into_iter();
        points.map(move |steps| place(unit, [0, 1, 2].map(|b| start[b] - 1 + steps[b] as i32), divisor))
    };
    (0..=largest_divisor).flat_map(place_each).flatten().collect()
}

#[test]
fn few_coordinates_decide_what_all_do() {
    const WEIGHT: u32 = 2;
    let short = unit([1, 1, 1, 1], [2, 1, 2]);
    let moved = Unit { o: [-1, 32767, -32768], ..unit([1, 1, 1, 1], [3, 2, 2]) };
    for unit in [unit([1, 1, 1, 1], [2, 2, 2]), moved, unit([2, 1, 1, 1], [3, 2, 3]), short] {
        let possible = all_placings(&unit, 4 * WEIGHT);
        assert_eq!(possible.is_empty(), unit == short);
        for cell in lists(unit.n.map(u32::from)) {
            for order in lists([4; 3]).into_iter().map(|order| order.map(|axis| axis as u8)) {
                for weights in lists([WEIGHT; 4]) {
                    let placing = placing(cell, order, weights);
                    assert_eq!(number(&unit, placing) == 0, possible.contains(&placing), "{unit} {placing}");
                }
            }
        }
    }
}

#[test]
fn the_point_that_is_found_is_placed_so() {
    for o in [[0; 3], [-3, 1, -1], [32767, -32768, 0]] {
        let unit = Unit { o, ..example() };
        let start = start(&unit, 4);
        for steps in lists([18, 13, 9]).into_iter().map(|steps| steps.map(|c| c as i32)) {
            let point = [0, 1, 2].map(|b| start[b] + steps[b]);
            assert_eq!(place(&unit, point, 4), place(&example(), steps, 4));
            if let Ok(placing) = place(&unit, point, 4) {
                assert_eq!(point_of(&unit, &placing), Ok((point, 4)));
            }
        }
    }
}

#[test]
fn no_sum_wraps() {
    let inner = |weights| number(&example(), placing([2, 1, 1], [3, 1, 2], weights));
    assert_eq!(inner([1, 1, 1, 1]), 0);
    assert_eq!(inner([u32::MAX, 2, 2, 1]), 17);
    assert_eq!(inner([1 << 30, (1 << 30) + 1, (1 << 30) + 1, (1 << 30) + 2]), 17);
    assert_eq!(inner([u32::MAX; 4]), 17);
    assert_eq!(number(&example(), placing([u32::MAX; 3], [3, 1, 2], [1, 1, 1, 1])), 17);
    assert_eq!(number(&example(), placing([2 + (1 << 30), 1, 1], [3, 1, 2], [1, 1, 1, 1])), 17);
}

#[test]
fn check_17_stands_after_21_and_22() {
    let (no_net, no_block) = (Unit { has_net: false, ..example() }, Unit { has_block: false, ..example() });
    for placing in [placing([0; 3], [0; 3], [0; 4]), placing([2, 1, 1], [3, 1, 2], [1, 1, 1, 1])] {
        assert_eq!([Unit::EMPTY, no_net, no_block].map(|unit| number(&unit, placing)), [21, 21, 22]);
    }
    assert_eq!(number(&example(), placing([0; 3], [0; 3], [0; 4])), 17);
}
