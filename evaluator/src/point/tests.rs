use super::*;
use crate::field::Block;
use crate::lent;
use crate::net::Net;
use crate::random::Random;

/// The block of 2, 2, 2 of docs/SPECIFICATION.md, 14.6.
fn small(second: i16) -> Block {
    let mut block = Block::constant(Sizes::new([2, 2, 2]).unwrap(), 0, 5);
    block.corrections[0] = 100;
    block.corrections[1] = second;
    block
}

/// The call of a unit that has this net and this block.
fn call(block: &Block, v: [usize; 4], coordinates: [i32; 3], divisor: u32) -> Call<'_> {
    let multiplicities = Multiplicities::new(v).unwrap();
    let unit = Unit::EMPTY.with_net(multiplicities).with_block(block.sizes, block.origin);
    let (corrections, uncertainties) = (&block.corrections[..], &block.uncertainties[..]);
    Call { unit, net_length: multiplicities.places(), corrections, uncertainties, coordinates, divisor }
}

fn ask(block: &Block, v: [usize; 4], coordinates: [i32; 3], divisor: u32) -> Result<Fraction, Refusal> {
    answer(&call(block, v, coordinates, divisor))
}

/// A point on each far face, on each edge of two and at the far corner, elsewhere in the last cells.
fn far_points(sizes: Sizes, divisor: u32) -> Vec<[i32; 3]> {
    let divisor = divisor as i32;
    let remainder = [divisor / 3, divisor / 2, divisor / 5];
    let coordinate = |faces: usize, b: usize| {
        let n = sizes.axes()[b] as i32;
        if faces >> b & 1 == 1 { n * divisor } else { (n - 1) * divisor + remainder[b] }
    };
    (1..8).map(|faces| [0, 1, 2].map(|b| coordinate(faces, b))).collect()
}

/// A window or a little more.
fn sizes_for(v: [usize; 4]) -> Sizes {
    let [e1, e2, e3] = Multiplicities::new(v).unwrap().extents();
    Sizes::new([e1 + 1, e2, e3 + 2]).unwrap()
}

/// The block with one entry more, any, at the end of each axis.
fn with_a_layer(block: &Block, random: &mut Random) -> Block {
    let sizes = Sizes::new(block.sizes.axes().map(|n| n + 1)).unwrap();
    let mut larger = Block::random(sizes, random);
    let [n1, n2, _] = sizes.axes();
    for index in 0..block.sizes.entries() {
        let [j1, j2, j3] = block.sizes.entry(index);
        let there = j1 + n1 * (j2 + n2 * j3);
        larger.corrections[there] = block.corrections[index];
        larger.uncertainties[there] = block.uncertainties[index];
    }
    larger
}

#[test]
fn the_figures_worked_by_hand() {
    let block = small(-40);
    let ask = |coordinates, divisor| ask(&block, [1; 4], coordinates, divisor);
    assert_eq!(ask([1, 1, 1], 1), Ok(Fraction::new(100, 5, 1)));
    assert_eq!(ask([3, 2, 2], 2), Ok(Fraction::new(60, 10, 2)));
    assert_eq!(ask([2, 1, 1], 1), Ok(Fraction::new(-40, 5, 1)));
    assert_eq!(ask([0, 1, 1], 1), Err(Refusal::from(12)));
    assert_eq!(ask([3, 1, 1], 1), Err(Refusal::from(12)));
}

#[test]
fn tables_change_no_answer() {
    let block = Block::random(Sizes::new([4, 4, 4]).unwrap(), &mut Random::new(7));
    for coordinates in [[39, 31, 42], [47, 24, 36], [36, 36, 36], [48, 31, 42], [48, 48, 36], [48, 48, 48]] {
        let call = call(&block, [2, 1, 2, 2], coordinates, 12);
        assert!(answer(&call).is_ok());
        assert_eq!(answer_without_tables(&call), answer(&call));
    }
}

#[test]
fn a_gap_of_the_window_is_named_whatever_its_uncertainty() {
    let mut block = small(NEVER_MEASURED);
    for uncertainty in [0, 5, 65535] {
        block.uncertainties[1] = uncertainty;
        assert_eq!(ask(&block, [1; 4], [1, 1, 1], 1), Err(Refusal::at(13, 1)));
    }
}

#[test]
fn divisors_of_degree_5() {
    let block = Block::constant(Sizes::new([4, 4, 4]).unwrap(), 7, 0);
    let number = |d: u32| ask(&block, [2; 4], [3 * d as i32; 3], d).map_err(|refusal| refusal.number);
    assert!(number(297).is_ok());
    assert_eq!(number(298), Err(11));
    assert_eq!(number(0), Err(10));
    assert_eq!(number(4097), Err(10));
    assert_eq!(largest_divisor(5), 297);
}

#[test]
fn a_constant_is_answered_with_the_constant() {
    let (v, divisor) = ([2, 3, 1, 1], 11);
    let block = Block::constant(Sizes::new([4, 5, 3]).unwrap(), -321, 12);
    let inside = [3 * 11 + 4, 4 * 11 + 9, 2 * 11 + 1];
    for point in [vec![inside], far_points(block.sizes, divisor)].concat() {
        let fraction = ask(&block, v, point, divisor).unwrap();
        assert_eq!(i128::from(fraction.numerator), -321 * i128::from(fraction.denominator));
        assert_eq!(fraction.uncertainty, 12 * fraction.denominator);
    }
}

#[test]
fn a_far_face_is_answered_as_if_there_were_more_entries() {
    let mut random = Random::new(8);
    for v in [[1, 1, 1, 1], [2, 1, 1, 1], [1, 2, 1, 2], [2, 2, 2, 1], [3, 1, 2, 2], [3, 3, 3, 3]] {
        let block = Block::random(sizes_for(v), &mut random);
        let larger = with_a_layer(&block, &mut random);
        for divisor in [1, 9] {
            for point in far_points(block.sizes, divisor) {
                assert!(ask(&block, v, point, divisor).is_ok());
                assert_eq!(ask(&block, v, point, divisor), ask(&larger, v, point, divisor), "{v:?} {point:?}");
            }
        }
    }
}

#[test]
fn on_far_faces_the_net_gives_the_same() {
    for v in [[1, 1, 1, 1], [1, 2, 1, 2], [2, 1, 2, 1]] {
        let block = Block::random(sizes_for(v), &mut Random::new(9));
        let net = Net::of(Multiplicities::new(v).unwrap());
        for point in far_points(block.sizes, 7) {
            assert_eq!(ask(&block, v, point, 7), lent::answer(&call(&block, v, point, 7), &net.numbers));
        }
    }
}

#[test]
fn a_far_face_is_inside_where_the_block_has_a_window() {
    let (v, divisor) = ([2, 1, 1, 1], 6);
    let number = |sizes, point| {
        let block = Block::constant(Sizes::new(sizes).unwrap(), 1, 1);
        ask(&block, v, point, divisor).err().map(|refusal| refusal.number)
    };
    let fits = [3, 2, 2];
    for (axis, last) in [18, 12, 12].into_iter().enumerate() {
        let at = |coordinate| [0, 1, 2].map(|b| if b == axis { coordinate } else { 12 });
        assert_eq!([last - 1, last, last + 1].map(|c| number(fits, at(c))), [None, None, Some(12)]);
        let mut short = fits;
        short[axis] -= 1;
        assert_eq!([last - 7, last - 6, last - 5, last].map(|c| number(short, at(c))), [Some(12); 4]);
    }
}

#[test]
fn on_a_far_face_the_last_window_may_have_no_gap() {
    let v = [2, 1, 1, 1];
    let sizes = Sizes::new([5, 3, 2]).unwrap();
    let answered = |index: usize| {
        let mut block = Block::constant(sizes, 1, 1);
        block.corrections[index] = NEVER_MEASURED;
        ask(&block, v, [20, 5, 5], 4).map(|_| index)
    };
    let needed: Vec<usize> = (0..sizes.entries()).filter(|&index| answered(index).is_err()).collect();
    assert_eq!(needed, [2, 3, 4, 7, 8, 9, 17, 18, 19, 22, 23, 24]);
    assert!(needed.iter().all(|&index| answered(index) == Err(Refusal::at(13, index))));
}

/// At the ends of the numbers that an origin can be, and around 0.
const ORIGINS: [[i16; 3]; 6] =
    [[-32768, 0, 0], [0, 32767, 0], [0, 0, -1], [1, -1, 1], [32767, 32767, 32767], [-32768, 32767, -32768]];

/// The point that is in a block with this origin where the point handed in is in one with origin 0.
fn moved(point: [i32; 3], origin: [i16; 3], divisor: u32) -> [i32; 3] {
    [0, 1, 2].map(|b| point[b] + i32::from(origin[b]) * divisor as i32)
}

#[test]
fn a_moved_block_answers_the_moved_point() {
    let v = [2, 1, 1, 1];
    let net = Net::of(Multiplicities::new(v).unwrap());
    for divisor in [1, 7, 4096] {
        let at_zero = Block::random(sizes_for(v), &mut Random::new(10));
        let inside = [3, 1, 2].map(|k| k * divisor as i32 + divisor as i32 / 3);
        for origin in ORIGINS {
            let block = at_zero.clone().moved_to(origin);
            for point in [vec![inside, [0; 3], [-1; 3]], far_points(block.sizes, divisor)].concat() {
                let there = moved(point, origin, divisor);
                let answer = ask(&block, v, there, divisor);
                assert_eq!(answer, ask(&at_zero, v, point, divisor), "{origin:?} {point:?}");
                assert_eq!(answer, lent::answer(&call(&block, v, there, divisor), &net.numbers));
                assert_eq!(answer, answer_without_tables(&call(&block, v, there, divisor)));
            }
        }
    }
}

#[test]
fn both_ends_of_an_axis_are_inside_wherever_it_begins() {
    let v = [2, 1, 1, 1];
    for origin in ORIGINS {
        let block = Block::constant(Sizes::new([4, 3, 3]).unwrap(), 1, 1).moved_to(origin);
        for (divisor, axis) in [(1, 0), (3, 1), (4096, 2), (4096, 0)] {
            let number = |coordinate: i32| {
                let mut point = moved([3, 2, 2].map(|k| k * divisor as i32), origin, divisor);
                point[axis] = coordinate;
                ask(&block, v, point, divisor).err().map(|refusal| refusal.number)
            };
            let start = i32::from(origin[axis]) * divisor as i32;
            let (first, last) = ([2, 1, 1][axis] * divisor as i32, [4, 3, 3][axis] * divisor as i32);
            assert_eq!([first, last].map(|c| number(start + c)), [None; 2]);
            assert_eq!([first - 1, last + 1, -1].map(|c| number(start + c)), [Some(12); 3]);
            assert_eq!([i32::MIN, i32::MAX].map(number), [Some(12); 2]);
        }
    }
}
