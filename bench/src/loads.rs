//! Loads of a field file.

use crate::hand::{self, Load, Refusal};
use crate::scene::ORIGIN;
use crate::table::Row;
use crate::timing::{Contestant, keep, shortest};
use crate::torskavel::{self, Unit};
use evaluator::field::Block;
use evaluator::random::Random;
use evaluator::unit::Sizes;
use std::cell::RefCell;
use std::hint::black_box;

/// On each axis.
const SIZE: usize = 16;
const ENTRIES: usize = SIZE * SIZE * SIZE;

const PAGE: usize = 4096;

/// The two slices that a load is lent.
struct Lent {
    corrections: Vec<i16>,
    uncertainties: Vec<u16>,
    starts: [usize; 2],
}

impl Lent {
    /// A read at the same place of a page as a write just made waits for it, and a load then takes twice as
    /// long. So the slices start a quarter of a page further on than the file, on every run.
    fn beside(file: &[u8]) -> Lent {
        let (corrections, uncertainties) = (vec![7; ENTRIES + PAGE / 2], vec![7; ENTRIES + PAGE / 2]);
        let file = file.as_ptr() as usize;
        let start = |slice: usize| (file + PAGE / 4 + PAGE - slice % PAGE) % PAGE / 2;
        let starts = [start(corrections.as_ptr() as usize), start(uncertainties.as_ptr() as usize)];
        Lent { corrections, uncertainties, starts }
    }

    fn slices(&mut self) -> (&mut [i16], &mut [u16]) {
        let Lent { corrections, uncertainties, starts } = self;
        (&mut corrections[starts[0]..][..ENTRIES], &mut uncertainties[starts[1]..][..ENTRIES])
    }
}

pub fn by_library(
    unit: Unit,
    file: &[u8],
    corrections: &mut [i16],
    uncertainties: &mut [u16],
) -> Result<Unit, Refusal> {
    hand::result(torskavel::load(unit, file, corrections, uncertainties))
}

pub fn measure() -> Row {
    let block = Block::random(Sizes::new([SIZE; 3]).expect("allowed sizes"), &mut Random::new(1));
    let file = block.moved_to(ORIGIN).file();
    let unit = torskavel::empty_unit();
    let loads: [Load; 3] = [by_library, hand::load, hand::load_tuned];

    let loaded = loads.map(|load| {
        let mut lent = Lent::beside(&file);
        let (corrections, uncertainties) = lent.slices();
        let answer = load(unit, &file, corrections, uncertainties);
        (answer.expect("a good file"), corrections.to_vec(), uncertainties.to_vec())
    });
    assert!(loaded[0] == loaded[1] && loaded[0] == loaded[2], "the loaded blocks differ");

    let lent = RefCell::new(Lent::beside(&file));
    let turn = |load: Load| {
        let mut lent = lent.borrow_mut();
        let (corrections, uncertainties) = lent.slices();
        keep(load(unit, black_box(&file), corrections, uncertainties));
    };
    let times = shortest(&mut loads.map(|load| -> Contestant { Box::new(move || turn(load)) }));
    Row::of(format!("load, {SIZE} {SIZE} {SIZE}"), &times)
}
