//! Inspections of defined and of damaged nets.

use super::scene::slice;
use super::{Shelf, UNIT_WORDS, shape};
use crate::calls::inspect;
use crate::formats::join;
use crate::net::Multiplicities;
use crate::unit::{Sizes, Unit};

const HEADER: &str = "\
# Inspections. Each line is a word and numbers.
# net V1 V2 V3 V4      from here on, the lent net is the defined one of these multiplicities
# set INDEX NUMBER     but for this number at this index
# inspect UNIT A1 A2 A3 A4 NET WORK1 WORK2 unit UNIT
# inspect UNIT A1 A2 A3 A4 NET WORK1 WORK2 refused NUMBER PLACE
#                      an inspection for multiplicities A1 to A4 and the unit afterwards; NET, WORK1, WORK2 are the
#                      slices' lengths; a net slice longer than the lent net holds 4294967295 past it
";

pub fn shapes() -> Vec<Multiplicities> {
    let all = [
        [1, 1, 1, 1],
        [2, 1, 1, 1],
        [1, 1, 2, 1],
        [1, 1, 1, 2],
        [2, 2, 2, 1],
        [1, 3, 1, 2],
        [2, 2, 2, 2],
        [4, 1, 2, 2],
        [9, 1, 1, 1],
        [3, 3, 3, 3],
    ];
    all.map(shape).to_vec()
}

/// An inspection apart from the lent numbers.
#[derive(Clone, Copy)]
struct Case {
    unit: Unit,
    asked: [u8; 4],
    /// The lengths of net and work slices.
    lengths: [usize; 3],
}

struct Scene {
    net: Multiplicities,
    changes: Vec<(usize, u32)>,
    cases: Vec<Case>,
}

impl Scene {
    fn text(&self, shelf: &Shelf) -> String {
        let mut numbers = shelf.net(self.net).numbers.clone();
        let mut text = format!("net {}\n", join(self.net.counts()));
        for &(index, number) in &self.changes {
            numbers[index] = number;
            text.push_str(&format!("set {index} {number}\n"));
        }
        for Case { unit, asked, lengths: [net, work1, work2] } in &self.cases {
            let defined = |v| shelf.net(v);
            let result = match inspect(unit, *asked, &slice(&numbers, *net), [*work1, *work2], defined) {
                Ok(unit) => format!("unit {unit}"),
                Err(refusal) => refusal.to_string(),
            };
            text.push_str(&format!("inspect {unit} {} {net} {work1} {work2} {result}\n", join(asked)));
        }
        text
    }
}

/// An inspection for the net's own multiplicities with slices as long as it needs.
fn fitting(v: Multiplicities) -> Case {
    Case { unit: Unit::EMPTY, asked: v.counts().map(|v| v as u8), lengths: [v.places(); 3] }
}

/// Units whose net and block are replaced or kept, also such as break the limits.
fn units() -> [Unit; 4] {
    let sizes = Sizes::new([3, 4, 5]).expect("within the limits");
    let full = Unit::EMPTY.with_net(shape([2, 1, 3, 1])).with_block(sizes, [-7, 0, 300]);
    let o = [-32768, 32767, -1];
    let broken = Unit { has_net: true, v: [0, 255, 9, 9], has_block: true, n: [0, 65535, 65], o };
    [Unit::EMPTY, full, Unit { has_net: false, ..full }, broken]
}

fn sound(v: Multiplicities) -> Scene {
    let fitting = fitting(v);
    let mut cases = units().map(|unit| Case { unit, ..fitting }).to_vec();
    cases.push(Case { lengths: fitting.lengths.map(|length| length + 2), ..fitting });
    for short in 0..3 {
        let mut lengths = fitting.lengths;
        lengths[short] -= 1;
        cases.push(Case { lengths, ..fitting });
    }
    Scene { net: v, changes: Vec::new(), cases }
}

/// Changed at the first, a middle and the last place of the box, up and down, and at two places at once.
fn damaged(v: Multiplicities, shelf: &Shelf) -> Vec<Scene> {
    let number = |index: usize| shelf.net(v).numbers[index];
    let (first, last) = (0, v.places() - 1);
    let middle = v.index(v.widths().map(|w| w / 2));
    let (greatest, _) = shelf.net(v).numbers.iter().enumerate().max_by_key(|entry| entry.1).expect("a box has places");
    let changes = [
        vec![(first, 1)],
        vec![(middle, number(middle) + 1)],
        vec![(greatest, number(greatest) - 1)],
        vec![(greatest, 0)],
        vec![(last, u32::MAX)],
        vec![(last, 1), (middle, number(middle) + 7)],
    ];
    let (fitting, unit) = (fitting(v), units()[1]);
    let short = Case { lengths: [v.places(), 0, v.places()], ..fitting };
    let scene = |changes| Scene { net: v, changes, cases: vec![fitting, Case { unit, ..fitting }, short] };
    changes.into_iter().map(scene).collect()
}

/// Multiplicities that are none, with slices that are long enough, too short and empty.
fn refused_by_3() -> Scene {
    let v = shape([1; 4]);
    let wrong =
        [[0, 1, 1, 1], [1, 0, 1, 1], [1, 1, 0, 1], [1, 1, 1, 0], [3, 3, 3, 4], [10, 1, 1, 1], [64; 4], [255; 4]];
    let lengths = [[v.places(); 3], [26; 3], [0; 3]];
    let cases = wrong.into_iter().flat_map(|asked| lengths.map(|lengths| Case { asked, lengths, ..fitting(v) }));
    Scene { net: v, changes: Vec::new(), cases: cases.collect() }
}

/// The net of one shape inspected for another, of a box with as many, fewer or more places.
fn for_another(net: [usize; 4], asked: [u8; 4]) -> Scene {
    let net = shape(net);
    let needed = shape(asked.map(usize::from)).places();
    let case = |length| Case { asked, lengths: [length, needed, needed], ..fitting(net) };
    Scene { net, changes: Vec::new(), cases: vec![case(net.places()), case(needed)] }
}

pub fn text(shelf: &Shelf) -> String {
    let mut scenes = Vec::new();
    for v in shapes() {
        scenes.push(sound(v));
        scenes.extend(damaged(v, shelf));
    }
    scenes.push(refused_by_3());
    scenes.push(for_another([2, 1, 1, 1], [1, 1, 2, 1]));
    scenes.push(for_another([2, 1, 1, 1], [1, 1, 1, 1]));
    scenes.push(for_another([1, 1, 1, 1], [2, 1, 1, 1]));
    let texts = scenes.iter().map(|scene| scene.text(shelf));
    std::iter::once(format!("{HEADER}{UNIT_WORDS}")).chain(texts).collect()
}
