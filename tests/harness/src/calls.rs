//! The calls of the archive, each with its slices between guard zones, held to an expected answer.

use crate::Outcome;
use crate::answers::{Answered, Changed, Handed, Loaded, point_answer};
use crate::guard::Lent;
use crate::loan::{Loan, Slices};
use crate::torskavel::{self, PointAnswer};
use evaluator::formats::join;
use evaluator::point::Call;
use evaluator::sha256::hex_digest;
use std::fmt::{self, Debug};
use std::sync::atomic::{AtomicBool, Ordering};

/// Whether each case is printed before its call: the last one printed is the one that stopped the program.
pub static TRACE: AtomicBool = AtomicBool::new(false);

/// Makes a case's call. A failure begins with the case.
pub fn run<T>(case: &impl fmt::Display, call: impl FnOnce() -> Outcome<T>) -> Outcome<T> {
    if TRACE.load(Ordering::Relaxed) {
        println!("{case}");
    }
    call().map_err(|failure| format!("{case}: {failure}"))
}

pub fn expect<T: PartialEq + Debug>(expected: T, answer: T) -> Outcome {
    if answer == expected { Ok(()) } else { Err(format!("expected {expected:?}, answered {answer:?}")) }
}

/// Numbers for a reader: all of a few, else the first of them, and the count and the digest of the others as text.
pub fn brief<T: ToString>(numbers: &[T]) -> String {
    const SHOWN: usize = 64;
    let words: Vec<String> = numbers.iter().map(T::to_string).collect();
    let (shown, rest) = words.split_at(words.len().min(SHOWN));
    match rest.len() {
        0 => format!("{{{}}}", shown.join(" ")),
        more => format!("{{{} and {more} of digest {}}}", shown.join(" "), hex_digest(rest.join(" ").as_bytes())),
    }
}

pub struct Build<'a> {
    pub unit: Handed,
    pub order: &'a [u8],
    /// Of net and work.
    pub lengths: [usize; 2],
}

impl fmt::Display for Build<'_> {
    fn fmt(&self, f: &mut fmt::Formatter) -> fmt::Result {
        write!(f, "build unit {} order {} lengths {}", self.unit, brief(self.order), join(self.lengths))
    }
}

impl Build<'_> {
    /// Makes the call. `net` is what a build that is not refused must write.
    pub fn check(&self, expected: &Changed, net: &[u32]) -> Outcome {
        run(self, || self.call(expected, |lent| lent.holds(net)))
    }

    /// Makes the call, and hands on what it wrote to as many places of the net slice.
    pub fn written(&self, expected: &Changed, places: usize) -> Outcome<Vec<u32>> {
        let mut written = Vec::new();
        let read = |lent: &Lent<u32>| {
            written = lent.slice()[..places].to_vec();
            lent.holds(&written)
        };
        run(self, || self.call(expected, read))?;
        Ok(written)
    }

    fn call(&self, expected: &Changed, check_net: impl FnOnce(&Lent<u32>) -> Outcome) -> Outcome {
        let order = Lent::of("order", self.order);
        let mut net = Lent::junk("net", self.lengths[0]);
        let mut work = Lent::junk("work", self.lengths[1]);
        let answer = torskavel::build(self.unit.record(), order.slice(), net.slice_mut(), work.slice_mut());
        expect(self.unit.net_answer(expected), answer)?;
        order.kept()?;
        if expected.is_err() {
            net.kept()?;
            return work.kept();
        }
        work.zones_kept()?;
        check_net(&net)
    }
}

pub struct Inspection<'a> {
    pub unit: Handed,
    pub v: [u8; 4],
    /// The net slice, and what it is for a reader.
    pub net: &'a [u32],
    pub told: String,
    /// Of defined and work.
    pub lengths: [usize; 2],
}

impl fmt::Display for Inspection<'_> {
    fn fmt(&self, f: &mut fmt::Formatter) -> fmt::Result {
        let lengths = format!("{} {}", self.net.len(), join(self.lengths));
        write!(f, "inspect unit {} v {} lengths {lengths} lent {}", self.unit, join(self.v), self.told)
    }
}

impl Inspection<'_> {
    pub fn check(&self, expected: &Changed) -> Outcome {
        run(self, || self.call(expected))
    }

    fn call(&self, expected: &Changed) -> Outcome {
        let net = Lent::of("net", self.net);
        let mut defined = Lent::junk("defined", self.lengths[0]);
        let mut work = Lent::junk("work", self.lengths[1]);
        let unit = self.unit.record();
        let answer = torskavel::inspect(unit, self.v, net.slice(), defined.slice_mut(), work.slice_mut());
        expect(self.unit.net_answer(expected), answer)?;
        net.kept()?;
        defined.zones_kept()?;
        work.zones_kept()
    }
}

pub struct Load<'a> {
    pub unit: Handed,
    pub file: &'a [u8],
    /// Of corrections and uncertainties.
    pub lengths: [usize; 2],
}

impl fmt::Display for Load<'_> {
    fn fmt(&self, f: &mut fmt::Formatter) -> fmt::Result {
        write!(f, "load unit {} file {} lengths {}", self.unit, brief(self.file), join(self.lengths))
    }
}

impl Load<'_> {
    pub fn check(&self, expected: &Loaded) -> Outcome {
        run(self, || self.call(expected))
    }

    fn call(&self, expected: &Loaded) -> Outcome {
        let file = Lent::of("file", self.file);
        let mut corrections = Lent::junk("corrections", self.lengths[0]);
        let mut uncertainties = Lent::junk("uncertainties", self.lengths[1]);
        let unit = self.unit.record();
        let answer = torskavel::load(unit, file.slice(), corrections.slice_mut(), uncertainties.slice_mut());
        let changed = expected.as_ref().map(|(unit, _)| *unit).map_err(|refusal| *refusal);
        expect(self.unit.block_answer(&changed), answer)?;
        file.kept()?;
        let (c, u) =
            expected.as_ref().map_or((&[][..], &[][..]), |(_, block)| (&block.corrections, &block.uncertainties));
        corrections.holds(c)?;
        uncertainties.holds(u)
    }
}

pub struct Point<'a> {
    pub loan: Loan<'a>,
    pub coordinates: [i32; 3],
    pub divisor: u32,
}

impl fmt::Display for Point<'_> {
    fn fmt(&self, f: &mut fmt::Formatter) -> fmt::Result {
        let Point { loan, coordinates, divisor } = self;
        write!(f, "answer unit {} point {} over {divisor}, {loan}", loan.unit, join(coordinates))
    }
}

impl Point<'_> {
    pub fn check(&self, expected: &Answered) -> Outcome {
        run(self, || self.call(expected))
    }

    /// What the evaluator is handed, the net apart.
    pub fn evaluated(&self) -> Call<'_> {
        let Point { loan: Loan { unit, net, corrections, uncertainties, .. }, coordinates, divisor } = *self;
        Call { unit: unit.unit, net_length: net.len(), corrections, uncertainties, coordinates, divisor }
    }

    fn call(&self, expected: &Answered) -> Outcome {
        let slices = Slices::of(&self.loan);
        expect(point_answer(expected), self.answer(&slices))?;
        slices.kept()
    }

    /// The exact call over these slices.
    pub fn answer(&self, slices: &Slices) -> PointAnswer {
        let (net, c, u) = slices.all();
        torskavel::answer(self.loan.unit.record(), net, c, u, self.coordinates, self.divisor)
    }
}
