//! Stored calls over a lent net and a lent block.

use super::{Words, each_line, unknown};
use crate::Outcome;
use crate::calls::Point;
use crate::loan::Loan;
use crate::shelf::{LentNet, Shelf};
use evaluator::net::Multiplicities;

/// What the lines before a call have set up.
struct Scene {
    net: LentNet,
    corrections: Vec<i16>,
    uncertainties: Vec<u16>,
}

impl Scene {
    /// Hands on what the call is lent, and the words after it.
    fn call(&self, mut words: Words, shelf: &Shelf, run: &mut impl FnMut(Loan, Words) -> Outcome) -> Outcome {
        let unit = words.unit()?.into();
        let [net, c, u] = words.numbers()?;
        let (net, told) = (&self.net.slice(shelf, net), &self.net.to_string());
        let (corrections, uncertainties) = (&self.corrections[..c], &self.uncertainties[..u]);
        run(Loan { unit, net, told, corrections, uncertainties }, words)
    }
}

/// Hands on each point call of a file, whose lines begin with `kind`, and the words after it.
pub fn each_point_call<F>(name: &str, kind: &str, shelf: &Shelf, mut run: F) -> Outcome
where
    F: FnMut(&Point, Words) -> Outcome,
{
    each_call(name, kind, &[], shelf, |loan, mut words| {
        let (coordinates, divisor) = (words.numbers()?, words.number()?);
        run(&Point { loan, coordinates, divisor }, words)
    })
}

/// Hands on each call of a file whose line begins with `kind`: what it is lent, and the words after it. Lines of the
/// other kinds are left out.
pub fn each_call<F>(name: &str, kind: &str, others: &[&str], shelf: &Shelf, mut run: F) -> Outcome
where
    F: FnMut(Loan, Words) -> Outcome,
{
    let simple = LentNet::defined(Multiplicities::new([1; 4]).expect("the simple net"));
    let mut scene = Scene { net: simple, corrections: Vec::new(), uncertainties: Vec::new() };
    each_line(name, |word, mut words| {
        match word {
            "net" => scene.net = LentNet::defined(words.multiplicities()?),
            "set" => scene.net.changes.push((words.number()?, words.number()?)),
            "block" => (scene.corrections, scene.uncertainties) = (Vec::new(), Vec::new()),
            "c" => scene.corrections.extend(words.rest(|c| c.parse::<i16>().ok())?),
            "u" => scene.uncertainties.extend(words.rest(|u| u.parse::<u16>().ok())?),
            word if word == kind => scene.call(words, shelf, &mut run)?,
            word if others.contains(&word) => {}
            other => unknown(other)?,
        }
        Ok(())
    })
}
