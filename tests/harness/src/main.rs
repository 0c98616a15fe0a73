//! Runs the archive of the C interface on the stored vectors, on all placings of small units and on random calls,
//! and compares every answer and every lent slice with the evaluator's numbers. With `--trace` it prints each case
//! before the call, of a small unit's placings only the unit.

mod answers;
mod calls;
mod exhaustive;
mod factory;
mod guard;
mod live;
mod loan;
mod placings;
mod random;
mod report;
mod shelf;
mod stored;
mod threads;
#[path = "../../../include/torskavel.rs"]
mod torskavel;
mod two_calls;

use answers::Handed;
use evaluator::calls::factory_shape;
use evaluator::net::Net;
use evaluator::unit::Unit;
use random::points::{self, Asked, Spread};
use random::{builds, inspections, loads};
use report::{ANSWER, BUILD, FACTORY, INSPECT, Kind, LIVE, LIVE_VALUE, LOAD, PLACE, Report, Tally, VALUE};
use shelf::Shelf;
use std::process::ExitCode;
use std::sync::atomic::Ordering;

type Outcome<T = ()> = Result<T, String>;

fn empty_unit() -> Outcome {
    let (unit, expected) = (torskavel::empty_unit(), Handed::from(Unit::EMPTY).record());
    if unit == expected { Ok(()) } else { Err(format!("empty_unit answered {unit:?}")) }
}

fn stored_vectors(report: &mut Report) -> Outcome<Shelf> {
    let shelf = report.group(BUILD, "vectors/nets.txt", stored::nets::digests)?;
    report.group(BUILD, "vectors/whole-nets.txt", stored::nets::whole)?;
    report.group(BUILD, "vectors/builds.txt", |tally| stored::builds::run(&shelf, tally))?;
    report.group(FACTORY, "vectors/factory.txt", |tally| stored::factory::run(&shelf, tally))?;
    report.group(INSPECT, "vectors/inspections.txt", |tally| stored::inspections::run(&shelf, tally))?;
    report.group(LOAD, "vectors/loads.txt", stored::loads::run)?;
    report.group(ANSWER, "vectors/points.txt", |tally| stored::points::run(&shelf, tally))?;
    report.group(LIVE, "vectors/live.txt", |tally| stored::live::run(&shelf, tally))?;
    report.group(LIVE, "vectors/points.txt, asked live", |tally| stored::live::points(&shelf, tally))?;
    Ok(shelf)
}

/// What is asked of points and placings by the placing call and by each valuing call.
const IN_TWO_CALLS: [(Kind, Asked, two_calls::Asked); 3] = [
    (PLACE, Asked::Exact, two_calls::place),
    (VALUE, Asked::Exact, two_calls::value),
    (LIVE_VALUE, Asked::Live, two_calls::live_value),
];

fn stored_placings(shelf: &Shelf, report: &mut Report) -> Outcome {
    use stored::placings::{live_points, live_value, place, points, value};
    report.group(PLACE, "vectors/placings.txt, place", place)?;
    report.group(VALUE, "vectors/placings.txt, value", |tally| value(shelf, tally))?;
    report.group(LIVE_VALUE, "vectors/placings.txt, live value", |tally| live_value(shelf, tally))?;
    for (kind, _, asked) in IN_TWO_CALLS {
        let title = format!("vectors/points.txt, {} in two calls", kind.name);
        report.group(kind, &title, |tally| points(asked, shelf, tally))?;
    }
    report.group(LIVE_VALUE, "vectors/live.txt, live value in two calls", |tally| live_points(shelf, tally))
}

/// Small units throughout, then random calls from the seeds after `seed`.
fn placings(mut seed: u64, shelf: &Shelf, report: &mut Report) -> Outcome {
    report.group(PLACE, "every point of small units", |tally| exhaustive::place(shelf, tally))?;
    report.group(VALUE, "every placing of small numbers, value", |tally| exhaustive::value(shelf, tally))?;
    let title = "every placing of small numbers, live value";
    report.group(LIVE_VALUE, title, |tally| exhaustive::live_value(shelf, tally))?;
    let mut group = |kind: Kind, title: &str, run: &mut dyn FnMut(u64, &mut Tally) -> Outcome| {
        seed += 1;
        report.group(kind, &format!("random {title}, seed {seed}"), |tally| run(seed, tally))
    };
    for (kind, of, asked) in IN_TWO_CALLS {
        let title = format!("points, {} in two calls", kind.name);
        group(kind, &title, &mut |seed, tally| points::in_two_calls(of, asked, seed, 6000, shelf, tally))?;
    }
    let title = "placing calls beside blocks at the origin 0";
    group(PLACE, title, &mut |seed, tally| points::placed_moved(seed, 6000, shelf, tally))?;
    group(VALUE, "placings", &mut |seed, tally| points::valued(Asked::Exact, seed, 6000, shelf, tally))?;
    group(LIVE_VALUE, "live placings", &mut |seed, tally| points::valued(Asked::Live, seed, 6000, shelf, tally))
}

fn random_calls(shelf: &Shelf, report: &mut Report) -> Outcome {
    let mut group = |kind, title: &str, seed: u64, run: &mut dyn FnMut(u64, &mut Tally) -> Outcome| {
        report.group(kind, &format!("random {title}, seed {seed}"), |tally| run(seed, tally))
    };
    group(BUILD, "builds", 1, &mut |seed, tally| builds::run(seed, 3000, shelf, tally))?;
    group(INSPECT, "inspections", 2, &mut |seed, tally| inspections::run(seed, 3000, shelf, tally))?;
    group(INSPECT, "inspections of all nets", 3, &mut |seed, tally| inspections::all_nets(seed, shelf, tally))?;
    group(LOAD, "loads", 4, &mut |seed, tally| loads::run(seed, 15_000, tally))
}

/// Random points of one call, from the seeds after `seed`.
fn random_points(asked: Asked, seed: u64, shelf: &Shelf, report: &mut Report) -> Outcome {
    let (kind, call) = match asked {
        Asked::Exact => (ANSWER, "points"),
        Asked::Live => (LIVE, "live points"),
    };
    let mut group = |title: &str, more: u64, run: &mut dyn FnMut(u64, &mut Tally) -> Outcome| {
        let seed = seed + more;
        report.group(kind, &format!("random {call}{title}, seed {seed}"), |tally| run(seed, tally))
    };
    let mut spread = Spread::default();
    group("", 1, &mut |seed, tally| points::any(asked, seed, 30_000, shelf, &mut spread, tally))?;
    group(" over damaged nets", 2, &mut |seed, tally| points::damaged(asked, seed, 6000, shelf, tally))?;
    group(" by recurrence", 3, &mut |seed, tally| points::by_recurrence(asked, seed, 1500, shelf, tally))?;
    group(" at the same time", 4, &mut |seed, tally| threads::run(asked, seed, shelf, tally))?;
    group(" over gaps", 5, &mut |seed, tally| points::over_gaps(asked, seed, 1000, shelf, tally))?;
    group(" beside blocks at the origin 0", 6, &mut |seed, tally| points::moved(asked, seed, 6000, shelf, tally))?;
    spread.finish()
}

/// Random factory calls, and what is asked of the nets that they copy, from the seeds after `seed`.
fn factory_calls(seed: u64, shelf: &Shelf, report: &mut Report) -> Outcome {
    let net = Net::of(factory_shape());
    let mut group = |kind, title: &str, more: u64, run: &mut dyn FnMut(u64, &mut Tally) -> Outcome| {
        let seed = seed + more;
        report.group(kind, &format!("{title}, seed {seed}"), |tally| run(seed, tally))
    };
    let title = "random factory calls";
    group(FACTORY, title, 1, &mut |seed, tally| random::factory::run(seed, 3000, &net, shelf, tally))?;
    let title = "random factory calls beside builds";
    group(FACTORY, title, 2, &mut |seed, tally| random::factory::beside_builds(seed, 1000, shelf, tally))?;
    let title = "a copied net, each number changed in turn";
    group(INSPECT, title, 3, &mut |seed, tally| random::factory::inspected(seed, shelf, tally))?;
    let title = "vectors/points.txt, over copied nets";
    group(ANSWER, title, 4, &mut |seed, tally| stored::copied::points(seed, shelf, tally))?;
    let title = "vectors/live.txt, over copied nets";
    group(LIVE, title, 5, &mut |seed, tally| stored::copied::live(seed, shelf, tally))?;
    let title = "random points over copied nets";
    group(ANSWER, title, 6, &mut |seed, tally| points::over_copied(Asked::Exact, seed, 1500, shelf, tally))?;
    let title = "random live points over copied nets";
    group(LIVE, title, 7, &mut |seed, tally| points::over_copied(Asked::Live, seed, 1500, shelf, tally))
}

fn run() -> Outcome {
    let arguments: Vec<String> = std::env::args().skip(1).collect();
    match arguments.iter().map(String::as_str).collect::<Vec<_>>()[..] {
        [] => {}
        ["--trace"] => calls::TRACE.store(true, Ordering::Relaxed),
        _ => return Err("usage: harness [--trace]".to_string()),
    }
    let mut report = Report::default();
    empty_unit()?;
    let shelf = stored_vectors(&mut report)?;
    random_calls(&shelf, &mut report)?;
    random_points(Asked::Exact, 4, &shelf, &mut report)?;
    random_points(Asked::Live, 10, &shelf, &mut report)?;
    factory_calls(16, &shelf, &mut report)?;
    stored_placings(&shelf, &mut report)?;
    placings(23, &shelf, &mut report)?;
    report.finish()
}

fn main() -> ExitCode {
    match run() {
        Ok(()) => ExitCode::SUCCESS,
        Err(failure) => {
            println!();
            eprintln!("FAILED {failure}");
            ExitCode::FAILURE
        }
    }
}
