//! The walk as parts to be written.

use crate::decimal::{DECIMALS, rounded};
use crate::handed::Handed;
use crate::library::{Block, Figure, Net};
use crate::parts::{Part, bracketed, listed, words};
use crate::placing::Placing;
use crate::request::Question;
use crate::source::Source;
use crate::sums::{Counted, LocalPlace, Sums, factorial};
use crate::walk::{Outcome, Walk};
use crate::{cell_picture, layers_picture, live, placed, refusals, tables, valuing};

fn heading(parts: &mut Vec<Part>, text: &str) {
    parts.push(Part::Heading(text.to_string()));
}

fn line(parts: &mut Vec<Part>, text: String) {
    parts.push(Part::Line(text));
}

fn title(walk: &Walk) -> String {
    let asked = match walk.question {
        Question::Point { coordinates, divisor } => format!("point {} over {divisor}", words(&coordinates)),
        Question::Placing(Handed { cell, axes, weights }) => {
            format!("placing {} {} {}", words(&cell), words(&axes), words(&weights))
        }
        Question::Refusal { number, place } => format!("refusal {number}, place {place}"),
    };
    format!("{}, {}, {asked}", walk.file, walk.source.title())
}

/// What the walk comes to, to stand above it.
fn summary(walk: &Walk) -> Option<String> {
    match walk.outcome {
        Outcome::Told => None,
        Outcome::Agreed(Figure { numerator, uncertainty, denominator }) => {
            let [shift, spread] =
                [numerator, uncertainty].map(|number| rounded(number, 10 * denominator, DECIMALS + 1));
            Some(format!("shift {shift} micrometres, uncertainty {spread} micrometres"))
        }
        Outcome::Refused(_) => {
            let numbers: Vec<_> =
                refusals::of(walk).iter().map(|refusal| refusal.number.to_string()).collect();
            Some(format!("refused by {}", numbers.join(" and ")))
        }
        Outcome::Differs(_) => Some("the library's answer is not what the sums come to".to_string()),
    }
}

fn gaps(block: &Block, all: bool) -> String {
    let gaps: Vec<_> = block.gaps().iter().map(|entry| bracketed(entry)).collect();
    format!("never measured: {}", listed(&gaps, all))
}

fn file(walk: &Walk, all: bool, parts: &mut Vec<Part>) {
    heading(parts, "The file");
    match walk.file_length {
        Some(length) => line(parts, format!("{length} bytes")),
        None => line(
            parts,
            format!("more than {} bytes, the longest that a field file can have", crate::torskavel::MAX_FILE),
        ),
    }
    match (&walk.block, walk.head) {
        (Ok(block), _) => {
            let gaps_in_all = block.gaps().len();
            let entries = block.entries();
            line(
                parts,
                format!("sizes {}: {entries} entries, {gaps_in_all} never measured", words(&block.sizes)),
            );
            if block.origin != [0; 3] {
                line(parts, format!("origin {}: coordinates are read from there", words(&block.origin)));
            }
            line(parts, "corrections and uncertainties in tenths of a micrometre".to_string());
            if gaps_in_all > 0 {
                line(parts, gaps(block, all));
            }
        }
        (Err(_), Some(sizes)) => line(parts, format!("sizes {}", words(&sizes))),
        (Err(_), None) => {}
    }
}

/// Where the net comes from. The words of the factory's net are only said after a build has given the same.
fn source(walk: &Walk, parts: &mut Vec<Part>) {
    match walk.source {
        Source::Order { .. } => heading(parts, "The order"),
        Source::Factory => {
            heading(parts, "The factory shape");
            let said = match walk.as_built {
                true => "the net is copied ready-made, with the same numbers as the order 132 builds",
                false => "THE COPIED NET IS NOT THE ONE THAT THE ORDER 132 BUILDS",
            };
            line(parts, said.to_string());
        }
    }
}

fn shape(net: &Net, parts: &mut Vec<Part>) {
    let m = net.degree();
    line(parts, format!("multiplicities {}, degree {m}", words(&net.multiplicities)));
    line(
        parts,
        format!(
            "extents {}, box {}: {} net places",
            words(&net.extents()),
            words(&net.widths()),
            net.places()
        ),
    );
    line(parts, format!("the shares at a local place add up to {m}! = {}", factorial(m)));
}

fn window(walk: &Walk, net: &Net, block: &Block, all: bool, parts: &mut Vec<Part>) {
    let (Some(placing), Some(window), Some(sums)) = (&walk.placing, walk.window, &walk.sums) else { return };
    let (svg, caption) = cell_picture::drawn(placing);
    parts.push(Part::Picture { svg, caption });
    heading(parts, "The window");
    line(parts, format!("how much each entry counts, in parts of {}", sums.figure.denominator));
    let with_share = sums.counted.iter().filter(|counted| counted.has_share).count();
    if with_share < sums.counted.len() {
        let without = sums.counted.len() - with_share;
        let note = if all { "" } else { " and are listed only where never measured, or by --all" };
        line(parts, format!("{without} of the {} entries have no share here{note}", sums.counted.len()));
    }
    let (svg, caption) = layers_picture::drawn(net, block, placing, window, sums);
    parts.push(Part::Picture { svg, caption });
    let listed = |counted: &&Counted| all || counted.has_share || block.is_gap(counted.entry);
    let listed: Vec<_> = sums.counted.iter().filter(listed).collect();
    parts.push(Part::Table(tables::window(block, &listed, sums)));
}

fn sums(sums: &Sums, placing: &Placing, all: bool, parts: &mut Vec<Part>) {
    let listed: Vec<&LocalPlace> = sums.places.iter().filter(|place| all || place.weights != 0).collect();
    heading(parts, "The local places");
    line(parts, format!("{} of {} are listed", listed.len(), sums.places.len()));
    if listed.len() < sums.places.len() {
        line(
            parts,
            "the others add nothing: a weight of 0 makes their product 0 (--all lists them)".to_string(),
        );
    }
    parts.extend(listed.iter().map(|place| Part::Table(tables::local_place(place, placing))));
    heading(parts, "The sum");
    parts.push(Part::Table(tables::sum(listed.into_iter(), sums)));
}

fn in_units(name: &str, number: i128, denominator: i128) -> String {
    let tenths = rounded(number, denominator, DECIMALS);
    let micrometres = rounded(number, 10 * denominator, DECIMALS + 1);
    format!("{name} {number} / {denominator} = {tenths} tenths of a micrometre = {micrometres} micrometres")
}

fn answer(figure: Figure, net: &Net, placing: &Placing, parts: &mut Vec<Part>) {
    let Figure { numerator, uncertainty, denominator } = figure;
    let (m, divisor) = (net.degree(), placing.point.divisor);
    heading(parts, "The answer");
    line(parts, format!("N {numerator}, U {uncertainty}, denominator {m}! x {divisor}^{m} = {denominator}"));
    line(parts, in_units("shift", numerator, denominator));
    line(parts, in_units("uncertainty", uncertainty, denominator));
}

fn outcome(walk: &Walk, net: &Net, placing: Option<&Placing>, all: bool, parts: &mut Vec<Part>) {
    let (Outcome::Agreed(figure) | Outcome::Differs(figure)) = walk.outcome else { return };
    let (Some(found), Some(placing)) = (&walk.sums, placing) else { return };
    sums(found, placing, all, parts);
    answer(figure, net, placing, parts);
    if matches!(walk.outcome, Outcome::Agreed(_)) {
        line(parts, "the sums come to the library's N, U and denominator".to_string());
    } else {
        let Figure { numerator, uncertainty, denominator } = found.figure;
        line(parts, "THE SUMS DO NOT COME TO THIS ANSWER, which is the library's:".to_string());
        line(parts, format!("they come to N {numerator}, U {uncertainty}, denominator {denominator}"));
    }
}

pub fn parts(walk: &Walk, all: bool) -> Vec<Part> {
    let mut parts = vec![Part::Title(title(walk))];
    parts.extend(summary(walk).map(Part::Line));
    file(walk, all, &mut parts);
    if let Ok(net) = &walk.net {
        source(walk, &mut parts);
        shape(net, &mut parts);
    }
    if let (Ok(net), Ok(block)) = (&walk.net, &walk.block) {
        valuing::told(walk, &mut parts);
        placed::told(walk, net, block, &mut parts);
        window(walk, net, block, all, &mut parts);
        outcome(walk, net, walk.placing.as_ref(), all, &mut parts);
    }
    refusals::told(walk, all, &mut parts);
    live::told(walk, &mut parts);
    parts
}
