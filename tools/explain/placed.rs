//! What is told of a point: from its position to the weights, its window, and where it reads the table.

use crate::decimal::{DECIMALS, decimal};
use crate::library::{Block, Net};
use crate::parts::{Part, words};
use crate::placing::{Placing, plain_reading};
use crate::point::Point;
use crate::walk::Walk;

fn line(parts: &mut Vec<Part>, text: String) {
    parts.push(Part::Line(text));
}

/// Three fractions with one denominator.
fn decimals(numerators: [i128; 3], denominator: i128) -> String {
    words(&numerators.map(|numerator| decimal(numerator, denominator, DECIMALS)))
}

/// The position, and where the origin is not 0 the position that is read from it.
fn position(point: &Point, parts: &mut Vec<Part>) {
    let Point { coordinates, divisor, origin } = *point;
    let position = decimals(coordinates.map(i128::from), divisor.into());
    line(parts, format!("{} over {divisor}: position {position}", words(&coordinates)));
    if origin != [0; 3] {
        let at = words(&[0, 1, 2].map(|b| point.coordinate(b, 0)));
        let read = [0, 1, 2].map(|b| point.read(b));
        let position = decimals(read.map(i128::from), divisor.into());
        let from_there = format!("read from there the point is {}, position {position}", words(&read));
        line(parts, format!("the origin {} is at {at} over {divisor}: {from_there}", words(&origin)));
    }
}

/// From the cell to the weights, with the far faces that the point is on.
fn placed(block: &Block, placing: &Placing, faces: &[usize], parts: &mut Vec<Part>) {
    let Point { coordinates, divisor, origin } = placing.point;
    line(parts, format!("cell {}, remainders {}", words(&placing.cell), words(&placing.remainders)));
    for &b in faces {
        let end = match origin[b] {
            0 => block.sizes[b].to_string(),
            origin => format!("({origin} + {})", block.sizes[b]),
        };
        let face = format!("{} = {end} x {divisor} is the far face", coordinates[b]);
        let belongs = format!("belongs to the last cell, {}, with the remainder {divisor}", placing.cell[b]);
        line(parts, format!("axis {}: {face}, which {belongs}", b + 1));
    }
    let axes = words(&placing.axes.map(|b| b + 1));
    line(parts, format!("axis order {axes}, weights {}, together {divisor}", words(&placing.weights)));
    if !faces.is_empty() {
        let idle = "the corner (0, 0, 0) does not count";
        line(parts, format!("the first weight is 0, as on every far face: {idle}"));
    }
}

fn reading(net: &Net, block: &Block, placing: &Placing, parts: &mut Vec<Part>) {
    let divisor = i128::from(placing.point.divisor);
    let half = decimals(net.extents().map(|extent| extent as i128), 2);
    let reading = decimals([0, 1, 2].map(|b| placing.reading(net, b)), 2 * divisor);
    line(parts, format!("less half the extents, {half}, it reads the table at {reading}"));
    if let Some([correction, uncertainty]) = plain_reading(placing, net, block) {
        let whole = (2 * divisor).pow(3);
        let [c, u] = [correction, uncertainty].map(|number| decimal(number, whole, DECIMALS));
        let note = "(only a check of plausibility)";
        line(
            parts,
            format!("plain reading there, straight between the entries: {c}, uncertainty {u} {note}"),
        );
    }
}

/// Of a point before the origin its position alone, of one that is outside otherwise no window.
pub fn told(walk: &Walk, net: &Net, block: &Block, parts: &mut Vec<Part>) {
    let Some(point) = &walk.point else { return };
    parts.push(Part::Heading("The point".to_string()));
    position(point, parts);
    let Some(placing) = &walk.placing else { return };
    let faces: Vec<usize> = (0..3).filter(|&b| placing.on_far_face(b)).collect();
    placed(block, placing, &faces, parts);
    let Some(window) = walk.window else { return };
    let (low, high) = (words(&window.low), words(&window.high));
    line(parts, format!("window from {low} to {high}: {} entries", window.count()));
    if !faces.is_empty() {
        let next: Vec<_> = faces.iter().map(|&b| format!("{} on axis {}", block.sizes[b], b + 1)).collect();
        let further = format!("the next, {}, would count only further out", next.join(", "));
        line(parts, format!("no entry past the table is missing: {further}"));
    }
    reading(net, block, placing, parts);
}
