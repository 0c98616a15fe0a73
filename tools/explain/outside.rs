//! What is told of 12: what keeps a point outside.

use crate::point::Point;
use crate::walk::Walk;

/// What to do about a table in which no point is inside.
const LARGER: &str = "a table at least as large as the extents, or an order with fewer repeats";
const FURTHER: &str = "probe further in; the far face itself is inside";
/// Where there is an origin, or should be: a wrong one puts points outside on any side.
const ORIGIN: &str =
    "probe further in, or see whether the file has the origin that the controller counts from";

/// Whether no point is inside, since on some axis the table has fewer entries than the extent.
pub fn nowhere_inside(walk: &Walk) -> bool {
    matches!((&walk.net, &walk.block), (Ok(net), Ok(block))
        if net.extents().iter().zip(block.sizes).any(|(&extent, size)| size < extent))
}

/// What is said of such an axis.
pub fn too_small(axis: usize, extent: usize, size: usize) -> String {
    let never = "no point is inside with this net and this table, the far face neither";
    format!("axis {axis}: {size} entries are fewer than the extent {extent}: {never}")
}

pub fn to_do(walk: &Walk) -> &'static str {
    let is_before = walk.point.is_some_and(|point| point.is_before_on_some_axis());
    match &walk.block {
        _ if nowhere_inside(walk) => LARGER,
        Ok(block) if is_before || block.origin != [0; 3] => ORIGIN,
        _ => FURTHER,
    }
}

/// What keeps a point outside, axis by axis; without a point, what is inside.
pub fn told(walk: &Walk) -> Vec<String> {
    let (Ok(net), Ok(block)) = (&walk.net, &walk.block) else { return Vec::new() };
    let extents = net.extents();
    let on_axis = |b: usize| {
        let (extent, size, axis) = (extents[b], block.sizes[b], b + 1);
        if size < extent {
            return Some(too_small(axis, extent, size));
        }
        let first = extent - 1;
        let ends = format!("both included: cells {first} to {}, the last with the far face", size - 1);
        let Some(point) = &walk.point else {
            let [low, high] = [first, size].map(|entries| i64::from(block.origin[b]) + entries as i64);
            return Some(format!("axis {axis}: inside are the positions {low} to {high}, {ends}"));
        };
        let [low, high] = [first, size].map(|entries| point.coordinate(b, entries));
        let Point { coordinates, divisor, .. } = point;
        let wrong = match i64::from(coordinates[b]) {
            _ if point.is_before(b) => format!("before the origin, which is at {}", point.coordinate(b, 0)),
            x if x < low => "too low".to_string(),
            x if x > high => "past the far face".to_string(),
            _ => return None,
        };
        let wrong = format!("{} over {divisor} is {wrong}", coordinates[b]);
        Some(format!("axis {axis}: {wrong}; inside are {low} to {high}, {ends}"))
    };
    (0..3).filter_map(on_axis).collect()
}
