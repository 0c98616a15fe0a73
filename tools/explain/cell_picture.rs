//! The cell with its tetrahedron and the point in it.
//!
//! The axes p, r, s are drawn to the right, to the back and upwards, so every tetrahedron looks alike and its
//! four corners are on the outline of the cube. Labels stand outside the outline, where no line is.

use crate::parts::{bracketed, words};
use crate::placing::Placing;
use crate::svg::{Anchor, Drawing, Spot};

/// A place of the unit cube in steps along p, r, s.
type Steps = [f64; 3];

const ORIGIN: Steps = [0.0, 0.0, 0.0];
/// The tetrahedron's corners: from the cell's corner along p, then r, then s.
const CORNERS: [Steps; 4] = [ORIGIN, [1.0, 0.0, 0.0], [1.0, 1.0, 0.0], [1.0, 1.0, 1.0]];
const SIZE: Spot = (690.0, 420.0);

fn spot([p, r, s]: Steps) -> Spot {
    (150.0 + 260.0 * p + 120.0 * r, 340.0 - 70.0 * r - 220.0 * s)
}

fn moved((x, y): Spot, dx: f64, dy: f64) -> Spot {
    (x + dx, y + dy)
}

fn cube(drawing: &mut Drawing) {
    for free in 0..3 {
        for corner in 0..4 {
            let [a, b] = [corner & 1, corner >> 1].map(f64::from);
            let mut from = [a; 3];
            from[(free + 2) % 3] = b;
            let mut to = from;
            (from[free], to[free]) = (0.0, 1.0);
            // the corner at the back, on the left and below is behind the cube
            let hidden = from == [0.0, 1.0, 0.0] || to == [0.0, 1.0, 0.0];
            drawing.line(if hidden { "edge dashed" } else { "edge" }, spot(from), spot(to));
        }
    }
}

fn tetrahedron(drawing: &mut Drawing) {
    drawing.polygon("body", &CORNERS.map(spot));
    for i in 0..4 {
        for j in i + 1..4 {
            // the diagonal of the floor is behind the two sides in front
            let class = if (i, j) == (0, 2) { "blue dashed" } else { "blue" };
            drawing.line(class, spot(CORNERS[i]), spot(CORNERS[j]));
        }
    }
}

/// The cell's far sides on p, r and s, by where they are drawn and by their corners.
const FAR_SIDES: [(&str, [Steps; 4]); 3] = [
    ("right", [[1.0, 0.0, 0.0], [1.0, 1.0, 0.0], [1.0, 1.0, 1.0], [1.0, 0.0, 1.0]]),
    ("back", [[0.0, 1.0, 0.0], [1.0, 1.0, 0.0], [1.0, 1.0, 1.0], [0.0, 1.0, 1.0]]),
    ("top", [[0.0, 0.0, 1.0], [1.0, 0.0, 1.0], [1.0, 1.0, 1.0], [0.0, 1.0, 1.0]]),
];

/// Shades the far faces that the point is on, and says which they are.
fn far_faces(drawing: &mut Drawing, placing: &Placing) -> String {
    let mut sides = Vec::new();
    for (axis, (side, corners)) in placing.axes.into_iter().zip(FAR_SIDES) {
        if placing.on_far_face(axis) {
            drawing.polygon("face", &corners.map(spot));
            sides.push(format!("axis {} ({side})", axis + 1));
        }
    }
    match sides.join(", ") {
        none if none.is_empty() => none,
        sides => format!(" A shaded side is a far face of the table, and the point is on it: {sides}."),
    }
}

/// The point's drop lines: down to the floor and from there to the edges along p and r, and to the one
/// along s.
fn drop_lines(drawing: &mut Drawing, [p, r, s]: Steps) {
    let lines = [
        ([p, r, s], [p, r, 0.0]),
        ([p, r, 0.0], [p, 0.0, 0.0]),
        ([p, r, 0.0], [1.0, r, 0.0]),
        ([p, r, s], [p, 0.0, s]),
        ([p, 0.0, s], [0.0, 0.0, s]),
    ];
    for (from, to) in lines {
        drawing.line("drop", spot(from), spot(to));
    }
    for end in [[p, 0.0, 0.0], [1.0, r, 0.0], [0.0, 0.0, s]] {
        drawing.circle("point", spot(end), 2.5);
    }
}

/// The remainders, beside the edge that each is measured on.
fn remainders(drawing: &mut Drawing, placing: &Placing, [p, r, s]: Steps) {
    let text = placing.axes.map(|axis| format!("axis {}: {}", axis + 1, placing.remainders[axis]));
    let (anchor, shift) = if p < 0.5 { (Anchor::Start, -4.0) } else { (Anchor::End, 4.0) };
    drawing.text("small", anchor, moved(spot([p, 0.0, 0.0]), shift, 17.0), &text[0]);
    drawing.text("small", Anchor::Start, moved(spot([1.0, r, 0.0]), 10.0, 20.0), &text[1]);
    drawing.text("small", Anchor::End, moved(spot([0.0, 0.0, s]), -9.0, 4.0), &text[2]);
}

/// The corner that is reached after so many steps along p, r, s.
fn corner(placing: &Placing, steps: usize) -> [usize; 3] {
    let mut corner = [0; 3];
    placing.axes[..steps].iter().for_each(|&axis| corner[axis] = 1);
    corner
}

fn corners(drawing: &mut Drawing, placing: &Placing) {
    let at = [(-8.0, 36.0), (8.0, 46.0), (13.0, -16.0), (13.0, -4.0)];
    for (i, (dx, dy)) in at.into_iter().enumerate() {
        let weight = placing.weights[i];
        drawing.circle(if weight == 0 { "idle" } else { "corner" }, spot(CORNERS[i]), 4.5);
        let anchor = || if i == 0 { Anchor::End } else { Anchor::Start };
        let label = moved(spot(CORNERS[i]), dx, dy);
        drawing.text("strong", anchor(), label, &format!("weight {weight}"));
        drawing.text(
            "",
            anchor(),
            moved(label, 0.0, 16.0),
            &format!("corner {}", bracketed(&corner(placing, i))),
        );
    }
}

/// The picture, and what it shows.
pub fn drawn(placing: &Placing) -> (String, String) {
    let steps =
        placing.axes.map(|axis| f64::from(placing.remainders[axis]) / f64::from(placing.point.divisor));
    let mut drawing = Drawing::new(SIZE.0, SIZE.1);
    let faces = far_faces(&mut drawing, placing);
    cube(&mut drawing);
    tetrahedron(&mut drawing);
    drop_lines(&mut drawing, steps);
    corners(&mut drawing, placing);
    remainders(&mut drawing, placing, steps);
    // last, since it may be at a corner
    drawing.circle("point", spot(steps), 6.0);
    let [p, r, s] = placing.axes.map(|axis| axis + 1);
    let caption = format!(
        "The cell {} with the tetrahedron of the axis order {p} {r} {s}: from the corner (0, 0, 0) along \
         axis {p} (to the right), axis {r} (to the back) and axis {s} (upwards). The dot is the point; its \
         dotted lines go to the remainders, which are parts of {}. A hollow corner has the weight 0.{faces}",
        words(&placing.cell),
        placing.point.divisor
    );
    let name = format!("tetrahedron with the weights {}", words(&placing.weights));
    (drawing.finished("cell", &name), caption)
}
