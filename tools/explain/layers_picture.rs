//! The window on the table, layer by layer: corrections, gaps, the cell, and how much each entry counts.

use crate::decimal::{DECIMALS, decimal};
use crate::library::{Block, Net};
use crate::parts::words;
use crate::placing::{Placing, Window};
use crate::sums::{Counted, Sums};
use crate::svg::{Anchor, Drawing, Spot};

const BOX: Spot = (58.0, 40.0);
/// The room around a layer: at its left, above, at its right, below.
const ROOM: [f64; 4] = [34.0, 44.0, 22.0, 30.0];
/// The widest and highest that a picture gets, unless a layer alone is more.
const PAGE: Spot = (820.0, 900.0);
/// A table of at most so many entries on an axis is shown whole, of a larger one what is next to the window.
const WHOLE: usize = 8;
const BESIDE: usize = 1;

/// What is shown of a table, and where on the table the point reads it.
struct Layers<'a> {
    block: &'a Block,
    window: Window,
    counted: &'a [Counted],
    denominator: i128,
    /// First and last entry shown on the axes 1 and 2.
    shown: [(usize, usize); 2],
    reading: [f64; 3],
}

fn shown(size: usize, low: usize, high: usize) -> (usize, usize) {
    if size <= WHOLE { (0, size - 1) } else { (low.saturating_sub(BESIDE), (high + BESIDE).min(size - 1)) }
}

impl Layers<'_> {
    fn size(&self) -> Spot {
        let count = self.shown.map(|(first, last)| (last - first + 1) as f64);
        (count[0] * BOX.0, count[1] * BOX.1)
    }

    /// The upper left corner of an entry's box; axis 2 goes upwards.
    fn corner(&self, (x, y): Spot, j1: f64, j2: f64) -> Spot {
        let [(first, _), (_, last)] = self.shown;
        (x + (j1 - first as f64) * BOX.0, y + (last as f64 - j2) * BOX.1)
    }

    fn entry(&self, drawing: &mut Drawing, at: Spot, entry: [usize; 3]) {
        let (x, y) = self.corner(at, entry[0] as f64, entry[1] as f64);
        let counted = self.counted.iter().find(|counted| counted.entry == entry);
        let most = self.counted.iter().map(|counted| counted.parts).max().unwrap_or(0);
        let gap = self.block.is_gap(entry);
        let parts = counted.map_or(0, |counted| counted.parts);
        if gap {
            drawing.rectangle("gap", (x, y), BOX, 1.0);
        } else if parts > 0 {
            drawing.rectangle("shade", (x, y), BOX, 0.08 + 0.87 * parts as f64 / most as f64);
        }
        drawing.rectangle("edge", (x, y), BOX, 1.0);
        let text = if gap { "gap".to_string() } else { self.block.correction(entry).to_string() };
        let middle = x + BOX.0 / 2.0;
        drawing.text(if gap { "strong" } else { "" }, Anchor::Middle, (middle, y + 18.0), &text);
        if parts > 0 {
            drawing.text("small", Anchor::Middle, (middle, y + 33.0), &percent(parts, self.denominator));
        }
    }

    /// The entries' numbers, below and at the left.
    fn numbers(&self, drawing: &mut Drawing, at: Spot) {
        let [(first1, last1), (first2, last2)] = self.shown;
        for j1 in first1..=last1 {
            let (x, _) = self.corner(at, j1 as f64, 0.0);
            let y = at.1 + self.size().1 + 14.0;
            drawing.text("small", Anchor::Middle, (x + BOX.0 / 2.0, y), &j1.to_string());
        }
        for j2 in first2..=last2 {
            let (_, y) = self.corner(at, 0.0, j2 as f64);
            drawing.text("small", Anchor::End, (at.0 - 6.0, y + 24.0), &j2.to_string());
        }
    }

    /// Two triangles at the edges, above and at the right, that point to where the table is read.
    fn marks(&self, drawing: &mut Drawing, at: Spot) {
        let (x, y) = self.corner(at, self.reading[0] + 0.5, self.reading[1] - 0.5);
        drawing.polygon("point", &[(x, at.1 - 1.0), (x - 5.0, at.1 - 11.0), (x + 5.0, at.1 - 11.0)]);
        let right = at.0 + self.size().0;
        drawing.polygon("point", &[(right + 1.0, y), (right + 11.0, y - 5.0), (right + 11.0, y + 5.0)]);
    }

    fn layer(&self, drawing: &mut Drawing, at: Spot, j3: usize) {
        let [(first1, last1), (first2, last2)] = self.shown;
        for j2 in first2..=last2 {
            for j1 in first1..=last1 {
                self.entry(drawing, at, [j1, j2, j3]);
            }
        }
        let Window { low, high } = self.window;
        let corner = self.corner(at, low[0] as f64, high[1] as f64);
        let count = [0, 1].map(|b| (high[b] - low[b] + 1) as f64);
        drawing.rectangle("blue", corner, (count[0] * BOX.0, count[1] * BOX.1), 1.0);
        if j3 == high[2] {
            let (x, y) = self.corner(at, high[0] as f64, high[1] as f64);
            drawing.rectangle("cell", (x + 3.0, y + 3.0), (BOX.0 - 6.0, BOX.1 - 6.0), 1.0);
        }
        if (self.reading[2] - j3 as f64).abs() < 1.0 {
            self.marks(drawing, at);
        }
        self.numbers(drawing, at);
        drawing.text("strong", Anchor::Start, (at.0, at.1 - 20.0), &format!("layer j3 = {j3}"));
    }

    /// The layers side by side, in as many pictures as their height asks for.
    fn drawn(&self) -> String {
        let [left, above, right, below] = ROOM;
        let (width, height) = (left + self.size().0 + right, above + self.size().1 + below);
        let layers: Vec<usize> = (self.window.low[2]..=self.window.high[2]).collect();
        let across = ((PAGE.0 / width) as usize).clamp(1, layers.len());
        let on_a_sheet = ((PAGE.1 / height) as usize).max(1) * across;
        let mut pictures = String::new();
        for (sheet, layers) in layers.chunks(on_a_sheet).enumerate() {
            let rows = layers.len().div_ceil(across);
            let mut drawing = Drawing::new(across as f64 * width, rows as f64 * height);
            for (i, &j3) in layers.iter().enumerate() {
                let at = ((i % across) as f64 * width + left, (i / across) as f64 * height + above);
                self.layer(&mut drawing, at, j3);
            }
            let name = "the window's layers with corrections and percentages";
            pictures += &drawing.finished(&format!("layers{}", sheet + 1), name);
        }
        pictures
    }
}

fn percent(parts: i128, denominator: i128) -> String {
    match decimal(100 * parts, denominator, 1).as_str() {
        "0.0" => "<0.1%".to_string(),
        percent => format!("{percent}%"),
    }
}

/// The picture, and what it shows.
pub fn drawn(net: &Net, block: &Block, placing: &Placing, window: Window, sums: &Sums) -> (String, String) {
    let divisor = 2 * i128::from(placing.point.divisor);
    let reading = [0, 1, 2].map(|b| placing.reading(net, b));
    let layers = Layers {
        block,
        window,
        counted: &sums.counted,
        denominator: sums.figure.denominator,
        shown: [0, 1].map(|b| shown(block.sizes[b], window.low[b], window.high[b])),
        reading: reading.map(|numerator| numerator as f64 / divisor as f64),
    };
    let [a, b, c] = reading.map(|numerator| decimal(numerator, divisor, DECIMALS));
    let counted = match block.origin {
        [0, 0, 0] => String::new(),
        origin => format!(" Entries are counted from the table's origin, {}.", words(&origin)),
    };
    let caption = format!(
        "The layers of the window, j1 to the right and j2 upwards, each entry with its correction. The \
         window has a blue frame; the stronger its colour, the more an entry counts at this point (in \
         percent), and without colour it does not. The entry of the cell {} has a frame of its own. The \
         triangles point to where the point reads the table, at {a} and {b}; they stand on the layers next \
         to {c}. A gap was never measured. The table has the sizes {}.{counted}",
        words(&placing.cell),
        words(&block.sizes)
    );
    (layers.drawn(), caption)
}
