//! Where the sound points were.

use super::case::Case;
use crate::Outcome;
use std::collections::BTreeMap;
use std::fmt::Display;

/// How many points were in each tetrahedron, on faces between tetrahedra, at vertices, and on far faces, their edges
/// and their corner; how many over nets of each degree; and on how many axes a block began before 0, there or after it.
#[derive(Default)]
pub struct Spread {
    parts: BTreeMap<String, usize>,
    degrees: BTreeMap<usize, usize>,
    origins: BTreeMap<&'static str, usize>,
}

/// Six tetrahedra, the faces between them, vertices, and far faces, edges and corners.
const PARTS: usize = 11;
const DEGREES: usize = 9;
/// 0, before and after it, and the two ends.
const ORIGINS: usize = 5;

fn origin(o: i16) -> &'static str {
    match o {
        i16::MIN => "-32768",
        ..0 => "below 0",
        0 => "0",
        i16::MAX => "32767",
        _ => "above 0",
    }
}

/// The axes by remainder, or that the point is in no tetrahedron's inside.
fn part(remainder: [u32; 3], divisor: u32) -> String {
    let far = remainder.into_iter().filter(|&u| u == divisor).count();
    if far > 0 {
        return ["far faces", "far edges", "far corners"][far - 1].to_string();
    }
    let mut axes = [0, 1, 2];
    axes.sort_by_key(|&b| std::cmp::Reverse(remainder[b]));
    let [p, r, s] = axes.map(|b| remainder[b]);
    match (p, r, s) {
        (0, 0, 0) => "vertices".to_string(),
        _ if p > r && r > s && s > 0 => format!("tetrahedron {}", axes.map(|b| (b + 1).to_string()).concat()),
        _ => "faces".to_string(),
    }
}

fn listed<T: Display>(counts: &BTreeMap<T, usize>) -> String {
    counts.iter().map(|(of, count)| format!("{of}: {count}")).collect::<Vec<_>>().join(", ")
}

impl Spread {
    pub fn count(&mut self, case: &Case) {
        *self.parts.entry(part(case.remainder, case.divisor)).or_default() += 1;
        *self.degrees.entry(case.net.of.degree()).or_default() += 1;
        for o in case.handed.unit.o {
            *self.origins.entry(origin(o)).or_default() += 1;
        }
    }

    /// Prints the counts, and fails where a part, a degree or a kind of origin has none.
    pub fn finish(&self) -> Outcome {
        let [parts, degrees, origins] = [listed(&self.parts), listed(&self.degrees), listed(&self.origins)];
        println!("answered by place: {parts}; by degree {degrees}; by origin of an axis {origins}");
        if [self.parts.len(), self.degrees.len(), self.origins.len()] == [PARTS, DEGREES, ORIGINS] {
            Ok(())
        } else {
            Err("a place, a degree or a kind of origin has no point".to_string())
        }
    }
}
