//! The stored vectors: cases with what the library must answer, as lines of text.

mod builds;
mod damage;
mod faces;
mod factory;
mod gaps;
mod inspections;
mod live;
mod loads;
mod origins;
mod placings;
mod points;
mod refusals;
mod scene;
mod whole;

use crate::formats;
use crate::net::{Multiplicities, Net, nets};
use crate::unit::Sizes;
use scene::Scene;
use std::collections::{BTreeSet, HashMap};
use std::fs;
use std::path::Path;

/// What a unit is in the lines of a file.
const UNIT_WORDS: &str = "\
#                      UNIT is HAS-NET V1 V2 V3 V4 HAS-BLOCK N1 N2 N3 O1 O2 O3
";

/// A file of stored vectors.
struct Vectors {
    name: &'static str,
    text: String,
}

/// The nets that the cases need.
pub struct Shelf {
    nets: HashMap<Multiplicities, Net>,
}

impl Shelf {
    pub fn net(&self, v: Multiplicities) -> &Net {
        self.nets.get(&v).expect("the net is on the shelf")
    }
}

fn shape(v: [usize; 4]) -> Multiplicities {
    Multiplicities::new(v).expect("multiplicities within the limits")
}

/// The sizes of a block that is just a window.
fn window(v: Multiplicities) -> Sizes {
    Sizes::new(v.extents()).expect("at most 10 on an axis")
}

/// The digests of all nets, and the nets that are needed again.
fn all_nets(wanted: &BTreeSet<Multiplicities>) -> (String, Shelf) {
    let mut digests = formats::DIGEST_HEADER.to_string();
    let mut shelf = Shelf { nets: HashMap::new() };
    for degree in 1..=9 {
        for net in nets(&Multiplicities::of_degree(degree)) {
            digests.push_str(&formats::digest(&net));
            if wanted.contains(&net.multiplicities) {
                shelf.nets.insert(net.multiplicities, net);
            }
        }
    }
    (digests, shelf)
}

fn make() -> Vec<Vectors> {
    let of_points = [points::shapes(), faces::shapes(), refusals::shapes(), damage::shapes(), gaps::shapes()].concat();
    let of_nets = [inspections::shapes(), whole::shapes(), factory::shapes()].concat();
    let wanted = [of_points, origins::shapes(), live::shapes(), placings::shapes(), of_nets].concat();
    let (digests, shelf) = all_nets(&wanted.into_iter().collect());
    let scenes = [points::scenes(), faces::scenes(), refusals::scenes(&shelf), damage::scenes(&shelf), gaps::scenes()];
    let moved = [vec![origins::scene()], refusals::moved::scenes(&shelf)];
    let scenes: Vec<Scene> = scenes.into_iter().chain(moved).flatten().collect();
    vec![
        Vectors { name: "nets.txt", text: digests },
        Vectors { name: "whole-nets.txt", text: whole::nets(&shelf) },
        Vectors { name: "shares.txt", text: whole::shares() },
        Vectors { name: "builds.txt", text: builds::text() },
        Vectors { name: "factory.txt", text: factory::text(&shelf) },
        Vectors { name: "inspections.txt", text: inspections::text(&shelf) },
        Vectors { name: "loads.txt", text: loads::text() },
        Vectors { name: "points.txt", text: points::text(&scenes, &shelf) },
        Vectors { name: "live.txt", text: live::text(&live::scenes(&shelf), &shelf) },
        Vectors { name: "placings.txt", text: placings::text(&placings::scenes(&shelf), &shelf) },
    ]
}

pub fn write(directory: &Path) -> Result<(), String> {
    fs::create_dir_all(directory).map_err(|e| e.to_string())?;
    for vectors in make() {
        fs::write(directory.join(vectors.name), vectors.text).map_err(|e| e.to_string())?;
    }
    Ok(())
}

/// The names of the files that are not what `write` would write.
pub fn stale(directory: &Path) -> Vec<&'static str> {
    let current = |v: &Vectors| fs::read(directory.join(v.name)).is_ok_and(|stored| stored == v.text.as_bytes());
    make().into_iter().filter(|v| !current(v)).map(|v| v.name).collect()
}

#[cfg(test)]
mod tests {
    use super::*;
    use crate::point::{self, largest_divisor};

    fn has_refusal(text: &str, number: u8) -> bool {
        text.lines().any(|line| line.contains(&format!(" refused {number} ")) && !line.starts_with('#'))
    }

    #[test]
    fn each_refusal_has_a_case() {
        let shapes = [refusals::shapes(), factory::shapes(), placings::shapes()].concat();
        let shapes: BTreeSet<Multiplicities> = shapes.into_iter().collect();
        let shelf = Shelf { nets: shapes.into_iter().map(|v| (v, Net::of(v))).collect() };
        let points = points::text(&refusals::scenes(&shelf), &shelf);
        let live = live::text(&refusals::live_scenes(&shelf), &shelf);
        let placings = placings::text(&placings::scenes(&shelf), &shelf);
        let cases: [(String, &[u8]); 6] = [
            (builds::text(), &[1, 2, 4]),
            (factory::text(&shelf), &[4]),
            (loads::text(), &[5, 6, 7, 8, 16, 9]),
            (points, &[21, 22, 4, 9, 10, 11, 12, 13, 23]),
            (live, &[21, 22, 4, 9, 10, 11, 15, 12, 13, 23]),
            (placings, &[21, 22, 10, 11, 12, 17, 15, 4, 9, 13, 23]),
        ];
        for (text, numbers) in cases {
            assert!(numbers.iter().all(|&number| has_refusal(&text, number)));
        }
    }

    #[test]
    fn points_are_asked_over_nets_of_each_degree() {
        let shapes: BTreeSet<Multiplicities> = points::shapes().into_iter().collect();
        let degrees: BTreeSet<usize> = shapes.iter().map(Multiplicities::degree).collect();
        assert!(shapes.len() >= 40);
        assert!(degrees.into_iter().eq(1..=9));
    }

    #[test]
    fn far_faces_are_answered_at_each_degree_and_kind_of_divisor() {
        let mut kinds = BTreeSet::new();
        for scene in points::scenes().into_iter().chain(faces::scenes()) {
            let largest = largest_divisor(scene.net.degree());
            for case in scene.cases.iter().filter(|case| point::answer(&scene.call(case)).is_ok()) {
                let far = scene.moved_far(case.coordinates, faces::WAYS[6], case.divisor);
                let axes: Vec<usize> = (0..3).filter(|&b| case.coordinates[b] == far[b]).collect();
                let kind = if case.divisor == largest { Some(0) } else { (case.divisor <= 4).then_some(1) };
                kinds.extend(kind.map(|kind| (scene.net.degree(), axes, kind)));
            }
        }
        let asked = |degree, axes: &[usize], kind| kinds.contains(&(degree, axes.to_vec(), kind));
        assert!((1..=9).all(|degree| faces::WAYS.iter().all(|axes| asked(degree, axes, 0) && asked(degree, axes, 1))));
    }
}
