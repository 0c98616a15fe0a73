//! Live calls: each case with the uncertainty and without it.

mod limits;
mod zeros;

use super::scene::{Scene, header};
use super::{Shelf, damage, gaps, origins, points, refusals};
use crate::live;
use crate::net::Multiplicities;
use crate::unit::told;

const FORMS: &str = "\
# live UNIT NET C U X Y Z D FLAG both BITS BITS
# live UNIT NET C U X Y Z D FLAG shift BITS
# live UNIT NET C U X Y Z D FLAG refused NUMBER PLACE
";

pub const WORDS: &str = "\
#                      FLAG is a byte, 0 where the uncertainty is switched off; BITS are the 64 bits of N, and of U
#                      after it, as floats of IEEE 754, in 16 hexadecimal digits, the sign first
";

pub const OFF: u8 = 0;
/// By turns.
pub const ON: [u8; 4] = [1, 255, 2, 128];

pub fn shapes() -> Vec<Multiplicities> {
    let own = [limits::shapes(), zeros::shapes()].concat();
    [own, refusals::shapes(), damage::shapes(), gaps::shapes(), origins::shapes()].concat()
}

pub fn scenes(shelf: &Shelf) -> Vec<Scene> {
    let own = [points::figures(), limits::scenes(), zeros::scenes(shelf)];
    let shared = [refusals::live_scenes(shelf), damage::live_scenes(shelf), gaps::scenes()];
    let moved = [vec![origins::live_scene()], refusals::moved::live_scenes(shelf)];
    own.into_iter().chain(shared).chain(moved).flatten().collect()
}

/// The two lines of each case.
fn scene_text(scene: &Scene, shelf: &Shelf) -> String {
    scene.text(shelf, |number, case, exact| {
        let answered = |flag: u8| live::answer(&scene.call(case), exact, flag != OFF);
        let line = |flag: u8| format!("live {case} {flag} {}\n", told(&answered(flag)));
        line(ON[number % ON.len()]) + &line(OFF)
    })
}

/// The file of these scenes.
pub fn text(scenes: &[Scene], shelf: &Shelf) -> String {
    let texts = scenes.iter().map(|scene| scene_text(scene, shelf));
    std::iter::once(header("Live calls", FORMS, WORDS)).chain(texts).collect()
}
