//! The whole way from file, net and point to the answer, or to the refusal that ends it.

use crate::library::{self, Block, Figure, Net, Refusal};
use crate::live::Live;
use crate::parts::shown;
use crate::placing::{Placing, Window};
use crate::point::Point;
use crate::request::{Question, Request};
use crate::source::Source;
use crate::sums::Sums;
use crate::torskavel::{self, MAX_FILE, Unit};
use crate::uncertain_gaps;
use crate::valuing::{IMPOSSIBLE, Valued};

pub struct Walk<'a> {
    /// The file's name, without its folders.
    pub file: String,
    /// None where it is longer than any field file.
    pub file_length: Option<usize>,
    /// The sizes that its first bytes name, within their limits or not.
    pub head: Option<[usize; 3]>,
    /// The entries that 16 is about, by their index, with their uncertainties.
    pub uncertain_gaps: Vec<(usize, u16)>,
    pub source: &'a Source,
    pub net: Result<Net, Refusal>,
    /// False where the net was copied and is not the one that a build gives.
    pub as_built: bool,
    pub block: Result<Block, Refusal>,
    pub question: Question,
    /// Where there is a divisor, a net and a table; of a placing that was handed in, where it is possible.
    pub point: Option<Point>,
    /// Of a point that is not before the origin.
    pub placing: Option<Placing>,
    pub window: Option<Window>,
    pub sums: Option<Sums>,
    /// Where a point or a placing was asked.
    pub live: Option<Live>,
    /// Where a placing was asked.
    pub valued: Option<Valued>,
    pub outcome: Outcome,
}

pub enum Outcome {
    /// There was no point to answer.
    Told,
    Agreed(Figure),
    Refused(Refusal),
    /// The sums come to another figure than the library's.
    Differs(Figure),
}

/// The bytes of a file before its corrections: sizes and origin.
pub const HEAD: usize = 12;

fn head(bytes: &[u8]) -> Option<[usize; 3]> {
    let bytes = bytes.get(..6)?;
    Some([0, 2, 4].map(|at| u16::from_le_bytes([bytes[at], bytes[at + 1]]).into()))
}

/// What the library gives for the point or the placing that was asked.
struct Given {
    answer: Result<Figure, Refusal>,
    live: Live,
    /// Coordinates and divisor; none for a placing that stands for no point.
    point: Option<([i32; 3], u32)>,
    valued: Option<Valued>,
}

impl Given {
    fn of(unit: Unit, net: &Net, block: &Block, question: Question) -> Option<Given> {
        let at = |(point, divisor)| library::answer(unit, net, block, point, divisor);
        match question {
            Question::Refusal { .. } => None,
            Question::Point { coordinates, divisor } => {
                let answer = at((coordinates, divisor));
                let live = |with| library::live_answer(unit, net, block, coordinates, divisor, with);
                let live = Live::of(&answer, net, divisor, live);
                Some(Given { answer, live, point: Some((coordinates, divisor)), valued: None })
            }
            Question::Placing(handed) => {
                let answer = library::value(unit, net, block, handed.record());
                let point = handed.point(net, block);
                let valued = Valued { given: answer, right: point.map_or(Err(IMPOSSIBLE), at) };
                let live = |with| library::live_value(unit, net, block, handed.record(), with);
                let live = Live::of(&answer, net, point.map_or(0, |(_, divisor)| divisor), live);
                Some(Given { answer, live, point, valued: Some(valued) })
            }
        }
    }
}

impl<'a> Walk<'a> {
    pub fn new(request: &'a Request, bytes: &[u8]) -> Walk<'a> {
        let (source, empty) = (&request.source, torskavel::empty_unit());
        let (unit, net) = source.net(empty);
        let as_built = source.as_built(empty, &net);
        let (unit, block) = library::load(unit, bytes);
        let name = request.file.file_name().unwrap_or(request.file.as_os_str());
        let mut walk = Walk {
            file: shown(name),
            file_length: Some(bytes.len()).filter(|&length| length <= MAX_FILE),
            head: head(bytes),
            uncertain_gaps: uncertain_gaps::found(bytes, head(bytes)),
            source,
            net,
            as_built,
            block,
            question: request.question,
            point: None,
            placing: None,
            window: None,
            sums: None,
            live: None,
            valued: None,
            outcome: Outcome::Told,
        };
        walk.ask(unit);
        walk
    }

    /// Asks the library, and works the point out beside it.
    fn ask(&mut self, unit: Unit) {
        let (net, block) = match (&self.net, &self.block) {
            (Ok(net), Ok(block)) => (net, block),
            (Err(refusal), _) | (_, Err(refusal)) => {
                self.outcome = Outcome::Refused(*refusal);
                return;
            }
        };
        let Some(given) = Given::of(unit, net, block, self.question) else { return };
        let Given { answer, live, point, valued } = given;
        self.valued = valued;
        self.live = Some(live);
        let refused = answer.as_ref().err().map_or(0, |refusal| refusal.number);
        self.point = point.and_then(|(point, divisor)| Point::new(point, divisor, block.origin));
        self.placing = self.point.and_then(|point| Placing::of(point, block.sizes));
        // 10 and 11 come before the window is looked at, and keep the powers of the divisor small
        if refused != torskavel::refused::DIVISOR && refused != torskavel::refused::DENOMINATOR {
            self.window = self.placing.as_ref().and_then(|placing| placing.window(net, block));
        }
        if let (Some(placing), Some(window)) = (&self.placing, self.window) {
            self.sums = Some(Sums::of(net, block, placing, window));
        }
        self.outcome = match answer {
            Err(refusal) => Outcome::Refused(refusal),
            Ok(figure) if self.sums.as_ref().is_some_and(|sums| sums.figure == figure) => {
                Outcome::Agreed(figure)
            }
            Ok(figure) => Outcome::Differs(figure),
        };
    }
}
