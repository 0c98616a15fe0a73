//! The shortest time of each of several contestants.

use std::hint::black_box;
use std::time::{Duration, Instant};

/// A contestant takes turns for this long in all, and has at least so many.
const SPAN: Duration = Duration::from_millis(1500);
const TURNS: usize = 3;

/// Lets no answer be left out.
pub fn keep<T>(answer: T) {
    black_box(answer);
}

/// Takes one turn.
pub type Contestant<'a> = Box<dyn FnMut() + 'a>;

struct Clock {
    turns: usize,
    total: Duration,
    shortest: Duration,
}

impl Clock {
    fn has_turns(&self) -> bool {
        self.turns < TURNS || self.total < SPAN
    }

    fn take_turn(&mut self, contestant: &mut Contestant) {
        let start = Instant::now();
        contestant();
        let time = start.elapsed();
        self.turns += 1;
        self.total += time;
        self.shortest = self.shortest.min(time);
    }
}

/// Lets the contestants run turn by turn, so that whatever else the machine does falls on all of them alike.
pub fn shortest(contestants: &mut [Contestant]) -> Vec<Duration> {
    let new = || Clock { turns: 0, total: Duration::ZERO, shortest: Duration::MAX };
    let mut clocks: Vec<Clock> = contestants.iter().map(|_| new()).collect();
    while clocks.iter().any(Clock::has_turns) {
        for (clock, contestant) in clocks.iter_mut().zip(contestants.iter_mut()) {
            if clock.has_turns() {
                clock.take_turn(contestant);
            }
        }
    }
    clocks.iter().map(|clock| clock.shortest).collect()
}
