//! The 495 nets, built by the library and held to the evaluator's digests; and nets to lend.

use evaluator::formats::join;
use evaluator::net::{Multiplicities, Net};
use std::collections::HashMap;
use std::fmt;

#[derive(Default)]
pub struct Shelf(HashMap<Multiplicities, Net>);

impl Shelf {
    pub fn put(&mut self, net: Net) {
        self.0.insert(net.multiplicities, net);
    }

    pub fn net(&self, v: Multiplicities) -> &Net {
        self.0.get(&v).expect("all nets are on the shelf")
    }
}

/// The defined net of some multiplicities, but for some numbers.
#[derive(Clone)]
pub struct LentNet {
    pub of: Multiplicities,
    /// Index and number.
    pub changes: Vec<(usize, u32)>,
}

impl LentNet {
    pub fn defined(of: Multiplicities) -> LentNet {
        LentNet { of, changes: Vec::new() }
    }

    /// As many of the numbers; what no call may read is filled in past them.
    pub fn slice(&self, shelf: &Shelf, length: usize) -> Vec<u32> {
        let mut numbers = shelf.net(self.of).numbers.clone();
        for &(index, number) in &self.changes {
            numbers[index] = number;
        }
        numbers.resize(length, u32::MAX);
        numbers
    }
}

impl fmt::Display for LentNet {
    fn fmt(&self, f: &mut fmt::Formatter) -> fmt::Result {
        const SHOWN: usize = 12;
        write!(f, "net {}", join(self.of.counts()))?;
        for (index, number) in self.changes.iter().take(SHOWN) {
            write!(f, " [{index}]={number}")?;
        }
        match self.changes.len().saturating_sub(SHOWN) {
            0 => Ok(()),
            more => write!(f, " and {more} more"),
        }
    }
}
