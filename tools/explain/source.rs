//! Where a unit's net comes from: the library has the factory's ready-made and copies it; every other is
//! built by an order of repeats.

use crate::library::{self, Net, Refusal};
use crate::parts::shown;
use crate::torskavel::Unit;
use std::ffi::OsStr;
use std::os::unix::ffi::OsStrExt;

/// The order that builds the factory's net.
const FACTORY_ORDER: [u8; 3] = [1, 3, 2];

pub enum Source {
    Factory,
    Order {
        typed: String,
        /// The digits 1 to 4 as the bytes 1 to 4, and every other byte as one that is none of these.
        bytes: Vec<u8>,
    },
}

impl Source {
    /// Letters without a digit are a word, and only one is known: misspelt, it is not to be taken for a bad
    /// order.
    pub fn read(word: &OsStr) -> Result<Source, String> {
        let bytes = word.as_bytes();
        if bytes == b"factory" {
            return Ok(Source::Factory);
        }
        if bytes.iter().any(u8::is_ascii_alphabetic) && !bytes.iter().any(u8::is_ascii_digit) {
            let wanted = "neither the word factory, in small letters, nor an order in digits, such as 132";
            return Err(format!("ORDER is '{}', which is {wanted}", shown(word)));
        }
        let bytes = bytes.iter().map(|byte| byte.wrapping_sub(b'0')).collect();
        Ok(Source::Order { typed: shown(word), bytes })
    }

    /// Gives a unit the net.
    pub fn net(&self, unit: Unit) -> (Unit, Result<Net, Refusal>) {
        match self {
            Source::Factory => library::factory(unit),
            Source::Order { bytes, .. } => library::build(unit, bytes),
        }
    }

    /// Whether a net that was copied is the one that a build gives.
    pub fn as_built(&self, unit: Unit, net: &Result<Net, Refusal>) -> bool {
        match (self, net) {
            (Source::Factory, Ok(net)) => {
                library::build(unit, &FACTORY_ORDER).1.is_ok_and(|built| built == *net)
            }
            _ => true,
        }
    }

    /// The byte of an order at a position.
    pub fn byte(&self, position: usize) -> Option<u8> {
        match self {
            Source::Factory => None,
            Source::Order { bytes, .. } => bytes.get(position).copied(),
        }
    }

    /// The words for a net that was copied, or for one that was built.
    pub fn either<'w>(&self, copied: &'w str, built: &'w str) -> &'w str {
        if matches!(self, Source::Factory) { copied } else { built }
    }

    pub fn title(&self) -> String {
        match self {
            Source::Factory => "factory shape".to_string(),
            Source::Order { typed, .. } if typed.is_empty() => "order without a repeat".to_string(),
            Source::Order { typed, .. } => format!("order {typed}"),
        }
    }
}
