//! What is told, part by part; `text` and `page` write the same parts.

use std::ffi::OsStr;

pub enum Part {
    Title(String),
    Heading(String),
    Line(String),
    Table(Table),
    /// A picture for the page, as an SVG element, with what it shows.
    Picture {
        svg: String,
        caption: String,
    },
}

#[derive(Default)]
pub struct Table {
    pub caption: String,
    pub columns: Vec<Column>,
    pub rows: Vec<Vec<String>>,
    /// The row of what the columns add up to.
    pub last: Vec<String>,
    /// What is said below the table.
    pub below: String,
}

pub struct Column {
    pub name: &'static str,
    /// Whether it holds places, which are set to the left.
    pub place: bool,
}

pub fn places(name: &'static str) -> Column {
    Column { name, place: true }
}

pub fn numbers(name: &'static str) -> Column {
    Column { name, place: false }
}

/// Numbers parted by blanks.
pub fn words<T: ToString>(numbers: &[T]) -> String {
    numbers.iter().map(T::to_string).collect::<Vec<_>>().join(" ")
}

/// A place or an entry within a sentence.
pub fn bracketed<T: ToString>(place: &[T]) -> String {
    format!("({})", place.iter().map(T::to_string).collect::<Vec<_>>().join(", "))
}

/// The most entries of a list that is not wanted whole.
const LISTED: usize = 12;

/// Entries within a sentence; of a long list the first, unless all are wanted.
pub fn listed(entries: &[String], all: bool) -> String {
    let shown = if all { entries.len() } else { LISTED.min(entries.len()) };
    let more = match entries.len() - shown {
        0 => String::new(),
        more => format!(" and {more} more"),
    };
    format!("{}{more}", entries[..shown].join(", "))
}

/// A name or an order as it may stand in a text or a page: no control characters, nor what is no character.
pub fn shown(name: &OsStr) -> String {
    let printable = |c: char| !c.is_control() && !matches!(c, '\u{fffe}' | '\u{ffff}');
    name.to_string_lossy().chars().map(|c| if printable(c) { c } else { '\u{fffd}' }).collect()
}
