//! The tables of ratios.

use std::time::Duration;

/// The shortest times of one call.
pub struct Row {
    pub call: String,
    pub library: Duration,
    pub hand: Duration,
    /// Of each shape in which the call is tuned.
    pub tuned: Vec<Duration>,
    pub recursion: Option<Recursion>,
}

pub struct Recursion {
    /// Each value by itself.
    pub alone: Duration,
    pub with_tables: Duration,
}

impl Row {
    /// From the times of the library, the hand-written call and the tuned ones.
    pub fn of(call: String, times: &[Duration]) -> Row {
        Row { call, library: times[0], hand: times[1], tuned: times[2..].to_vec(), recursion: None }
    }

    /// The fastest of the tuned shapes.
    fn fastest(&self) -> usize {
        let shapes = 0..self.tuned.len();
        shapes.min_by_key(|&shape| self.tuned[shape]).expect("each call is tuned")
    }

    pub fn print(&self) {
        let over = |time: Option<Duration>| time.map_or(String::new(), |time| ratio(time, self.library));
        println!(
            "| {} | {} | {} | {} | {} | {} |",
            self.call,
            micros(self.library),
            ratio(self.library, self.hand),
            ratio(self.library, self.tuned[self.fastest()]),
            over(self.recursion.as_ref().map(|recursion| recursion.alone)),
            over(self.recursion.as_ref().map(|recursion| recursion.with_tables))
        );
    }
}

fn micros(time: Duration) -> String {
    format!("{:.2}", time.as_secs_f64() * 1e6)
}

fn ratio(a: Duration, b: Duration) -> String {
    let ratio = a.as_secs_f64() / b.as_secs_f64();
    if ratio < 100.0 { format!("{ratio:.2}") } else { format!("{ratio:.0}") }
}

pub fn print_header() {
    println!(
        "| call | library, µs | library / hand-written | library / hand-tuned | recursion / library \
         | recursion with tables / library |"
    );
    println!("|---|---|---|---|---|---|");
}

/// The library and the tuned shapes, each over the hand-written call.
pub fn print_shapes<'a>(shapes: &[&str], rows: impl Iterator<Item = &'a Row>) {
    println!("\n| over hand-written | library | {} | fastest |", shapes.join(" | "));
    println!("|---|---|{}---|", "---|".repeat(shapes.len()));
    for row in rows {
        let ratios: Vec<String> = row.tuned.iter().map(|&time| ratio(time, row.hand)).collect();
        let library = ratio(row.library, row.hand);
        println!("| {} | {library} | {} | {} |", row.call, ratios.join(" | "), shapes[row.fastest()]);
    }
}

/// The library's live call, and its exact one at the same points.
pub fn print_live(rows: &[Row], exact: &[Duration]) {
    println!("\n| at the same points | live, µs | exact, µs | live / exact |");
    println!("|---|---|---|---|");
    for (Row { call, library, .. }, exact) in rows.iter().zip(exact) {
        println!("| {call} | {} | {} | {} |", micros(*library), micros(*exact), ratio(*library, *exact));
    }
}

/// The library's placing call and two valuing calls, and its two whole calls at the same points.
pub fn print_stages(rows: &[Row], whole: &[Duration]) {
    println!("\n| two blocks at a point | placed once, µs | two whole calls, µs | placed once / whole |");
    println!("|---|---|---|---|");
    for (Row { call, library, .. }, whole) in rows.iter().zip(whole) {
        println!("| {call} | {} | {} | {} |", micros(*library), micros(*whole), ratio(*library, *whole));
    }
}

/// The library's factory call, and its build of the same net.
pub fn print_factory(row: &Row, build: Duration) {
    println!("\n| the same net | copied, µs | built, µs | built / copied |");
    println!("|---|---|---|---|");
    let Row { call, library, .. } = row;
    println!("| {call} | {} | {} | {} |", micros(*library), micros(build), ratio(build, *library));
}
