//! `explain`: how the unit comes to its figure, for any field file, net and point. Net, block and answer
//! are the library's; the numbers on the way are worked out here from net and block, and must come to its
//! answer.

#[path = "../../include/torskavel.rs"]
mod torskavel;

mod cell_picture;
mod decimal;
mod divisors;
mod handed;
mod layers_picture;
mod library;
mod live;
mod old_layout;
mod outside;
mod page;
mod parts;
mod placed;
mod placing;
mod point;
mod refusals;
mod report;
mod request;
mod source;
mod sums;
mod svg;
mod tables;
mod text;
mod uncertain_gaps;
mod valuing;
mod walk;

use request::{Asked, Request};
use std::fs::File;
use std::io::{self, ErrorKind, Read, Write};
use std::path::Path;
use std::process::ExitCode;
use walk::{Outcome, Walk};

/// What the program ends with.
enum End {
    Told,
    Refused,
    Fault,
    Differs,
}

impl End {
    fn status(self) -> ExitCode {
        ExitCode::from(match self {
            End::Told => 0,
            End::Refused => 1,
            End::Fault => 2,
            End::Differs => 3,
        })
    }
}

/// Says something on standard error; where even that cannot be written, the status alone tells.
fn complain(message: &str) {
    let _ = writeln!(io::stderr(), "explain: {message}");
}

/// Writes to standard output. A reader who has gone away is no fault worth a word.
fn print(text: &str) -> Result<(), String> {
    let mut output = io::stdout().lock();
    match output.write_all(text.as_bytes()).and_then(|()| output.flush()) {
        Err(error) if error.kind() == ErrorKind::BrokenPipe => Err(String::new()),
        Err(error) => Err(format!("standard output: {error}")),
        Ok(()) => Ok(()),
    }
}

/// The bytes of a file, and no more of a long one than shows that it is too long.
fn read(path: &Path) -> Result<Vec<u8>, String> {
    let limit = torskavel::MAX_FILE as u64 + 1;
    let mut bytes = Vec::new();
    let read = File::open(path).and_then(|file| file.take(limit).read_to_end(&mut bytes));
    read.map(|_| bytes).map_err(|error| format!("{}: {error}", parts::shown(path.as_os_str())))
}

/// Writes a page, but never over the file that it tells of.
fn write_page(path: &Path, file: &Path, page: &str) -> Result<(), String> {
    let name = parts::shown(path.as_os_str());
    if path.canonicalize().is_ok_and(|page| file.canonicalize().is_ok_and(|file| page == file)) {
        return Err(format!("{name}: this is the field file, and no page is written over it"));
    }
    std::fs::write(path, page).map_err(|error| format!("{name}: {error}"))?;
    print(&format!("{name}: written\n"))
}

fn explain(request: &Request) -> Result<End, String> {
    let walk = Walk::new(request, &read(&request.file)?);
    let parts = report::parts(&walk, request.all);
    match &request.page {
        None => print(&text::written(&parts))?,
        Some(path) => write_page(path, &request.file, &page::written(&parts))?,
    }
    let differs = [
        (!walk.as_built, "the factory's net is not the one that the order 132 builds"),
        (
            walk.valued.is_some_and(|valued| !valued.agrees()),
            "the valuing call does not agree with the point call",
        ),
        (matches!(walk.outcome, Outcome::Differs(_)), "the sums do not come to the library's answer"),
        (walk.live.is_some_and(|live| !live.agrees()), "the live call does not agree with the exact call"),
    ];
    if let Some((_, message)) = differs.iter().find(|(differs, _)| *differs) {
        complain(message);
        return Ok(End::Differs);
    }
    Ok(if matches!(walk.outcome, Outcome::Refused(_)) { End::Refused } else { End::Told })
}

fn main() -> ExitCode {
    let ended = request::read(std::env::args_os().skip(1)).and_then(|asked| match asked {
        Asked::Help => print(request::USAGE).map(|()| End::Told),
        Asked::Explain(request) => explain(&request),
    });
    let end = ended.unwrap_or_else(|message| {
        if !message.is_empty() {
            complain(&message);
        }
        End::Fault
    });
    end.status()
}
