//! The commands of the evaluator.

use evaluator::net::{self, Multiplicities};
use evaluator::query::{self, placings};
use evaluator::{formats, shares, vectors};
use std::io::{self, Write};
use std::path::Path;
use std::process::ExitCode;

const USAGE: &str = "\
usage: evaluator COMMAND

  net V1 V2 V3 V4           a net in clear, as program shares prints it
  digests                   one line about each of the 495 nets
  value V1 V2 V3 V4 X Y Z D
                            the box spline at (X/D, Y/D, Z/D), off all knot planes, by the recurrence word for word
  shares-expected           what program shares prints, for each line of the standard input: the bytes typed, in hexadecimal;
                            before each print stands a line with its bytes

  point V1 V2 V3 V4 N1 N2 N3 O1 O2 O3 X Y Z D BLOCK
                            a point's answer by the recurrence
  lent-point V1 V2 V3 V4 N1 N2 N3 O1 O2 O3 X Y Z D BLOCK [--net FILE] [INDEX=NUMBER ..]
                            a point's answer from the numbers of a lent net: the defined one, or the one in FILE (in the
                            form of command net), with these numbers changed
                            BLOCK is --file FILE (a field file with sizes N1 N2 N3 and origin O1 O2 O3) or --seed NUMBER
  live FLAG ..              a point's live answer, the floats as their bits in hexadecimal; FLAG is 1, or 0 where
                            the uncertainty is switched off, and after it stands what command point takes
  lent-live FLAG ..         the same with what command lent-point takes
  place V1 V2 V3 V4 N1 N2 N3 O1 O2 O3 X Y Z D
                            a point's placing: the cell K1 K2 K3, the axis order P R S, the weights L0 L1 L2 L3
  value-at V1 V2 V3 V4 N1 N2 N3 O1 O2 O3 K1 K2 K3 P R S L0 L1 L2 L3 BLOCK
                            the answer at a placing by the recurrence
  live-value-at FLAG ..     the live answer at a placing, with what command value-at takes

  vectors DIRECTORY         writes the stored vectors
  vectors --check DIRECTORY
                            says whether the stored vectors are current
";

type Outcome = Result<(), String>;

fn print(bytes: &[u8]) -> Outcome {
    io::stdout().write_all(bytes).map_err(|e| e.to_string())
}

fn digests() -> Outcome {
    print(formats::DIGEST_HEADER.as_bytes())?;
    for degree in 1..=9 {
        for net in net::nets(&Multiplicities::of_degree(degree)) {
            print(formats::digest(&net).as_bytes())?;
        }
    }
    Ok(())
}

fn bytes(hexadecimal: &str) -> Option<Vec<u8>> {
    let digits: Option<Vec<u8>> = hexadecimal.chars().map(|c| c.to_digit(16).map(|digit| digit as u8)).collect();
    digits.filter(|digits| digits.len() % 2 == 0).map(|digits| digits.chunks(2).map(|d| 16 * d[0] + d[1]).collect())
}

fn shares_expected() -> Outcome {
    let input = io::read_to_string(io::stdin()).map_err(|e| e.to_string())?;
    let mut prints = shares::Prints::default();
    for line in input.lines() {
        let typed = bytes(line).ok_or_else(|| format!("{line} is no list of bytes"))?;
        print(format!("typed {line}\n{}", prints.print(&typed)).as_bytes())?;
    }
    Ok(())
}

fn check_vectors(directory: &Path) -> Outcome {
    let stale = vectors::stale(directory);
    if !stale.is_empty() {
        return Err(format!("not current: {}", stale.join(", ")));
    }
    print(b"all stored vectors are current\n")
}

fn run(arguments: &[String]) -> Outcome {
    let words: Vec<&str> = arguments.iter().map(String::as_str).collect();
    match words[..] {
        ["net", ..] => print(query::net(&arguments[1..])?.as_bytes()),
        ["value", ..] => print(query::value(&arguments[1..])?.as_bytes()),
        ["digests"] => digests(),
        ["shares-expected"] => shares_expected(),
        ["point", ..] => print(query::point(&arguments[1..])?.as_bytes()),
        ["lent-point", ..] => print(query::lent_point(&arguments[1..])?.as_bytes()),
        ["live", ..] => print(query::live(&arguments[1..])?.as_bytes()),
        ["lent-live", ..] => print(query::lent_live(&arguments[1..])?.as_bytes()),
        ["place", ..] => print(placings::place(&arguments[1..])?.as_bytes()),
        ["value-at", ..] => print(placings::value_at(&arguments[1..])?.as_bytes()),
        ["live-value-at", ..] => print(placings::live_value_at(&arguments[1..])?.as_bytes()),
        ["vectors", "--check", directory] => check_vectors(Path::new(directory)),
        ["vectors", directory] => vectors::write(Path::new(directory)),
        _ => Err(USAGE.to_string()),
    }
}

fn main() -> ExitCode {
    let arguments: Vec<String> = std::env::args().skip(1).collect();
    match run(&arguments) {
        Ok(()) => ExitCode::SUCCESS,
        Err(message) => {
            eprintln!("{}", message.trim_end());
            ExitCode::FAILURE
        }
    }
}
