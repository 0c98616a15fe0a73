//! The command line.

use crate::handed::Handed;
use crate::parts::shown;
use crate::source::Source;
use std::ffi::{OsStr, OsString};
use std::fmt::Display;
use std::os::unix::ffi::OsStrExt;
use std::path::PathBuf;
use std::str::FromStr;

pub const USAGE: &str = "\
usage: explain FILE ORDER X Y Z D [--all] [--page OUT.html]
       explain FILE ORDER placing K1 K2 K3 P R S L0 L1 L2 L3 [--all] [--page OUT.html]
       explain FILE ORDER --refused NUMBER PLACE [--all] [--page OUT.html]

Tells how the unit comes to its figure at the point X/D, Y/D, Z/D, with the table of a field file and a net.
ORDER is the word factory for a unit of the factory shape, 2 2 2 1, which nearly every unit has: its net is
copied ready-made. For any other it is the order of repeats that builds the net, written as digits: 1324, or
'' for the order without a repeat; 132 builds the numbers that factory copies. X, Y and Z are whole numbers
from -2147483648 to 2147483647, and D is one from 0 to 4294967295.

With the word placing it tells the same for a placing that was valued, or why it was refused by 17: the cell
K1 K2 K3, the axis order P R S and the weights L0 L1 L2 L3, as they were handed to the unit. P, R and S are
whole numbers from 0 to 255, the others are as D.

  --all             also lists the local places whose weights multiply to 0, the entries of the window without
                    a share, and every entry never measured or refused by 16
  --page OUT.html   writes a page with pictures, to look at, print or send, and not the text
  --refused NUMBER PLACE
                    tells what a refusal means that a unit with this file and this net gave

Ends with 0 where the point was answered or the refusal told, 1 where the file, the order, the point or the
placing is refused, 2 where the command line is wrong or something cannot be read or written, 3 where the sums
do not come to the library's answer, its live call does not agree with it, its valuing call not with its point
call, or 132 does not build the factory's net.
";

#[derive(Clone, Copy)]
pub enum Question {
    Point { coordinates: [i32; 3], divisor: u32 },
    Placing(Handed),
    Refusal { number: u32, place: usize },
}

pub struct Request {
    pub file: PathBuf,
    pub source: Source,
    pub question: Question,
    pub all: bool,
    pub page: Option<PathBuf>,
}

pub enum Asked {
    Help,
    Explain(Request),
}

/// The words that are no option, and the options.
#[derive(Default)]
struct Words {
    plain: Vec<OsString>,
    all: bool,
    page: Option<PathBuf>,
    refused: Option<(OsString, OsString)>,
    help: bool,
}

fn words(mut arguments: impl Iterator<Item = OsString>) -> Result<Words, String> {
    let mut words = Words::default();
    while let Some(word) = arguments.next() {
        match word.to_str() {
            Some("--all") => words.all = true,
            Some("--help") => words.help = true,
            Some("--page") => {
                let path = arguments.next().filter(|path| !path.is_empty());
                words.page = Some(path.ok_or("--page wants the name of the page")?.into());
            }
            Some("--refused") => {
                let given = arguments.next().zip(arguments.next());
                words.refused = Some(given.ok_or("--refused wants a number and a place")?);
            }
            _ if word.as_bytes().starts_with(b"--") => {
                return Err(format!("there is no option {}; explain --help lists them", shown(&word)));
            }
            _ => words.plain.push(word),
        }
    }
    Ok(words)
}

/// The minus sign that pages print, which is taken as one too.
const MINUS: char = '\u{2212}';

/// A number of a type that has these limits.
fn number<T: FromStr + Display>(name: &str, word: &OsStr, [least, most]: [T; 2]) -> Result<T, String> {
    let number = word.to_str().and_then(|word| word.replace(MINUS, "-").parse().ok());
    number.ok_or_else(|| {
        format!("{name} is '{}', which is no whole number from {least} to {most}", shown(word))
    })
}

fn of_point<T: FromStr + Display>(name: &str, word: &OsStr, limits: [T; 2]) -> Result<T, String> {
    let hint = "a position such as 3.4 is written as 34 with the divisor 10";
    number(name, word, limits).map_err(|message| format!("{message}; {hint}"))
}

fn point(words: &[OsString]) -> Result<Question, String> {
    let [x, y, z, divisor] = words else {
        return Err(format!(
            "FILE, ORDER and X Y Z D are wanted, six words and not {}; explain --help",
            words.len() + 2
        ));
    };
    let coordinate = |name, word| of_point(name, word, [i32::MIN, i32::MAX]);
    let coordinates = [coordinate("X", x)?, coordinate("Y", y)?, coordinate("Z", z)?];
    Ok(Question::Point { coordinates, divisor: of_point("D", divisor, [0, u32::MAX])? })
}

fn placing(words: &[OsString]) -> Result<Question, String> {
    let [k1, k2, k3, p, r, s, l0, l1, l2, l3] = words else {
        return Err(format!(
            "after the word placing ten numbers are wanted, K1 K2 K3 P R S L0 L1 L2 L3, and not {}; explain \
             --help",
            words.len()
        ));
    };
    let of_32_bits = |name, word| number(name, word, [0, u32::MAX]);
    let byte = |name, word| number(name, word, [0, u8::MAX]);
    Ok(Question::Placing(Handed {
        cell: [of_32_bits("K1", k1)?, of_32_bits("K2", k2)?, of_32_bits("K3", k3)?],
        axes: [byte("P", p)?, byte("R", r)?, byte("S", s)?],
        weights: [of_32_bits("L0", l0)?, of_32_bits("L1", l1)?, of_32_bits("L2", l2)?, of_32_bits("L3", l3)?],
    }))
}

fn refusal((number, place): (OsString, OsString), rest: &[OsString]) -> Result<Question, String> {
    if !rest.is_empty() {
        return Err("with --refused no point is wanted; explain --help".to_string());
    }
    let number = number.to_str().and_then(|word| word.parse().ok()).filter(|&n| crate::refusals::is_one(n));
    let number = number.ok_or("--refused wants the number of a refusal: 1 to 17, 21, 22 or 23")?;
    let place = place.to_str().and_then(|word| word.parse().ok());
    let place =
        place.ok_or("--refused wants the place as a whole number; it is 0 where the unit names none")?;
    Ok(Question::Refusal { number, place })
}

pub fn read(arguments: impl Iterator<Item = OsString>) -> Result<Asked, String> {
    let words = words(arguments)?;
    if words.help {
        return Ok(Asked::Help);
    }
    let [file, order, rest @ ..] = &words.plain[..] else {
        return Err(format!("FILE and ORDER are wanted\n{USAGE}"));
    };
    let question = match words.refused {
        Some(given) => refusal(given, rest)?,
        None => match rest {
            [word, numbers @ ..] if word == "placing" => placing(numbers)?,
            _ => point(rest)?,
        },
    };
    let (file, source) = (file.into(), Source::read(order)?);
    Ok(Asked::Explain(Request { file, source, question, all: words.all, page: words.page }))
}
