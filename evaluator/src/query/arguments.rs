//! What stands on the command line.

use crate::field::{self, Block};
use crate::net::Multiplicities;
use crate::random::Random;
use crate::unit::{Origin, Refusal, Sizes, Unit};
use std::fs;
use std::str::FromStr;

/// How many words say what a unit has.
pub const HELD: usize = 10;

/// So many numbers of one type.
pub fn numbers<T: FromStr, const N: usize>(words: &[String]) -> Result<[T; N], String> {
    let number =
        |word: &String| word.parse().map_err(|_| format!("{word} is no number of {} bits", 8 * size_of::<T>()));
    let numbers = words.iter().map(number).collect::<Result<Vec<T>, String>>()?;
    numbers.try_into().map_err(|found: Vec<T>| format!("{} numbers where {N} belong", found.len()))
}

pub fn multiplicities(words: &[String]) -> Result<Multiplicities, String> {
    let v = numbers::<u32, 4>(words)?.map(|v| v as usize);
    Multiplicities::new(v).ok_or_else(|| "four multiplicities, each at least 1, of sum at most 12".to_string())
}

fn sizes(words: &[String]) -> Result<Sizes, String> {
    let n = numbers::<u32, 3>(words)?.map(|n| n as usize);
    Sizes::new(n).ok_or_else(|| "three sizes from 1 to 64, of product at most 4096".to_string())
}

/// V1 V2 V3 V4 N1 N2 N3 O1 O2 O3: the net and the block of a unit.
pub struct Held {
    pub multiplicities: Multiplicities,
    sizes: Sizes,
    origin: Origin,
}

impl Held {
    /// The words of it, and what stands after them.
    pub fn split(arguments: &[String]) -> Result<(Held, &[String]), String> {
        let (head, rest) = arguments.split_at_checked(HELD).ok_or("V1 V2 V3 V4 N1 N2 N3 O1 O2 O3 and more")?;
        let (multiplicities, sizes, origin) = (multiplicities(&head[..4])?, sizes(&head[4..7])?, numbers(&head[7..])?);
        Ok((Held { multiplicities, sizes, origin }, rest))
    }

    pub fn unit(&self) -> Unit {
        Unit::EMPTY.with_net(self.multiplicities).with_block(self.sizes, self.origin)
    }

    /// The block of a field file or of a seed, and the arguments after it; a file may be refused.
    pub fn block<'a>(&self, arguments: &'a [String]) -> Result<(Result<Block, Refusal>, &'a [String]), String> {
        let [option, value, rest @ ..] = arguments else { return Err("--file or --seed is missing".to_string()) };
        let block = match option.as_str() {
            "--file" => self.of_file(value)?,
            "--seed" => {
                let seed = value.parse().map_err(|_| format!("{value} is no seed"))?;
                Ok(Block::random(self.sizes, &mut Random::new(seed)).moved_to(self.origin))
            }
            _ => return Err("--file or --seed is missing".to_string()),
        };
        Ok((block, rest))
    }

    fn of_file(&self, path: &str) -> Result<Result<Block, Refusal>, String> {
        let read = field::read(&fs::read(path).map_err(|e| format!("{path}: {e}"))?);
        let fits = read.as_ref().map_or(true, |block| block.sizes == self.sizes && block.origin == self.origin);
        if fits { Ok(read) } else { Err(format!("{path} has other sizes or another origin")) }
    }
}

/// X Y Z D.
pub fn point(words: &[String]) -> Result<([i32; 3], u32), String> {
    let (coordinates, divisor) = words.split_at_checked(3).ok_or("X Y Z D")?;
    let [divisor] = numbers(divisor)?;
    Ok((numbers(coordinates)?, divisor))
}

/// Whether a live call is asked for the uncertainty, and the arguments after the flag.
pub fn flag(arguments: &[String]) -> Result<(bool, &[String]), String> {
    match arguments {
        [flag, rest @ ..] if flag == "0" || flag == "1" => Ok((flag == "1", rest)),
        _ => Err("a flag, 0 or 1, is missing".to_string()),
    }
}

/// No argument is left over.
pub fn no_more(rest: &[String]) -> Result<(), String> {
    rest.first().map_or(Ok(()), |word| Err(format!("{word} is too much")))
}
