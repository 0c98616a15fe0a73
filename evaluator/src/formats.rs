//! The text forms of numbers and nets.

use crate::net::Net;
use crate::sha256;
use std::fmt::Write;

/// Numbers parted by one blank.
pub fn join<T: ToString>(numbers: impl IntoIterator<Item = T>) -> String {
    let words: Vec<String> = numbers.into_iter().map(|n| n.to_string()).collect();
    words.join(" ")
}

/// Lines of a word and up to 16 numbers each.
pub fn number_lines<T: ToString>(word: &str, numbers: &[T]) -> String {
    numbers.chunks(16).map(|chunk| format!("{word} {}\n", join(chunk.iter().map(T::to_string)))).collect()
}

/// A net as program `shares` prints it: docs/SPECIFICATION.md, 13.2.
pub fn listing(net: &Net) -> String {
    let v = net.multiplicities;
    let mut text = format!("box {} degree {}\n", join(v.widths()), v.degree());
    for ([x, y, z], number) in net.listing() {
        writeln!(text, "{x} {y} {z} {number}").expect("a string takes any text");
    }
    text
}

/// SHA-256 of the numbers as 32-bit little-endian bytes.
pub fn numbers_digest(numbers: &[u32]) -> String {
    let bytes: Vec<u8> = numbers.iter().flat_map(|n| n.to_le_bytes()).collect();
    sha256::hex_digest(&bytes)
}

pub const DIGEST_HEADER: &str = "# v1 v2 v3 v4 degree W1 W2 W3 places max nonzero sum sha256-of-u32le\n";

/// One line about a net: shape, greatest number, count of numbers that are not 0, sum, digest.
pub fn digest(net: &Net) -> String {
    let v = net.multiplicities;
    let numbers = &net.numbers;
    let greatest = numbers.iter().max().expect("a box has places");
    let nonzero = net.listing().count();
    let sum: u64 = numbers.iter().map(|&n| u64::from(n)).sum();
    let shape = format!("{} {} {}", join(v.counts()), v.degree(), join(v.widths()));
    format!("{shape} {} {greatest} {nonzero} {sum} {}\n", numbers.len(), numbers_digest(numbers))
}
