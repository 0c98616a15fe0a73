//! Lent slices between guard zones, and what a call left of them.

use crate::Outcome;
use std::fmt::Debug;
use std::hint::black_box;
use std::sync::atomic::{AtomicU64, Ordering};

/// The words before each lent slice, and those after it.
const ZONE: usize = 32;

static NEXT_SALT: AtomicU64 = AtomicU64::new(1);

/// A number that slices are made of.
pub trait Word: Copy + PartialEq + Debug {
    fn from_bits(bits: u64) -> Self;
}

macro_rules! words {
    ($($word:ty)*) => {
        $(impl Word for $word {
            fn from_bits(bits: u64) -> $word {
                bits as $word
            }
        })*
    };
}

words!(u8 u16 i16 u32 i32);

/// Junk that differs from place to place, and from one memory to the next.
fn pattern<T: Word>(length: usize) -> Vec<T> {
    let salt = NEXT_SALT.fetch_add(1, Ordering::Relaxed);
    let bits = |index: u64| (index + (salt << 32)).wrapping_mul(0x9e37_79b9_7f4a_7c15) >> 29;
    (0..length as u64).map(|index| T::from_bits(bits(index))).collect()
}

/// A slice to lend, its guard zones, and all of it as it was before the call.
pub struct Lent<T> {
    name: &'static str,
    memory: Vec<T>,
    found: Vec<T>,
}

impl<T: Word> Lent<T> {
    /// A slice that holds junk.
    pub fn junk(name: &'static str, length: usize) -> Lent<T> {
        let memory = pattern(length + 2 * ZONE);
        Lent { name, found: memory.clone(), memory }
    }

    pub fn of(name: &'static str, numbers: &[T]) -> Lent<T> {
        let mut memory = pattern(numbers.len() + 2 * ZONE);
        memory[ZONE..][..numbers.len()].copy_from_slice(numbers);
        Lent { name, found: memory.clone(), memory }
    }

    pub fn slice(&self) -> &[T] {
        &self.memory[ZONE..self.memory.len() - ZONE]
    }

    pub fn slice_mut(&mut self) -> &mut [T] {
        let end = self.memory.len() - ZONE;
        &mut self.memory[ZONE..end]
    }

    /// The compiler may take a slice that is only read for unchanged: the comparisons read the memory anew.
    fn now(&self) -> &[T] {
        black_box(&self.memory)
    }

    /// The zones are as found, and so is the slice from a place on.
    fn kept_from(&self, from: usize) -> Outcome {
        let now = self.now();
        let changed = |&index: &usize| now[index] != self.found[index];
        let after = ZONE + from;
        if now[..ZONE] == self.found[..ZONE] && now[after..] == self.found[after..] {
            return Ok(());
        }
        let index = (0..ZONE).chain(after..now.len()).find(changed).expect("a part differs");
        let place = index as i64 - ZONE as i64;
        Err(format!("{}[{place}] was {:?}, is now {:?}", self.name, self.found[index], now[index]))
    }

    /// Nothing was written.
    pub fn kept(&self) -> Outcome {
        self.kept_from(0)
    }

    /// Nothing was written outside the slice.
    pub fn zones_kept(&self) -> Outcome {
        self.kept_from(self.memory.len() - 2 * ZONE)
    }

    /// These numbers were written, and nothing else.
    pub fn holds(&self, numbers: &[T]) -> Outcome {
        let written = &self.now()[ZONE..][..numbers.len()];
        if let Some(place) = (0..numbers.len()).find(|&place| written[place] != numbers[place]) {
            return Err(format!("{}[{place}] is {:?}, not {:?}", self.name, written[place], numbers[place]));
        }
        self.kept_from(numbers.len())
    }
}
