//! Checks that count themselves, numbers that look random, and a view of a heap's words.

use lischemur::{Heap, Offset, Record};
use std::fmt::{Arguments, Debug};
use std::process::exit;

/// Checks that stop the program when one fails.
pub struct Checks {
    /// How many were made.
    made: u64,
    /// Which part of the tests they belong to.
    part: String,
}

impl Checks {
    /// No check made yet.
    pub fn new() -> Checks {
        Checks {
            made: 0,
            part: String::new(),
        }
    }

    /// How many checks were made.
    pub fn made(&self) -> u64 {
        self.made
    }

    /// Say which part of the tests begins.
    pub fn begin(&mut self, part: String) {
        self.part = part;
    }

    /// Count a check, and stop if two values differ.
    pub fn equal<T: PartialEq + Debug>(&mut self, what: Arguments, got: T, wanted: T) {
        self.made += 1;
        if got != wanted {
            println!(
                "rust: FAILED: {}: {what}: got {got:?}, wanted {wanted:?}",
                self.part
            );
            exit(1);
        }
    }

    /// Count a check, and stop if it does not hold.
    pub fn holds(&mut self, what: Arguments, held: bool) {
        self.made += 1;
        if !held {
            println!("rust: FAILED: {}: {what}", self.part);
            exit(1);
        }
    }
}

/// Bytes in use, bytes committed, peak and high water, as the readers say them.
pub fn figures(heap: &Heap) -> (u32, u32, u32, u32) {
    (
        heap.in_use(),
        heap.committed(),
        heap.peak(),
        heap.high_water(),
    )
}

/// Numbers that look random; the same seed gives the same ones.
pub struct Numbers(u64);

impl Numbers {
    /// The numbers of a seed.
    pub fn new(seed: u64) -> Numbers {
        Numbers(seed.wrapping_mul(0x9E37_79B9_7F4A_7C15) | 1)
    }

    /// Any number of 32 bits.
    pub fn any(&mut self) -> u32 {
        self.0 ^= self.0 << 13;
        self.0 ^= self.0 >> 7;
        self.0 ^= self.0 << 17;
        (self.0 >> 24) as u32
    }

    /// A number below a bound.
    pub fn below(&mut self, bound: u32) -> u32 {
        self.any() % bound
    }

    /// One of several.
    pub fn one_of<T: Copy>(&mut self, several: &[T]) -> T {
        several[self.below(several.len() as u32) as usize]
    }
}

/// A word of a heap's memory.
pub fn word(heap: &Heap, index: u32) -> u32 {
    let at = heap.pointer(Offset(4 * index)).expect("a word of the heap");
    // SAFETY: the pointer is that of a whole word inside the lent ones, and nobody writes just now.
    unsafe { at.cast().read() }
}

/// Write a word of a heap's memory, as a task or a fault does.
pub fn set_word(heap: &Heap, index: u32, value: u32) {
    let at = heap.pointer(Offset(4 * index)).expect("a word of the heap");
    // SAFETY: as in `word`. No reference into the words is alive, and the heap accepts any contents.
    unsafe { at.cast().write(value) }
}

/// All that a call could change: the record, and so many words.
pub fn state(heap: &Heap, words: u32) -> (Record, Vec<u32>) {
    let words = (0..words).map(|index| word(heap, index)).collect();
    (*heap.record(), words)
}
