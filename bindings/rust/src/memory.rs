//! Memory: words that start at an address that is 4 mod 8, so that payloads are 8-aligned.
//!
//! A payload starts 4 bytes after its chunk, and chunks have lengths that are multiples of 8. So the
//! words' own start decides how all payloads are aligned. A heap over other words works too; its
//! payloads are then only 4-aligned.

use core::mem::offset_of;

/// The fewest words that a heap can have.
pub const LEAST_WORDS: usize = 5;

/// The most words that a heap can have.
pub const MOST_WORDS: usize = 65_529;

/// Whether a heap can have that many words: an odd number, 5 to 65,529.
pub const fn accepted(words: usize) -> bool {
    LEAST_WORDS <= words && words <= MOST_WORDS && words % 2 == 1
}

/// The fewest words of a just-made heap that serves `count` handouts of `size` bytes each before any is
/// taken back.
///
/// A search for less than 512 bytes looks only at chunks of at least the next power of two, so that
/// a handout can be refused though a shorter free chunk would hold the payload: a just-made heap of 127
/// words is one free chunk of 504 bytes, and `NeverFits` is its answer to 245 bytes.
///
/// ```
/// use lischemur::{words_for, Heap, Memory};
///
/// let mut memory = Memory::<{ words_for(20, 48) }>::new();
/// let mut heap = Heap::make(memory.words())?;
/// for _ in 0..20 {
///     heap.alloc(48)?;
/// }
/// # Ok::<(), lischemur::Refusal>(())
/// ```
pub const fn words_for(count: usize, size: usize) -> usize {
    let chunk = if size <= 12 { 16 } else { (size + 11) / 8 * 8 };
    let serves = match chunk {
        0..=31 => 32,
        32..=511 => (chunk + 1).next_power_of_two(),
        _ => chunk,
    };
    (count.saturating_sub(1) * chunk + serves) / 4 + 1
}

/// The largest size that a free chunk of this length serves, as the map shows it; 0 if it serves none.
pub const fn served(chunk: usize) -> usize {
    match chunk {
        0..=31 => 0,
        32..=511 => (chunk + 1).next_power_of_two() / 2 - 12,
        _ => chunk - 4,
    }
}

/// Zeroed words for a heap, at an address that is 4 mod 8.
///
/// A length that no heap can have does not build:
///
/// ```compile_fail
/// let memory = lischemur::Memory::<8>::new();
/// ```
#[repr(C, align(8))]
pub struct Memory<const WORDS: usize> {
    /// Takes the first four bytes, so that the words start behind them.
    _before: u32,
    /// The words to lend.
    words: [u32; WORDS],
}

const _: () = assert!(offset_of!(Memory<5>, words) == 4);

impl<const WORDS: usize> Memory<WORDS> {
    /// Refuses to build with a length that no heap can have.
    const ACCEPTED: () = assert!(
        accepted(WORDS),
        "not an accepted number of words (odd, 5 to 65,529)"
    );

    /// Words that are all 0.
    pub const fn new() -> Memory<WORDS> {
        let () = Self::ACCEPTED;
        Memory {
            _before: 0,
            words: [0; WORDS],
        }
    }

    /// The words, to be lent to a heap.
    pub fn words(&mut self) -> &mut [u32] {
        &mut self.words
    }
}

impl<const WORDS: usize> Default for Memory<WORDS> {
    fn default() -> Memory<WORDS> {
        Memory::new()
    }
}

/// A [`Memory`] for a `static`, whose words can be taken once.
///
/// ```
/// use lischemur::{Heap, StaticMemory};
///
/// static MEMORY: StaticMemory<1023> = StaticMemory::new();
///
/// let words = MEMORY.take().expect("nobody has taken it yet");
/// let heap: Heap<'static> = Heap::make(words)?;
/// assert!(MEMORY.take().is_none());
/// # Ok::<(), lischemur::Refusal>(())
/// ```
#[cfg(target_has_atomic = "8")]
pub struct StaticMemory<const WORDS: usize> {
    /// Whether the words have been taken.
    taken: core::sync::atomic::AtomicBool,
    /// The memory; touched by whoever took it, and by nobody else.
    memory: core::cell::UnsafeCell<Memory<WORDS>>,
}

// SAFETY: `take` gives the words to one caller only, whichever thread it is in.
#[cfg(target_has_atomic = "8")]
unsafe impl<const WORDS: usize> Sync for StaticMemory<WORDS> {}

#[cfg(target_has_atomic = "8")]
impl<const WORDS: usize> StaticMemory<WORDS> {
    /// Words that are all 0 and have not been taken.
    #[allow(clippy::new_without_default)]
    pub const fn new() -> StaticMemory<WORDS> {
        StaticMemory {
            taken: core::sync::atomic::AtomicBool::new(false),
            memory: core::cell::UnsafeCell::new(Memory::new()),
        }
    }

    /// The words, the first time; nothing ever after.
    #[allow(clippy::mut_from_ref)]
    pub fn take(&'static self) -> Option<&'static mut [u32]> {
        if self.taken.swap(true, core::sync::atomic::Ordering::AcqRel) {
            return None;
        }
        // SAFETY: the flag was off and is on for good, so no other reference into the memory is ever made.
        let memory = unsafe { &mut *self.memory.get() };
        Some(memory.words())
    }
}
