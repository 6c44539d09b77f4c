//! A door as a value: the functions of one library, by which a program can hold two. What crosses it is declared in bindings/rust/src/record.rs.

use crate::record::{Record, Reply};
use std::fmt;

impl fmt::Display for Reply {
    fn fmt(&self, out: &mut fmt::Formatter) -> fmt::Result {
        write!(out, "{} {} {}", self.number, self.value, self.compared)
    }
}

/// A call that lends record and words and says a number: words, bytes or an offset.
pub type Call = unsafe extern "C" fn(*mut Record, *mut u32, u64, u32) -> Reply;

/// The calls of a library.
#[derive(Clone, Copy)]
pub struct Door {
    pub make: Call,
    pub hand_out: Call,
    pub take_back: Call,
    pub audit: unsafe extern "C" fn(Record, *const u32, u64) -> u32,
}

impl Door {
    /// Make a heap of the slice, which is said to have so many words.
    pub fn make(&self, record: &mut Record, heap: &mut [u32], words: u32) -> Reply {
        unsafe { (self.make)(record, heap.as_mut_ptr(), heap.len() as u64, words) }
    }

    /// Ask for bytes.
    pub fn hand_out(&self, record: &mut Record, heap: &mut [u32], size: u32) -> Reply {
        unsafe { (self.hand_out)(record, heap.as_mut_ptr(), heap.len() as u64, size) }
    }

    /// Free the payload at an offset.
    pub fn take_back(&self, record: &mut Record, heap: &mut [u32], payload: u32) -> Reply {
        unsafe { (self.take_back)(record, heap.as_mut_ptr(), heap.len() as u64, payload) }
    }

    /// Whether record and words are sound: 1 or 0.
    pub fn audit(&self, record: &Record, heap: &[u32]) -> u32 {
        unsafe { (self.audit)(*record, heap.as_ptr(), heap.len() as u64) }
    }
}
