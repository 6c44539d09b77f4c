//! The types that cross the door: the record, and what the calls answer.
//!
//! `tests/rust/declared.py` compares these lines with the C header and with the Rattle source. The
//! layouts are asserted below when this crate is built. The programs of `judges/pair` and `bench`
//! include this file: there is no other declaration of the record in Rust.

use core::mem::{align_of, offset_of, size_of};

/// What the heap keeps between calls: plain data, and any contents are accepted.
///
/// Links 0 to 5 name the sentinels of the six lists; the header at word w has link w + 6.
#[repr(C)]
#[derive(Clone, Copy, Debug, PartialEq, Eq)]
pub struct Record {
    /// The prev link of each list's sentinel: its last chunk, or the sentinel itself.
    pub prev: [u16; 6],
    /// The next link of each list's sentinel: its first chunk, or the sentinel itself.
    pub next: [u16; 6],
    /// The cached chunks' links, oldest first; 0 for an unused place, and those come last.
    pub cached: [u16; 4],
    /// How many words the heap has; 0 before one is made.
    pub words: u32,
    /// What tasks hold: the sum of live lengths.
    pub in_use: u32,
    /// That and the cached chunks: the sum of used lengths.
    pub committed: u32,
    /// The largest that `committed` has been.
    pub peak: u32,
    /// The largest end, in bytes, of a chunk that was handed out.
    pub high: u32,
    /// 1 if high water has risen since the mark was last read, else 0; any other value is damaged.
    pub fresh: u32,
}

impl Record {
    /// The record before a heap is made: all bytes zero, as static memory is at reset.
    pub const EMPTY: Record = Record {
        prev: [0; 6],
        next: [0; 6],
        cached: [0; 4],
        words: 0,
        in_use: 0,
        committed: 0,
        peak: 0,
        high: 0,
        fresh: 0,
    };
}

impl Default for Record {
    fn default() -> Record {
        Record::EMPTY
    }
}

/// An answer as three numbers.
#[repr(C)]
#[derive(Clone, Copy, Debug, PartialEq, Eq)]
pub(crate) struct Reply {
    /// 0 done, else the refusal's number.
    pub(crate) number: u32,
    /// The payload's offset for a handout that is done, how many lines for a map that is, else 0.
    pub(crate) value: u32,
    /// How many free chunks were compared.
    pub(crate) compared: u32,
}

/// What the mark says, and the record with its flag off.
#[repr(C)]
pub(crate) struct Marking {
    /// High water less the stacks' share; 0 where nothing changed.
    pub(crate) mark: i64,
    /// 1 if high water has risen since the mark was last read, else 0.
    pub(crate) changed: u32,
    /// The record after the call.
    pub(crate) rec: Record,
}

const _: () = assert!(size_of::<Record>() == 56 && align_of::<Record>() == 4);
const _: () = assert!(offset_of!(Record, prev) == 0);
const _: () = assert!(offset_of!(Record, next) == 12);
const _: () = assert!(offset_of!(Record, cached) == 24);
const _: () = assert!(offset_of!(Record, words) == 32);
const _: () = assert!(offset_of!(Record, in_use) == 36);
const _: () = assert!(offset_of!(Record, committed) == 40);
const _: () = assert!(offset_of!(Record, peak) == 44);
const _: () = assert!(offset_of!(Record, high) == 48);
const _: () = assert!(offset_of!(Record, fresh) == 52);

const _: () = assert!(size_of::<Reply>() == 12 && align_of::<Reply>() == 4);
const _: () = assert!(offset_of!(Reply, number) == 0);
const _: () = assert!(offset_of!(Reply, value) == 4);
const _: () = assert!(offset_of!(Reply, compared) == 8);

const _: () = assert!(size_of::<Marking>() == 72);
const _: () = assert!(offset_of!(Marking, mark) == 0);
const _: () = assert!(offset_of!(Marking, changed) == 8);
const _: () = assert!(offset_of!(Marking, rec) == 12);
