//! Refusals: the heap's answer numbers by name.
//!
//! After a refusal no word of the memory and no field of the record has changed.

use core::fmt;

/// The largest size that is not refused as too large: 4,294,967,284 bytes.
pub const MOST_SIZE: u32 = 4_294_967_284;

/// Why a call was refused.
#[derive(Clone, Copy, Debug, PartialEq, Eq)]
pub enum Refusal {
    /// Answer 1: zero bytes were asked for.
    ZeroSize,
    /// Answer 2: more than [`MOST_SIZE`] bytes were asked for.
    TooLarge,
    /// Answer 3: no cached chunk serves and no free one reaches the threshold, not even with the cache emptied and merged.
    /// It may be served later.
    NoFit,
    /// Answer 4: no live payload starts at the offset.
    NotLive,
    /// Answer 5: the record and the words are not a sound heap.
    Damaged,
    /// Answer 6 at making: the length is not an odd number of words from 5 to 65,529.
    BadLength,
    /// Answer 6 to a map: the room is too short.
    NoRoom,
    /// Answer 8: no heap of this length can ever serve it, so it is of no use to ask again.
    NeverFits,
    /// A number that the archive does not give: 7, which is for traces, or one above 8.
    Unknown(u32),
}

impl Refusal {
    /// What an answer number says; any number has a meaning here. 6 is making's.
    pub const fn of_number(number: u32) -> Result<(), Refusal> {
        match number {
            0 => Ok(()),
            1 => Err(Refusal::ZeroSize),
            2 => Err(Refusal::TooLarge),
            3 => Err(Refusal::NoFit),
            4 => Err(Refusal::NotLive),
            5 => Err(Refusal::Damaged),
            6 => Err(Refusal::BadLength),
            8 => Err(Refusal::NeverFits),
            other => Err(Refusal::Unknown(other)),
        }
    }

    /// The answer number of this refusal.
    pub const fn number(self) -> u32 {
        match self {
            Refusal::ZeroSize => 1,
            Refusal::TooLarge => 2,
            Refusal::NoFit => 3,
            Refusal::NotLive => 4,
            Refusal::Damaged => 5,
            Refusal::BadLength | Refusal::NoRoom => 6,
            Refusal::NeverFits => 8,
            Refusal::Unknown(number) => number,
        }
    }
}

impl fmt::Display for Refusal {
    fn fmt(&self, out: &mut fmt::Formatter<'_>) -> fmt::Result {
        match self {
            Refusal::ZeroSize => out.write_str("zero bytes were asked for"),
            Refusal::TooLarge => out.write_str("too many bytes were asked for"),
            Refusal::NoFit => {
                out.write_str("no free chunk is large enough, not even with the cache emptied")
            }
            Refusal::NotLive => out.write_str("no live payload starts there"),
            Refusal::Damaged => out.write_str("the heap is damaged"),
            Refusal::BadLength => {
                out.write_str("not an accepted number of words (odd, 5 to 65,529)")
            }
            Refusal::NoRoom => out.write_str("the map is longer than the room"),
            Refusal::NeverFits => {
                out.write_str("no heap of this length can ever serve that many bytes")
            }
            Refusal::Unknown(number) => write!(out, "answer number {number} is unknown"),
        }
    }
}

impl core::error::Error for Refusal {}
