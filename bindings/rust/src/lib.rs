//! Lischemur in Rust: safe calls over the proved heap for microcontrollers.
//!
//! The heap itself is proved: it is the archive `libdoor.a`, built from the crate `door` of this
//! repository. This crate declares its functions, lends them a record and a run of 32-bit words, and
//! turns their answer numbers into a [`Result`]. It is `no_std` and has no dependencies. Nothing in
//! it is proved; `tests/rust/run` runs it against Hopter's own heap.
//!
//! ```
//! use lischemur::{Heap, Memory, Refusal};
//!
//! let mut memory = Memory::<33>::new();
//! let mut heap = Heap::make(memory.words())?;
//! let payload = heap.alloc(13)?;
//! assert_eq!(heap.alloc(4_294_967_295), Err(Refusal::TooLarge));
//! heap.free(payload)?;
//! assert_eq!(heap.free(payload), Err(Refusal::NotLive));
//! # Ok::<(), Refusal>(())
//! ```
//!
//! # What is left to the caller
//!
//! - **Locking.** One call at a time: every call that changes the heap takes `&mut Heap`, and a
//!   program with tasks or interrupts puts its own lock around it (`examples/global_alloc.rs` does).
//! - **Alignment.** Payloads are 8-aligned if the words start at an address that is 4 mod 8.
//!   [`Memory`] and [`StaticMemory`] lay words out that way. More than 8 cannot be asked for.
//! - **Payloads.** The heap clears a payload, gives out a raw pointer to it, and does not read or write
//!   it while it is live. Whoever does must know that it is; that is what `unsafe` is for there.
//!
//! A chunk that is taken back is cached for the next handout that it fits: up to four, or with
//! [`Kind::One`] one, as Hopter's heap has it.
//!
//! [`words_for`] says how many words serve; [`served`], what a free chunk serves.
//!
//! Every call audits the whole heap first, so its time grows with the heap's length.
//!
//! ```text
//! record    the types that cross the door
//! door      the archive's functions
//! refusal   the answer numbers by name
//! memory    words that start 4 mod 8
//! heap      the calls
//! ```

#![no_std]
#![warn(missing_docs)]
#![deny(unsafe_op_in_unsafe_fn)]

/// The version, which is the C header's too. Its second number is [`LAYOUT`].
pub const VERSION: &str = env!("CARGO_PKG_VERSION");

mod door;
mod heap;
mod memory;
mod record;
mod refusal;

pub use door::LAYOUT;
pub use heap::{map_room, Heap, Kind, Offset, MAP_LINE};
#[cfg(target_has_atomic = "8")]
pub use memory::StaticMemory;
pub use memory::{accepted, served, words_for, Memory, LEAST_WORDS, MOST_WORDS};
pub use record::Record;
pub use refusal::{Refusal, MOST_SIZE};
