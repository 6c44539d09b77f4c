//! The door: the archive's functions, as crate `door` exports them.
//!
//! `tests/rust/declared.py` compares these lines with the C header and with the Rattle source. A slice
//! of it is a pointer and a 64-bit count here, on every processor. The programs of `judges/pair` and
//! `bench` include this file, too.

use crate::record::{Marking, Record, Reply};

/// The number of the layout that record and replies have. The archive's names carry it, so that an
/// archive of another layout does not link.
pub const LAYOUT: u32 = 4;

/// The archive's name of a function: it ends in the layout's number and, for a microcontroller, in the
/// processor's architecture, which build.rs knows.
macro_rules! named {
    ($name:literal) => {
        concat!($name, "_needs_library_of_layout_4", env!("LISCHEMUR_PART"))
    };
}

#[link(name = "door", kind = "static")]
extern "C" {
    /// Make a heap of all `len` words at `heap`; `words` must say the same number.
    #[link_name = named!("lischemur_make")]
    pub(crate) fn lischemur_make(rec: *mut Record, heap: *mut u32, len: u64, words: u32) -> Reply;
    /// Hand out a payload of at least `size` bytes, all of it 0.
    #[link_name = named!("lischemur_hand_out")]
    pub(crate) fn lischemur_hand_out(
        rec: *mut Record,
        heap: *mut u32,
        len: u64,
        size: u32,
    ) -> Reply;
    /// Take back the payload that begins at this offset.
    #[link_name = named!("lischemur_take_back")]
    pub(crate) fn lischemur_take_back(
        rec: *mut Record,
        heap: *mut u32,
        len: u64,
        payload: u32,
    ) -> Reply;
    /// Whether the record and these words are sound: 1 or 0.
    #[link_name = named!("lischemur_audit")]
    pub(crate) fn lischemur_audit(rec: Record, heap: *const u32, len: u64) -> u32;
    /// Write the heap's map at the start of the room, a line for each chunk.
    #[link_name = named!("lischemur_write_map")]
    pub(crate) fn lischemur_write_map(
        rec: Record,
        heap: *const u32,
        len: u64,
        room: *mut u8,
        room_len: u64,
    ) -> Reply;
    /// The mark, if high water has risen, and the record with its flag off.
    #[link_name = named!("lischemur_mark")]
    pub(crate) fn lischemur_mark(rec: Record, stacklets: u32) -> Marking;
    /// What tasks hold.
    #[link_name = named!("lischemur_in_use")]
    pub(crate) fn lischemur_in_use(rec: Record) -> u32;
    /// That and the cached chunks.
    #[link_name = named!("lischemur_committed")]
    pub(crate) fn lischemur_committed(rec: Record) -> u32;
    /// The most bytes that were committed.
    #[link_name = named!("lischemur_peak")]
    pub(crate) fn lischemur_peak(rec: Record) -> u32;
    /// The largest end of a chunk that was handed out.
    #[link_name = named!("lischemur_high_water")]
    pub(crate) fn lischemur_high_water(rec: Record) -> u32;
    /// With one cache place, hand out a payload of at least `size` bytes, all of it 0.
    #[link_name = named!("lischemur_one_hand_out")]
    pub(crate) fn lischemur_one_hand_out(
        rec: *mut Record,
        heap: *mut u32,
        len: u64,
        size: u32,
    ) -> Reply;
    /// With one cache place, take back the payload that begins at this offset.
    #[link_name = named!("lischemur_one_take_back")]
    pub(crate) fn lischemur_one_take_back(
        rec: *mut Record,
        heap: *mut u32,
        len: u64,
        payload: u32,
    ) -> Reply;
    /// Whether the record and these words are sound with one cache place: 1 or 0.
    #[link_name = named!("lischemur_one_audit")]
    pub(crate) fn lischemur_one_audit(rec: Record, heap: *const u32, len: u64) -> u32;
    /// With one cache place, write the heap's map at the start of the room, a line for each chunk.
    #[link_name = named!("lischemur_one_write_map")]
    pub(crate) fn lischemur_one_write_map(
        rec: Record,
        heap: *const u32,
        len: u64,
        room: *mut u8,
        room_len: u64,
    ) -> Reply;
}
