//! The memory under `heap.rs`, and what a linker script would say of it.
//!
//! `heap.rs` thinks in 32-bit addresses. Here the address `__MEM_CHUNK_LINK_OFFSET` is that of the
//! first of `SENTINELS`, and the heap's words follow the last one at once. Only five lines of
//! `heap.rs` turn an address into a pointer or a pointer into an address; they call `to_ptr` and
//! `to_addr`, which count from that start. A pointer is therefore always one into `SENTINELS` or
//! `WORDS`, whatever the width of the computer's own addresses.
//!
//! A child of `heap.rs`, because the statics of `heap.rs` are its own. Nothing here is for more
//! than one thread: `lib.rs` hands out the only door to it.

use super::{Sentinel, CACHED, CUR_ALLOC_SIZE, MAX_ALLOC_SIZE, SENTINELS};
use super::{__MEM_CHUNK_LINK_OFFSET, HIGH_WATER_MARK, HIGH_WATER_MARK_JUST_UPDATED};
use core::sync::atomic::Ordering;

/// The longest heap that 16-bit links reach when the sentinels take the first twelve.
pub const MOST_WORDS: u32 = 65_527;

/// The bytes that the sentinels take, so the distance from the first link to the heap.
const SENTINEL_BYTES: u32 = 6 * core::mem::size_of::<Sentinel>() as u32;

/// The heap's first address. It is 4 mod 8, as `mcu_heap_init` asks.
pub const START: u32 = __MEM_CHUNK_LINK_OFFSET + SENTINEL_BYTES;

/// The memory that heaps are made in.
static mut WORDS: [u32; MOST_WORDS as usize] = [0; MOST_WORDS as usize];

/// The first address behind the heap.
static mut END: u32 = START;

/// Free chunks compared with the wanted length since the last `boot` or `restart_count`.
static mut COMPARED: u32 = 0;

/// The pointer to an address.
pub(crate) fn to_ptr<T>(addr: u32) -> *mut T {
    let offset = addr.wrapping_sub(__MEM_CHUNK_LINK_OFFSET);
    assert!(
        offset < SENTINEL_BYTES + 4 * MOST_WORDS,
        "{addr:#x} is no address of RAM"
    );
    if offset < SENTINEL_BYTES {
        (&raw mut SENTINELS).wrapping_byte_add(offset as usize) as *mut T
    } else {
        (&raw mut WORDS).wrapping_byte_add((offset - SENTINEL_BYTES) as usize) as *mut T
    }
}

/// The address of what a pointer points to.
pub(crate) fn to_addr<T>(ptr: *mut T) -> u32 {
    let in_words = (ptr as usize).wrapping_sub(&raw const WORDS as usize);
    if in_words < 4 * MOST_WORDS as usize {
        return START + in_words as u32;
    }
    let in_sentinels = (ptr as usize).wrapping_sub(&raw const SENTINELS as usize);
    assert!(
        in_sentinels < SENTINEL_BYTES as usize,
        "{ptr:?} points to no RAM"
    );
    __MEM_CHUNK_LINK_OFFSET + in_sentinels as u32
}

/// The first address behind RAM.
pub(crate) fn end_addr() -> u32 {
    unsafe { END }
}

/// Count one comparison of a free chunk with the wanted length.
pub(crate) fn count_compared() {
    unsafe { COMPARED += 1 }
}

/// Begin counting comparisons anew.
pub(crate) fn restart_count() {
    unsafe { COMPARED = 0 }
}

/// The comparisons counted.
pub(crate) fn compared() -> u32 {
    unsafe { COMPARED }
}

/// Put every static of `heap.rs` that `mcu_heap_init` leaves alone where a boot puts it, and let
/// RAM end after so many words of heap.
pub(crate) fn boot(words: u32) {
    unsafe {
        END = START + 4 * words;
        CACHED.store(core::ptr::null_mut(), Ordering::SeqCst);
        HIGH_WATER_MARK = 0;
        HIGH_WATER_MARK_JUST_UPDATED = false;
        CUR_ALLOC_SIZE = 0;
        MAX_ALLOC_SIZE = 0;
    }
    restart_count();
}

/// The word at an index of the memory.
pub(crate) fn word(index: u32) -> u32 {
    unsafe { *to_ptr(START + 4 * index) }
}

/// Write the word at an index of the memory, as a task or a loader would.
pub(crate) fn set_word(index: u32, value: u32) {
    unsafe { *to_ptr(START + 4 * index) = value }
}

/// The prev and the next link of the sentinel of a class.
pub(crate) fn sentinel_links(class: usize) -> (u16, u16) {
    unsafe { (SENTINELS[class].prev, SENTINELS[class].next) }
}

/// The address of the cached chunk's header, if there is one.
pub(crate) fn cached() -> Option<u32> {
    let hdr = unsafe { CACHED.load(Ordering::SeqCst) };
    (!hdr.is_null()).then(|| to_addr(hdr))
}

/// The sum of allocated sizes, and the largest that it has been.
pub(crate) fn in_use_and_peak() -> (u32, u32) {
    unsafe { (CUR_ALLOC_SIZE, MAX_ALLOC_SIZE) }
}
