//! The heap as a program's global allocator, on the host.
//!
//! The lock is the program's own: a flag that is spun on. What the heap refuses, and an alignment above
//! 8, is a null pointer, as `GlobalAlloc` asks. Prints what was in use and committed, and the peak, three times.

use std::alloc::{GlobalAlloc, Layout};
use std::cell::UnsafeCell;
use std::hint::{black_box, spin_loop};
use std::ptr::{null_mut, NonNull};
use std::sync::atomic::{AtomicBool, AtomicU32, Ordering};

use lischemur::{Heap, StaticMemory};

/// The heap's memory: 65,532 bytes.
static MEMORY: StaticMemory<16_383> = StaticMemory::new();

/// The allocator of this whole program.
#[global_allocator]
static HEAP: Locked = Locked {
    locked: AtomicBool::new(false),
    heap: UnsafeCell::new(None),
    refused_frees: AtomicU32::new(0),
};

/// A heap behind a lock, made when it is first asked for something.
struct Locked {
    /// On while a thread is inside.
    locked: AtomicBool,
    /// The heap; touched by the thread that turned the flag on, and by no other.
    heap: UnsafeCell<Option<Heap<'static>>>,
    /// Frees that the heap refused. A sound program has none.
    refused_frees: AtomicU32,
}

// SAFETY: `with` lets one thread at a time at the heap.
unsafe impl Sync for Locked {}

impl Locked {
    /// Do something with the heap, alone. Nothing if it could not be made.
    ///
    /// What is done must not allocate: the lock would wait for itself.
    fn with<T>(&self, act: impl FnOnce(&mut Heap<'static>) -> T) -> Option<T> {
        while self.locked.swap(true, Ordering::Acquire) {
            spin_loop();
        }
        // SAFETY: the flag was off and this thread turned it on, so no other one is here.
        let heap = unsafe { &mut *self.heap.get() };
        if heap.is_none() {
            *heap = MEMORY.take().and_then(|words| Heap::make(words).ok());
        }
        let done = heap.as_mut().map(act);
        self.locked.store(false, Ordering::Release);
        done
    }
}

// SAFETY: a payload is good for its size and 8-aligned (the memory starts 4 mod 8), overlaps no other
// live one, and is left alone until it is freed. A refusal is null. Nothing here unwinds.
unsafe impl GlobalAlloc for Locked {
    unsafe fn alloc(&self, layout: Layout) -> *mut u8 {
        if layout.align() > 8 {
            return null_mut();
        }
        match self.with(|heap| heap.alloc(layout.size())) {
            Some(Ok(payload)) => payload.as_ptr(),
            _ => null_mut(),
        }
    }

    // a payload arrives empty
    unsafe fn alloc_zeroed(&self, layout: Layout) -> *mut u8 {
        self.alloc(layout)
    }

    unsafe fn dealloc(&self, payload: *mut u8, _: Layout) {
        let freed = NonNull::new(payload).and_then(|payload| self.with(|heap| heap.free(payload)));
        if freed != Some(Ok(())) {
            self.refused_frees.fetch_add(1, Ordering::Relaxed);
        }
    }
}

/// Print what is in use and committed now, and the most that was committed.
fn show(when: &str) {
    let figures = HEAP.with(|heap| (heap.in_use(), heap.committed(), heap.peak()));
    if let Some((in_use, committed, peak)) = figures {
        println!("{when}: {in_use} bytes in use, {committed} committed, peak {peak}");
    }
}

fn main() {
    show("at the start");

    let squares: Vec<Box<u64>> = (0..100).map(|n| Box::new(n * n)).collect();
    let sum: u64 = squares.iter().map(|square| **square).sum();
    assert_eq!(sum, 328_350);
    assert!(squares.iter().all(|b| &raw const **b as usize % 8 == 0));
    show("with 100 boxes");

    let mut large: Vec<u8> = Vec::new();
    assert!(large.try_reserve_exact(100_000).is_err());
    let layout = Layout::from_size_align(64, 16).expect("16 is a power of two");
    // SAFETY: the size is not zero. The black box keeps the compiler from leaving the call out.
    let wide = black_box(unsafe { std::alloc::alloc(layout) });
    assert!(wide.is_null());
    println!("100000 bytes, and an alignment of 16: refused");

    drop(squares);
    show("without them");
    println!(
        "sound: {}, refused frees: {}",
        HEAP.with(|heap| heap.audit()).unwrap_or(false),
        HEAP.refused_frees.load(Ordering::Relaxed)
    );
}
