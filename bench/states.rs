//! Heaps in the states that are measured: a door with its record and words, and how such a heap is brought into a shape.

use crate::door::Door;
use crate::record::{Record, Reply};

/// The words of the long heaps.
pub const WORDS: u32 = 16_383;

/// The words of a page. Every heap begins at the same place of one, so that none is favoured by where its words lie.
const PAGE: usize = 1024;

/// A heap behind a door.
pub struct Heap {
    door: Door,
    pub record: Record,
    pub words: &'static mut [u32],
}

/// What a state is made by: asks of one size, of which every so-many-th is freed, and asks that stay.
pub struct Shape {
    pub words: u32,
    pub asks: u32,
    pub size: u32,
    pub free_every: u32,
    /// The last one is freed first, so that the first chunk is the cached one at the end.
    pub backwards: bool,
}

/// Something that asks and frees: the port or the Rust.
pub trait Requests {
    /// Ask for bytes that there are.
    fn ask(&mut self, size: u32) -> u32;
    /// Free a live payload.
    fn free(&mut self, payload: u32);
}

impl Heap {
    /// A heap that was just made. Its words start at 4 mod 8, as payloads want it, and are never given back.
    pub fn made(door: Door, words: u32) -> Heap {
        let memory = vec![0; words as usize + 2 * PAGE].leak();
        let start = memory.as_ptr().align_offset(4 * PAGE) + 1;
        let mut heap = Heap {
            door,
            record: Record::default(),
            words: &mut memory[start..start + words as usize],
        };
        let reply = door.make(&mut heap.record, heap.words, words);
        assert_eq!(reply.number, 0, "{words} words are made");
        heap
    }

    /// Ask for bytes, whatever the reply.
    pub fn hand_out(&mut self, size: u32) -> Reply {
        self.door.hand_out(&mut self.record, self.words, size)
    }

    /// Whether the heap is sound: 1 or 0.
    pub fn audit(&self) -> u32 {
        self.door.audit(&self.record, self.words)
    }

    /// How many chunks are used and free.
    pub fn counts(&self) -> (usize, usize) {
        let words = &self.words;
        let (mut at, mut used, mut free) = (0, 0, 0);
        while at + 1 < words.len() {
            if words[at] % 4 >= 2 {
                used += 1;
            } else {
                free += 1;
            }
            at += (words[at] / 8 * 2) as usize;
        }
        (used, free)
    }
}

impl Requests for Heap {
    fn ask(&mut self, size: u32) -> u32 {
        let reply = self.hand_out(size);
        assert_eq!(reply.number, 0, "there is room");
        reply.value
    }

    fn free(&mut self, payload: u32) {
        let reply = self.door.take_back(&mut self.record, self.words, payload);
        assert_eq!(reply.number, 0, "the payload is live");
    }
}

/// Bring a heap that was just made into a shape.
pub fn bring(heap: &mut impl Requests, shape: &Shape) {
    let payloads: Vec<u32> = (0..shape.asks).map(|_| heap.ask(shape.size)).collect();
    if shape.free_every == 0 {
        return;
    }
    let mut frees: Vec<u32> = payloads
        .into_iter()
        .step_by(shape.free_every as usize)
        .collect();
    if shape.backwards {
        frees.reverse();
    }
    for payload in frees {
        heap.free(payload);
    }
}

/// A shape of the long heap; the last chunk freed, so the cached one, is the last of the heap unless it is brought backwards.
pub fn long(asks: u32, size: u32, free_every: u32) -> Shape {
    Shape {
        words: WORDS,
        asks,
        size,
        free_every,
        backwards: false,
    }
}
