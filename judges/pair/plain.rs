//! The rules without words: a table of chunks, six orders and a cache, as docs/RULES.md says them and in its order. Nothing here knows of tags,
//! links or memory, and nothing is shared with the model, the audits or the Rust: it is a judge of its own, for any number of cache places.
//! Offsets are bytes from the heap's start; a chunk is named by its header's.

/// The limits of the rules.
const LARGEST_SIZE: u32 = 4_294_967_284;
const LEAST_CHUNK: u32 = 16;
const LEAST_REMAINDER: u32 = 12;
const SLACK: u32 = 512;
const STACKLET: i64 = 108;

/// A chunk: its header's offset, its length, and whether it is used.
#[derive(Clone, Copy, Debug, PartialEq)]
pub struct Chunk {
    pub start: u32,
    pub length: u32,
    pub used: bool,
}

/// An answer: number, value, free chunks compared.
pub type Answer = (u32, u32, u32);

/// A heap by the rules.
#[derive(Clone, Debug, Default)]
pub struct Plain {
    /// How many cache places there are.
    places: usize,
    /// The heap's words, 0 before one is made.
    pub words: u32,
    /// The chunks from left to right.
    pub chunks: Vec<Chunk>,
    /// The free chunks of each class, from the list's head.
    pub lists: [Vec<u32>; 6],
    /// The cached chunks, oldest first.
    pub cache: Vec<u32>,
    pub in_use: u32,
    pub committed: u32,
    pub peak: u32,
    pub high: u32,
    /// Whether high water was just updated.
    pub fresh: bool,
}

/// The chunk length that serves a size.
fn rounded(size: u32) -> u32 {
    (size + 4).max(LEAST_CHUNK).div_ceil(8) * 8
}

/// The least length of a listed chunk that serves a rounded size: below 512 the next power of two above it, from 512 on itself.
fn threshold(s: u32) -> u32 {
    let powers = [32, 64, 128, 256, 512];
    powers.into_iter().find(|power| *power > s).unwrap_or(s)
}

/// The class of a length.
fn class(length: u32) -> usize {
    [32, 64, 128, 256, 512]
        .iter()
        .filter(|least| length >= **least)
        .count()
}

impl Plain {
    /// No heap yet, with that many cache places.
    pub fn new(places: usize) -> Plain {
        Plain {
            places,
            ..Plain::default()
        }
    }

    /// Make a heap of that many words, of which that many are lent.
    pub fn make(&mut self, lent: u32, words: u32) -> Answer {
        if lent != words || words % 2 == 0 || !(5..=65_529).contains(&words) {
            return (6, 0, 0);
        }
        *self = Plain {
            places: self.places,
            words,
            ..Plain::default()
        };
        self.chunks.push(Chunk {
            start: 0,
            length: 4 * words - 4,
            used: false,
        });
        self.list(0);
        (0, 0, 0)
    }

    /// Hand out a payload of so many bytes.
    pub fn hand_out(&mut self, size: u32) -> Answer {
        if size == 0 {
            return (1, 0, 0);
        }
        if size > LARGEST_SIZE {
            return (2, 0, 0);
        }
        if self.words == 0 {
            return (5, 0, 0);
        }
        let s = rounded(size);
        if threshold(s) > 4 * self.words - 4 {
            return (8, 0, 0);
        }
        if let Some(start) = self.from_cache(s) {
            return (0, start + 4, 0);
        }
        let (found, compared) = self.search(s);
        let Some(start) = found else {
            return self.from_merged(s, compared);
        };
        self.take(start, s);
        (0, start + 4, compared)
    }

    /// Step 1: the oldest cached chunk with a slack of 0 to 512 leaves the cache, and the others keep their order.
    fn from_cache(&mut self, s: u32) -> Option<u32> {
        let lengths = self.cache.iter().map(|start| self.at(*start).length);
        let oldest = lengths
            .map(|length| length.checked_sub(s))
            .position(|slack| slack.is_some_and(|slack| slack <= SLACK))?;
        let start = self.cache.remove(oldest);
        self.in_use += self.at(start).length;
        Some(start)
    }

    /// Step 2: the first chunk that is long enough, from the start class upwards, and how many were compared.
    fn search(&self, s: u32) -> (Option<u32>, u32) {
        let mut compared = 0;
        for list in &self.lists[(class(s) + 1).min(5)..] {
            for start in list {
                compared += 1;
                if self.at(*start).length >= s {
                    return (Some(*start), compared);
                }
            }
        }
        (None, compared)
    }

    /// Step 2 goes on where nothing was found: every cached chunk is released, oldest first, and the lists are searched once more. Nothing
    /// again: the heap stays as it was.
    fn from_merged(&mut self, s: u32, compared: u32) -> Answer {
        let mut merged = self.clone();
        for start in std::mem::take(&mut merged.cache) {
            merged.release(start);
        }
        let (found, more) = merged.search(s);
        let Some(start) = found else {
            return (3, 0, compared + more);
        };
        merged.take(start, s);
        *self = merged;
        (0, start + 4, compared + more)
    }

    /// Steps 2 to 4: a free chunk leaves its list, what remains is listed, and the counters follow.
    fn take(&mut self, start: u32, s: u32) {
        self.unlist(start);
        let row = self.row(start);
        let rest = self.chunks[row].length - s;
        if rest >= LEAST_REMAINDER {
            self.chunks[row].length = s;
            let remainder = Chunk {
                start: start + s,
                length: rest,
                used: false,
            };
            self.chunks.insert(row + 1, remainder);
            self.list(remainder.start);
        }
        self.chunks[row].used = true;
        let Chunk { length, .. } = self.chunks[row];
        if start + length > self.high {
            self.high = start + length;
            self.fresh = true;
        }
        self.in_use += length;
        self.committed += length;
        self.peak = self.peak.max(self.committed);
    }

    /// Take back the payload at an offset.
    pub fn take_back(&mut self, payload: u32) -> Answer {
        if self.words == 0 {
            return (5, 0, 0);
        }
        let live = |chunk: &&Chunk| chunk.used && !self.cache.contains(&chunk.start);
        let mut live = self.chunks.iter().filter(live);
        let Some(chunk) = live.find(|chunk| chunk.start + 4 == payload).copied() else {
            return (4, 0, 0);
        };
        self.in_use -= chunk.length;
        if self.cache.len() == self.places {
            let oldest = self.cache.remove(0);
            self.release(oldest);
        }
        self.cache.push(chunk.start);
        (0, 0, 0)
    }

    /// A used chunk merges with its free neighbours and is listed.
    fn release(&mut self, start: u32) {
        let mut row = self.row(start);
        self.committed -= self.chunks[row].length;
        self.chunks[row].used = false;
        if row + 1 < self.chunks.len() && !self.chunks[row + 1].used {
            self.unlist(self.chunks[row + 1].start);
            self.chunks[row].length += self.chunks.remove(row + 1).length;
        }
        if row > 0 && !self.chunks[row - 1].used {
            row -= 1;
            self.unlist(self.chunks[row].start);
            self.chunks[row].length += self.chunks.remove(row + 1).length;
        }
        self.list(self.chunks[row].start);
    }

    /// The mark, or nothing if high water was not just updated; the flag clears.
    pub fn mark(&mut self, stacklets: u32) -> Option<i64> {
        let fresh = std::mem::take(&mut self.fresh);
        fresh.then(|| self.high as i64 - STACKLET * stacklets as i64)
    }

    /// The row of the chunk at an offset.
    fn row(&self, start: u32) -> usize {
        let row = self
            .chunks
            .binary_search_by_key(&start, |chunk| chunk.start);
        row.expect("a chunk begins there")
    }

    /// The chunk at an offset.
    pub fn at(&self, start: u32) -> Chunk {
        self.chunks[self.row(start)]
    }

    /// Put a free chunk at the head of its class list.
    fn list(&mut self, start: u32) {
        self.lists[class(self.at(start).length)].insert(0, start);
    }

    /// Take a free chunk out of its class list.
    fn unlist(&mut self, start: u32) {
        self.lists[class(self.at(start).length)].retain(|other| *other != start);
    }
}
