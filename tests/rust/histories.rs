//! Random histories, side by side with Hopter's heap.rs in the same process: with one cache place, as it has.
//!
//! After each request answer, offset, compared count, counters, cached chunk, the sentinels' links and
//! every tag of the tiling are equal, links by the chunk or sentinel that they name, and the map has a line
//! for each chunk of the Rust's. Inside the
//! compared domain (lengths up to 65,527, sizes up to 4,294,967,284, frees of live payloads) the Rust is
//! asked; a request outside it must be refused by name and change nothing. Tasks find their payloads
//! empty, which the Rust's need not be, write all over them, and find them as they left them.
//!
//! The port empties its cache before it says no, and the Rust does not; and the port says never where the Rust
//! may serve from its cache. A request that one of them would serve and the other refuse, by a plain reading of the
//! Rust's headers, is left out. Of one that both refuse the counts are not compared, since the port searches
//! twice; it is never where the whole heap does not reach the threshold, and every word must be as before.

use crate::checks::{set_word, state, word, Checks, Numbers};
use lischemur::{map_room, Heap, Kind, Memory, Offset, Refusal, MOST_SIZE};
use oracle::{Name, Oracle, MOST_WORDS};
use std::collections::BTreeMap;

/// How many random histories are run.
const HISTORIES: u64 = 4_000;

/// Both heaps, and what tasks know.
struct Pair<'a> {
    heap: Heap<'a>,
    oracle: &'a mut Oracle,
    /// Live payloads: their offsets, and what their tasks wrote.
    live: BTreeMap<u32, Vec<u32>>,
    numbers: Numbers,
    /// Requests put to both, and requests left out because the two part.
    counts: Counts,
}

/// Requests put to both, and requests left out because the two part.
#[derive(Clone, Copy, Default)]
pub struct Counts {
    pub compared: u32,
    pub left_out: u32,
}

/// What a link of the port names.
fn name_of(link: u16) -> Name {
    match link {
        0..=5 => Name::Sentinel(link as usize),
        _ => Name::Chunk(4 * (link as u32 - 6)),
    }
}

impl Pair<'_> {
    /// Check that both heaps are in the same state.
    fn same(&self, checks: &mut Checks) {
        let (heap, oracle, record) = (&self.heap, &*self.oracle, self.heap.record());
        // the Rust's bytes in use are committed here, and bytes in use are what tasks hold
        let length = |offset: &u32| oracle.header(offset - 4).0;
        let held: u32 = self.live.keys().map(length).sum();
        checks.equal(format_args!("in use"), heap.in_use(), held);
        let committed = (heap.committed(), oracle.in_use());
        checks.equal(format_args!("committed"), committed.0, committed.1);
        checks.equal(format_args!("peak"), heap.peak(), oracle.peak());
        checks.equal(format_args!("high water"), heap.high_water(), oracle.high());
        checks.equal(
            format_args!("its flag"),
            record.fresh,
            oracle.fresh() as u32,
        );
        let [first, rest @ ..] = record.cached;
        let cached = (first > 0).then(|| 4 * (first as u32 - 6));
        checks.equal(format_args!("other cache places"), rest, [0; 3]);
        checks.equal(format_args!("cached chunk"), cached, oracle.cached());
        for class in 0..6 {
            let links = (name_of(record.prev[class]), name_of(record.next[class]));
            let held = links == oracle.sentinel_links(class);
            checks.holds(format_args!("sentinel {class}'s links"), held);
        }
        let mut at = 0;
        let mut lines = String::new();
        while at < oracle.words() {
            let header = word(heap, at);
            checks.equal(format_args!("header at word {at}"), header, oracle.word(at));
            let len = (header & !3) / 4;
            if header & 2 == 0 {
                let links = word(heap, at + 1);
                let names = (name_of(links as u16), name_of((links >> 16) as u16));
                let held = names == oracle.links(at + 1);
                checks.holds(format_args!("links at word {at}"), held);
                let foot = at + len - 1;
                checks.equal(format_args!("footer"), word(heap, foot), oracle.word(foot));
            }
            let kind = match header & 2 {
                0 => 10,
                _ if cached == Some(4 * at) => 12,
                _ => 11,
            };
            if len > 0 {
                lines += &format!("{kind}{:08X}{:08X}\n", 4 * at, 4 * len);
            }
            at += len.max(1);
        }
        let mut room = vec![0; map_room(oracle.words() as usize)];
        let map = heap.write_map(&mut room);
        checks.equal(format_args!("map"), map, Ok(lines.as_bytes()));
    }

    /// Write a word of a payload, or of memory before a heap is made, on both sides.
    fn write(&mut self, index: u32, value: u32) {
        set_word(&self.heap, index, value);
        // SAFETY: the word is a live payload's, or no heap is made there yet.
        unsafe { self.oracle.set_word(index, value) }
    }

    /// Make a heap on both sides, in words that look like headers, footers and links.
    fn make(&mut self, checks: &mut Checks, words: u32) {
        for index in 0..words {
            let value = self.numbers.below(256);
            self.write(index, value);
        }
        checks.equal(format_args!("making"), self.heap.make_again(), Ok(()));
        self.oracle.make(words);
        self.same(checks);
    }

    /// The least length of a free chunk that serves a size.
    fn threshold(size: u32) -> u32 {
        let chunk = (size + 4).max(16).div_ceil(8) * 8;
        match chunk {
            0..=511 => (chunk + 1).next_power_of_two(),
            _ => chunk,
        }
    }

    /// Whether the whole heap does not reach the threshold for a size.
    fn never(&self, size: u32) -> bool {
        Self::threshold(size) > 4 * self.oracle.words() - 4
    }

    /// Whether a request is one that the Rust refuses and the port serves, or the other way round. The Rust: its cached
    /// chunk serves it, or a free chunk reaches the threshold. The port: the cached chunk serves it, or a run of
    /// touching chunks that are free or cached reaches the threshold; but not where it can never fit.
    fn parts(&self, size: u32) -> bool {
        if !(1..=MOST_SIZE).contains(&size) {
            return false;
        }
        let oracle = &*self.oracle;
        let chunk = (size + 4).max(16).div_ceil(8) * 8;
        let threshold = Self::threshold(size);
        let cached = oracle.cached();
        let length = cached.map_or(0, |at| oracle.header(at).0);
        let serves = (chunk..=chunk.saturating_add(512)).contains(&length);
        let (mut at, mut run, mut free, mut longest) = (0, 0, 0, 0);
        while at + 4 < 4 * oracle.words() {
            let (length, used) = oracle.header(at);
            free = if used { free } else { length.max(free) };
            run = match used && cached != Some(at) {
                true => 0,
                false => run + length,
            };
            longest = run.max(longest);
            at += length;
        }
        let rust = serves || free >= threshold;
        let port = (serves || longest >= threshold) && !self.never(size);
        rust != port
    }

    /// Ask for bytes on both sides, unless the two part.
    fn hand_out(&mut self, checks: &mut Checks, size: u32) {
        if self.parts(size) {
            self.counts.left_out += 1;
            return;
        }
        self.counts.compared += 1;
        let before = state(&self.heap, self.oracle.words());
        let got = if self.numbers.below(2) == 0 {
            self.heap.hand_out(size)
        } else {
            let payload = self.heap.alloc(size as usize);
            payload.map(|at| self.heap.offset(at).expect("a payload lies inside"))
        };
        let wanted = match size {
            0 => Err(Refusal::ZeroSize),
            _ if size > MOST_SIZE => Err(Refusal::TooLarge),
            _ => match self.oracle.hand_out(size) {
                Some(offset) => Ok(Offset(offset)),
                None if self.never(size) => Err(Refusal::NeverFits),
                None => Err(Refusal::NoFit),
            },
        };
        checks.equal(format_args!("asked for {size}"), got, wanted);
        if got.is_err() {
            let after = state(&self.heap, self.oracle.words());
            checks.holds(format_args!("nothing has changed"), after == before);
        }
        if got.is_ok() {
            let compared = (self.heap.compared(), self.oracle.compared());
            checks.equal(format_args!("compared"), compared.0, compared.1);
        } else if got != Err(Refusal::NoFit) {
            checks.equal(format_args!("compared"), self.heap.compared(), 0);
        }
        if let Ok(Offset(offset)) = got {
            let before = self.live.insert(offset, Vec::new());
            checks.equal(format_args!("a payload live already"), before, None);
        }
        self.same(checks);
        let Ok(Offset(offset)) = got else { return };
        let end = (offset - 4 + (word(&self.heap, offset / 4 - 1) & !3)) / 4;
        checks.holds(format_args!("payload of {size}"), 4 * end - offset >= size);
        let mut written = Vec::new();
        let empty = (offset / 4..end).all(|index| word(&self.heap, index) == 0);
        checks.holds(format_args!("payload of {size} arrives empty"), empty);
        for index in offset / 4..end {
            let value = self.numbers.below(256);
            self.write(index, value);
            written.push(value);
        }
        self.live.insert(offset, written);
    }

    /// Take back on both sides; the Rust is asked if the payload is live.
    fn take_back(&mut self, checks: &mut Checks, offset: u32) {
        self.counts.compared += 1;
        let written = self.live.remove(&offset);
        if let Some(written) = &written {
            let now: Vec<u32> = (offset / 4..)
                .take(written.len())
                .map(|index| word(&self.heap, index))
                .collect();
            checks.equal(format_args!("payload at {offset}"), &now, written);
        }
        let got = match self.heap.pointer(Offset(offset)) {
            Some(payload) if self.numbers.below(2) == 0 => self.heap.free(payload),
            _ => self.heap.take_back(Offset(offset)),
        };
        let wanted = match written {
            Some(_) => Ok(()),
            None => Err(Refusal::NotLive),
        };
        checks.equal(format_args!("free of {offset}"), got, wanted);
        checks.equal(format_args!("compared"), self.heap.compared(), 0);
        if written.is_some() {
            // SAFETY: the payload is live, and the cached chunk was so when it was freed.
            unsafe { self.oracle.take_back(offset) }
        }
        self.same(checks);
    }

    /// One request.
    fn step(&mut self, checks: &mut Checks, words: u32) {
        let size = match self.numbers.below(16) {
            0..=5 => 1 + self.numbers.below(64),
            6..=7 => 1 + self.numbers.below(600),
            8 => 1 + self.numbers.below(4 * words),
            9 => self
                .numbers
                .one_of(&[0, MOST_SIZE, MOST_SIZE + 1, u32::MAX]),
            10 => {
                let outside = [4 * words, u32::MAX, 0, 4, self.numbers.below(4 * words)];
                let offset = self.numbers.one_of(&outside);
                return self.take_back(checks, offset);
            }
            _ => {
                let nth = self.numbers.below(self.live.len().max(1) as u32);
                let Some(&offset) = self.live.keys().nth(nth as usize) else {
                    return self.take_back(checks, 4);
                };
                self.take_back(checks, offset);
                if self.numbers.below(8) == 0 {
                    self.take_back(checks, offset);
                }
                return;
            }
        };
        self.hand_out(checks, size);
    }
}

/// Run one history; how many requests were compared, and how many left out.
fn history(
    checks: &mut Checks,
    oracle: &mut Oracle,
    seed: u64,
    words: u32,
    requests: u32,
) -> Counts {
    checks.begin(format!("history {seed} on {words} words"));
    let mut memory = Box::new(Memory::<{ MOST_WORDS as usize }>::new());
    let lent = &mut memory.words()[..words as usize];
    let mut pair = Pair {
        heap: Heap::over_as(Kind::One, Default::default(), lent),
        oracle,
        live: BTreeMap::new(),
        numbers: Numbers::new(seed + 1),
        counts: Counts::default(),
    };
    pair.make(checks, words);
    for _ in 0..requests {
        pair.step(checks, words);
    }
    checks.holds(format_args!("sound at the end"), pair.heap.audit());
    pair.counts
}

/// Run all; how many requests were compared, and how many left out.
pub fn run(checks: &mut Checks, oracle: &mut Oracle) -> Counts {
    let mut all = Counts::default();
    for seed in 0..=HISTORIES {
        let numbers = &mut Numbers::new(1_000_000 + seed);
        let most = numbers.one_of(&[20, 100, 400, 1200]);
        let words = 5 + 2 * numbers.below(most / 2);
        let steps = 20 + numbers.below(160);
        let counts = match seed {
            HISTORIES => history(checks, oracle, seed, MOST_WORDS, 60),
            _ => history(checks, oracle, seed, words, steps),
        };
        all.compared += counts.compared;
        all.left_out += counts.left_out;
    }
    all
}
