//! The audit once more, written from the rules' paragraph "Sound" and from nothing else: plain, quadratic, to be read beside it.
//! It is what the proved audit is compared with.

use crate::record::Record;

/// A chunk of the tiling.
#[derive(Clone, Copy)]
pub struct Chunk {
    /// The word index of its header.
    pub word: usize,
    /// Its length in bytes.
    pub length: usize,
    pub used: bool,
    /// What its header says of the left neighbour.
    pub left_used: bool,
}

impl Chunk {
    /// The chunk that a header word tells of.
    fn at(word: usize, header: u32) -> Chunk {
        Chunk {
            word,
            length: (header - header % 4) as usize,
            used: header % 4 >= 2,
            left_used: header % 2 == 1,
        }
    }

    /// The first byte behind it.
    pub fn end(&self) -> usize {
        4 * self.word + self.length
    }

    /// The link that names it.
    pub fn link(&self) -> usize {
        self.word + 6
    }
}

/// The class of a chunk length.
pub fn class_of(length: usize) -> usize {
    match length {
        512.. => 5,
        256.. => 4,
        128.. => 3,
        64.. => 2,
        32.. => 1,
        _ => 0,
    }
}

/// The chunks up to the guard, or nothing if they do not tile the words.
pub fn tiling(words: &[u32]) -> Option<Vec<Chunk>> {
    let guard = words.len().checked_sub(1)?;
    let mut chunks = Vec::new();
    let mut word = 0;
    while word < guard {
        let chunk = Chunk::at(word, words[word]);
        if chunk.length % 8 != 0 || chunk.length < 16 || chunk.end() > 4 * guard {
            return None;
        }
        chunks.push(chunk);
        word = chunk.end() / 4;
    }
    let last = Chunk::at(guard, words[guard]);
    (last.length == 0 && last.used).then_some(chunks)
}

/// Whether record and words are sound, with that many cache places.
pub fn sound(record: &Record, words: &[u32], places: usize) -> bool {
    let accepted = words.len() % 2 == 1 && (5..=65_529).contains(&words.len());
    if record.words as usize != words.len() || !accepted {
        return false;
    }
    tiling(words).is_some_and(|chunks| {
        left_bits_right(words, &chunks)
            && no_two_free_touch(&chunks)
            && footers_right(words, &chunks)
            && (0..6).all(|class| list_right(record, words, &chunks, class))
            && cached_right(&record.cached_links(), &chunks, places)
            && figures_right(record, words, &chunks)
    })
}

/// Whether every left bit is right, the guard's too; the first chunk's left counts as used.
fn left_bits_right(words: &[u32], chunks: &[Chunk]) -> bool {
    let guard = Chunk::at(words.len() - 1, words[words.len() - 1]);
    let mut left_used = true;
    for chunk in chunks.iter().chain([&guard]) {
        if chunk.left_used != left_used {
            return false;
        }
        left_used = chunk.used;
    }
    true
}

/// Whether of any two neighbours one is used.
fn no_two_free_touch(chunks: &[Chunk]) -> bool {
    chunks.windows(2).all(|pair| pair[0].used || pair[1].used)
}

/// Whether the last word of each free chunk is its length.
fn footers_right(words: &[u32], chunks: &[Chunk]) -> bool {
    let mut free = chunks.iter().filter(|chunk| !chunk.used);
    free.all(|chunk| words[chunk.end() / 4 - 1] as usize == chunk.length)
}

/// Whether a class list, followed from its sentinel, holds exactly the free chunks of the class, each once, prev mirroring next.
fn list_right(record: &Record, words: &[u32], chunks: &[Chunk], class: usize) -> bool {
    let belongs = |chunk: &&Chunk| !chunk.used && class_of(chunk.length) == class;
    let wanted: Vec<usize> = chunks.iter().filter(belongs).map(Chunk::link).collect();
    let mut listed = Vec::new();
    let mut last = class;
    loop {
        let next = next_of(record, words, last);
        let known = next == class || wanted.contains(&next);
        if !known || listed.contains(&next) || prev_of(record, words, next) != last {
            return false;
        }
        if next == class {
            return listed.len() == wanted.len();
        }
        listed.push(next);
        last = next;
    }
}

/// The next link of a sentinel or of a chunk of the tiling.
fn next_of(record: &Record, words: &[u32], link: usize) -> usize {
    if link < 6 {
        record.next[link] as usize
    } else {
        (words[link - 5] >> 16) as usize
    }
}

/// The prev link of a sentinel or of a chunk of the tiling.
fn prev_of(record: &Record, words: &[u32], link: usize) -> usize {
    if link < 6 {
        record.prev[link] as usize
    } else {
        (words[link - 5] & 0xFFFF) as usize
    }
}

/// Whether the cached chunks are used ones, all different, and no more than there are places.
fn cached_right(cached: &[u16], chunks: &[Chunk], places: usize) -> bool {
    let used = |link: usize| {
        chunks
            .iter()
            .any(|chunk| chunk.used && chunk.link() == link)
    };
    let alike = |at: usize| cached[..at].contains(&cached[at]);
    cached.len() <= places
        && cached.iter().all(|link| used(*link as usize))
        && !(0..cached.len()).any(alike)
}

/// Whether bytes in use, bytes committed, peak, high water and its flag are right. A chunk is live if used and not cached.
fn figures_right(record: &Record, words: &[u32], chunks: &[Chunk]) -> bool {
    let used: Vec<&Chunk> = chunks.iter().filter(|chunk| chunk.used).collect();
    let cached = record.cached_links();
    let is_live = |chunk: &&&Chunk| !cached.contains(&(chunk.link() as u16));
    let live: usize = used.iter().filter(is_live).map(|chunk| chunk.length).sum();
    let sum: usize = used.iter().map(|chunk| chunk.length).sum();
    let high = record.high as usize;
    record.in_use as usize == live
        && record.committed as usize == sum
        && record.committed <= record.peak
        && record.peak <= record.high
        && high <= 4 * words.len() - 4
        && high % 8 == 0
        && record.fresh <= 1
        && used.iter().all(|chunk| chunk.end() <= high)
}
