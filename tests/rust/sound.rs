//! The rules' soundness, written again from their text, to judge the audit by. It goes its own way: it
//! lists all chunks first and compares whole lists.

use lischemur::{accepted, Record};

/// A chunk of the tiling.
struct Chunk {
    /// The index of its header.
    at: usize,
    /// Its length in words.
    len: usize,
    /// Whether it is marked used.
    used: bool,
}

/// The class of a length in bytes.
fn class_of(bytes: usize) -> usize {
    match bytes {
        0..=31 => 0,
        32..=63 => 1,
        64..=127 => 2,
        128..=255 => 3,
        256..=511 => 4,
        _ => 5,
    }
}

/// The chunks up to the guard, if they tile the words with right tags.
fn tiling(words: &[u32]) -> Option<Vec<Chunk>> {
    let guard = words.len() - 1;
    let mut chunks: Vec<Chunk> = Vec::new();
    let mut at = 0;
    loop {
        let header = words[at];
        let (len, used) = ((header & !3) as usize, header & 2 != 0);
        let left_used = chunks.last().is_none_or(|left| left.used);
        if (header & 1 != 0) != left_used {
            return None;
        }
        if at == guard {
            return (len == 0 && used).then_some(chunks);
        }
        if len % 8 != 0 || len < 16 || at + len / 4 > guard {
            return None;
        }
        if !used && (!left_used || words[at + len / 4 - 1] as usize != len) {
            return None;
        }
        chunks.push(Chunk {
            at,
            len: len / 4,
            used,
        });
        at += len / 4;
    }
}

/// Whether a class list, followed from its sentinel, holds exactly these headers, each once, prev
/// mirroring next.
fn listed(record: &Record, words: &[u32], class: usize, mut free: Vec<usize>) -> bool {
    let mut before = class as u16;
    let mut link = record.next[class];
    while link != class as u16 {
        let Some(place) = free.iter().position(|at| at + 6 == link as usize) else {
            return false;
        };
        let at = free.swap_remove(place);
        let (prev, next) = (words[at + 1] as u16, (words[at + 1] >> 16) as u16);
        if prev != before {
            return false;
        }
        before = link;
        link = next;
    }
    free.is_empty() && record.prev[class] == before
}

/// Whether a record and words are sound.
pub fn sound(record: &Record, words: &[u32], places: usize) -> bool {
    if record.words as usize != words.len() || !accepted(words.len()) {
        return false;
    }
    let Some(chunks) = tiling(words) else {
        return false;
    };
    for class in 0..6 {
        let free = chunks
            .iter()
            .filter(|chunk| !chunk.used && class_of(4 * chunk.len) == class);
        if !listed(record, words, class, free.map(|chunk| chunk.at).collect()) {
            return false;
        }
    }
    let used = chunks.iter().filter(|chunk| chunk.used);
    let committed: usize = used.clone().map(|chunk| 4 * chunk.len).sum();
    // the cached chunks: the links up to the last that is not 0
    let last = record.cached.iter().rposition(|link| *link != 0);
    let cached = &record.cached[..last.map_or(0, |at| at + 1)];
    let is_cached = |chunk: &&Chunk| cached.contains(&(chunk.at as u16 + 6));
    let found = used.clone().filter(is_cached);
    let in_use = committed - found.clone().map(|chunk| 4 * chunk.len).sum::<usize>();
    let end = used.clone().map(|chunk| 4 * (chunk.at + chunk.len)).max();
    // each of them is a used chunk, and no two are one
    found.count() == cached.len()
        && cached.len() <= places
        && record.in_use as usize == in_use
        && record.committed as usize == committed
        && record.committed <= record.peak
        && record.peak <= record.high
        && record.high as usize <= 4 * words.len() - 4
        && record.high % 8 == 0
        && record.fresh <= 1
        && end.is_none_or(|end| end <= record.high as usize)
}
