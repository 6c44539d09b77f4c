//! Damage: sound records and words changed in one place or two, as a stray write or a broken kernel would. Some changes leave the
//! heap sound; whether they do is for the two audits to say.

use crate::audit::{class_of, tiling, Chunk};
use crate::numbers::Numbers;
use crate::pair::misleading;
use crate::record::Record;

/// A record and its words, to be damaged.
#[derive(Clone, PartialEq)]
pub struct State {
    pub record: Record,
    pub words: Vec<u32>,
}

impl State {
    /// Whether every word of the payload at an offset is 0, up to its chunk's end.
    pub fn is_empty(&self, payload: u32) -> bool {
        let first = payload as usize / 4;
        let end = first - 1 + self.words[first - 1] as usize / 4;
        self.words[first..end].iter().all(|word| *word == 0)
    }

    /// Damage it in one way, drawn at random; which.
    pub fn damage(&mut self, numbers: &mut Numbers) -> &'static str {
        let chunks = tiling(&self.words).unwrap_or_default();
        let free: Vec<Chunk> = chunks.iter().copied().filter(|chunk| !chunk.used).collect();
        let used: Vec<Chunk> = chunks.iter().copied().filter(|chunk| chunk.used).collect();
        match numbers.below(9) {
            0 => self.change_field(numbers),
            1 => self.change_figure(numbers, &chunks),
            2 if !self.words.is_empty() => self.change_word(numbers),
            3 | 4 if !chunks.is_empty() => self.change_chunk(numbers, &chunks),
            5 | 6 if !free.is_empty() => self.change_lists(numbers, &free),
            7 if !used.is_empty() => self.change_used(numbers, &used),
            8 if !used.is_empty() => self.change_cache(numbers, &used, &free),
            _ => self.change_length(numbers),
        }
    }

    /// A field of the record becomes any number or a near one; or bytes in use and committed change places.
    fn change_field(&mut self, numbers: &mut Numbers) -> &'static str {
        let class = numbers.below(6) as usize;
        let link = self.some_link(numbers);
        let number = numbers.next() as u32;
        match numbers.below(10) {
            0 => self.record.prev[class] = link,
            1 => self.record.next[class] = link,
            2 => self.record.cached[numbers.below(4) as usize] = link,
            3 => self.record.fresh = some_flag(numbers),
            4 => self.record.words = near(numbers, self.record.words, number),
            5 => self.record.in_use = near(numbers, self.record.in_use, number),
            6 => self.record.committed = near(numbers, self.record.committed, number),
            7 => std::mem::swap(&mut self.record.in_use, &mut self.record.committed),
            8 => self.record.peak = near(numbers, self.record.peak, number),
            _ => self.record.high = near(numbers, self.record.high, number),
        }
        "a field of the record"
    }

    /// Peak or high water becomes one of the numbers around which the verdict turns.
    fn change_figure(&mut self, numbers: &mut Numbers, chunks: &[Chunk]) -> &'static str {
        let top = chunks
            .iter()
            .filter(|chunk| chunk.used)
            .map(Chunk::end)
            .max();
        let bytes = 4 * self.words.len() as u32;
        let figures = [
            top.unwrap_or(0) as u32,
            bytes,
            bytes.wrapping_sub(4),
            self.record.in_use,
            self.record.committed,
            self.record.high,
            0,
        ];
        let step = numbers.pick(&[0, 0, 1, 4, 8, u32::MAX, u32::MAX - 7]);
        let figure = numbers.pick(&figures).wrapping_add(step);
        if numbers.one_in(2) {
            self.record.peak = figure;
            return "the peak";
        }
        self.record.high = figure;
        "high water"
    }

    /// Any word becomes another number.
    fn change_word(&mut self, numbers: &mut Numbers) -> &'static str {
        let index = numbers.below(self.words.len() as u32) as usize;
        self.words[index] = match numbers.below(3) {
            0 => self.words[index] ^ 1 << numbers.below(32),
            1 => misleading(numbers),
            _ => numbers.pick(&self.words),
        };
        "a word"
    }

    /// A header, footer or guard is changed: a flag, the length, or used for free.
    fn change_chunk(&mut self, numbers: &mut Numbers, chunks: &[Chunk]) -> &'static str {
        let chunk = numbers.pick(chunks);
        let guard = self.words.len() - 1;
        match numbers.below(6) {
            0 => self.words[chunk.word] ^= 1 << numbers.below(4),
            1 => {
                self.words[chunk.word] = self.words[chunk.word].wrapping_add(numbers.pick(&[
                    8,
                    16,
                    u32::MAX - 7,
                    1 << 31,
                ]))
            }
            2 => self.words[chunk.end() / 4 - 1] ^= 8 << numbers.below(4),
            3 => self.words[guard] = numbers.below(9),
            4 => self.words[chunk.end() / 4] ^= 1,
            _ => self.turn(chunk),
        }
        "a header, a footer or the guard"
    }

    /// A used chunk becomes free with footer, left bit and both sums right, but listed nowhere; a free one the other way.
    fn turn(&mut self, chunk: Chunk) {
        self.words[chunk.word] ^= 2;
        self.words[chunk.end() / 4] ^= 1;
        let length = chunk.length as u32;
        if chunk.used {
            self.words[chunk.end() / 4 - 1] = length;
            self.record.committed = self.record.committed.wrapping_sub(length);
            if !self.record.cached_links().contains(&(chunk.link() as u16)) {
                self.record.in_use = self.record.in_use.wrapping_sub(length);
            }
        } else {
            self.record.committed = self.record.committed.wrapping_add(length);
            self.record.in_use = self.record.in_use.wrapping_add(length);
        }
    }

    /// The lists are changed: half a link word, two link words swapped, a chunk moved, dropped, listed twice, or cut in two.
    fn change_lists(&mut self, numbers: &mut Numbers, free: &[Chunk]) -> &'static str {
        let chunk = numbers.pick(free);
        let other = numbers.pick(free);
        let class = class_of(chunk.length) as u16;
        match numbers.below(9) {
            0 => self.set_next(chunk.link() as u16, other.link() as u16),
            1 => self.set_prev(chunk.link() as u16, other.link() as u16),
            2 => self.words.swap(chunk.word + 1, other.word + 1),
            3 => self.words[chunk.word + 1] = self.words[chunk.word + 1].rotate_left(16),
            4 => self.unlist(chunk),
            5 => self.list(chunk, class),
            6 | 7 => {
                self.unlist(chunk);
                self.list(
                    chunk,
                    if numbers.one_in(2) {
                        class
                    } else {
                        numbers.below(6) as u16
                    },
                );
            }
            _ => self.cut(chunk),
        }
        "the lists"
    }

    /// A free chunk becomes two that touch, both listed.
    fn cut(&mut self, chunk: Chunk) {
        if chunk.length < 32 {
            return;
        }
        self.unlist(chunk);
        let right = Chunk {
            word: chunk.word + 4,
            length: chunk.length - 16,
            ..chunk
        };
        let left = Chunk {
            length: 16,
            ..chunk
        };
        for (part, left_used) in [(left, 1), (right, 0)] {
            self.words[part.word] = part.length as u32 + left_used;
            self.words[part.end() / 4 - 1] = part.length as u32;
            self.list(part, class_of(part.length) as u16);
        }
    }

    /// A used chunk is listed, written into, or takes a cache place, with bytes in use as they were or right for it.
    fn change_used(&mut self, numbers: &mut Numbers, used: &[Chunk]) -> &'static str {
        let chunk = numbers.pick(used);
        match numbers.below(5) {
            0 => self.record.cached[numbers.below(4) as usize] = chunk.link() as u16,
            1 => self.list(chunk, class_of(chunk.length) as u16),
            2 => {
                let inside = chunk.link() as u32 + numbers.within(1, 3);
                self.record.cached[numbers.below(4) as usize] = inside as u16;
            }
            3 => self.cache(&[chunk.link() as u16], used),
            _ => {
                let word = numbers.within(chunk.word as u32 + 1, chunk.end() as u32 / 4 - 1);
                self.words[word as usize] = misleading(numbers);
            }
        }
        "a used chunk"
    }

    /// The cache places hold these links, and bytes in use are what the other used chunks have.
    fn cache(&mut self, links: &[u16], used: &[Chunk]) {
        self.record.cached = [0; 4];
        self.record.cached[..links.len()].copy_from_slice(links);
        let live = used
            .iter()
            .filter(|chunk| !links.contains(&(chunk.link() as u16)));
        self.record.in_use = live.map(|chunk| chunk.length as u32).sum();
    }

    /// The cache holds some used chunks, in any order and with bytes in use right for it; often one of the links is then no cached chunk's:
    /// two alike, a hole, a sentinel, a free chunk, the guard, what lies past it, or a word inside a payload that looks like a used header.
    fn change_cache(
        &mut self,
        numbers: &mut Numbers,
        used: &[Chunk],
        free: &[Chunk],
    ) -> &'static str {
        let mut links: Vec<u16> = Vec::new();
        for _ in 0..numbers.within(1, 4) {
            let link = numbers.pick(used).link() as u16;
            if !links.contains(&link) {
                links.push(link);
            }
        }
        let guard = self.words.len() as u16 + 5;
        let bad = match numbers.below(9) {
            0 => links[0],
            1 => 0,
            2 => numbers.within(1, 5) as u16,
            3 if !free.is_empty() => numbers.pick(free).link() as u16,
            4 => guard,
            5 => guard.wrapping_add(numbers.within(1, 3) as u16),
            6 => self.like_a_header(numbers, used),
            _ => {
                self.cache(&links, used);
                return "the cache";
            }
        };
        let place = numbers.below(links.len() as u32 + 1) as usize;
        links.insert(place, bad);
        links.truncate(4);
        self.cache(&links, used);
        "the cache, with a link that is no cached chunk's"
    }

    /// The link to a word inside a used chunk's payload, written to look like the header of a used chunk that ends with it.
    fn like_a_header(&mut self, numbers: &mut Numbers, used: &[Chunk]) -> u16 {
        let chunk = numbers.pick(used);
        let end = chunk.end() / 4;
        let word = numbers.within(chunk.word as u32 + 1, end as u32 - 1) as usize;
        self.words[word] = 4 * (end - word) as u32 / 8 * 8 + 3;
        word as u16 + 6
    }

    /// More or fewer words are lent, and the record may say so.
    fn change_length(&mut self, numbers: &mut Numbers) -> &'static str {
        let now = self.words.len();
        let length = numbers.pick(&[
            0,
            1,
            now.saturating_sub(2),
            now.saturating_sub(1),
            now + 1,
            now + 2,
        ]);
        self.words.resize(length, 2);
        if numbers.one_in(2) {
            self.record.words = length as u32;
        }
        "the length"
    }

    /// A link to a sentinel, to a word of the heap, to just behind it, or any.
    fn some_link(&self, numbers: &mut Numbers) -> u16 {
        let words = self.words.len() as u32;
        match numbers.below(4) {
            0 => numbers.below(7) as u16,
            1 => (6 + numbers.below(words + 3)) as u16,
            2 => numbers.pick(&self.record.next),
            _ => numbers.next() as u16,
        }
    }

    /// The next link of a sentinel or chunk.
    fn next(&self, link: u16) -> u16 {
        match link {
            0..=5 => self.record.next[link as usize],
            _ => (self.words[link as usize - 5] >> 16) as u16,
        }
    }

    /// The prev link of a sentinel or chunk.
    fn prev(&self, link: u16) -> u16 {
        match link {
            0..=5 => self.record.prev[link as usize],
            _ => self.words[link as usize - 5] as u16,
        }
    }

    /// Set the next link of a sentinel or chunk; nothing where there is no such word.
    fn set_next(&mut self, link: u16, to: u16) {
        if link < 6 {
            self.record.next[link as usize] = to;
        } else if let Some(word) = self.words.get_mut(link as usize - 5) {
            *word = *word & 0xFFFF | (to as u32) << 16;
        }
    }

    /// Set the prev link of a sentinel or chunk; nothing where there is no such word.
    fn set_prev(&mut self, link: u16, to: u16) {
        if link < 6 {
            self.record.prev[link as usize] = to;
        } else if let Some(word) = self.words.get_mut(link as usize - 5) {
            *word = *word & 0xFFFF_0000 | to as u32;
        }
    }

    /// Take a chunk out of the list that it is in.
    fn unlist(&mut self, chunk: Chunk) {
        let link = chunk.link() as u16;
        let (prev, next) = (self.prev(link), self.next(link));
        self.set_next(prev, next);
        self.set_prev(next, prev);
    }

    /// Put a chunk at the head of a list.
    fn list(&mut self, chunk: Chunk, class: u16) {
        let link = chunk.link() as u16;
        let first = self.next(class);
        self.set_next(class, link);
        self.set_prev(first, link);
        self.set_prev(link, class);
        self.set_next(link, first);
    }
}

/// A flag: off, on, or a damaged one.
fn some_flag(numbers: &mut Numbers) -> u32 {
    match numbers.below(5) {
        0 => 0,
        1 => 1,
        2 => numbers.within(2, 5),
        3 => numbers.below(2) << 16,
        _ => numbers.next() as u32,
    }
}

/// A number near another one, or any.
fn near(numbers: &mut Numbers, number: u32, any: u32) -> u32 {
    match numbers.below(4) {
        0 => any,
        1 => 0,
        _ => number.wrapping_add(numbers.pick(&[
            1,
            2,
            4,
            8,
            16,
            u32::MAX,
            u32::MAX - 1,
            u32::MAX - 7,
            u32::MAX - 15,
        ])),
    }
}
