//! The port and the rules without words (plain.rs) side by side, for each configuration of the port: each step of a history is put to both, and
//! afterwards everything that the rules say of a heap is compared.
//!
//! Compared are the answer with its value and count, the whole record (the sentinels' links, the cached chunks in their order, the counters
//! and the flag), what the readers say, and in the words every header, the guard, and each free chunk's footer and link word. A payload has to be 0
//! when it is handed out and what its task wrote until it is freed, and the words behind the heap stay. After a refused handout every word is as
//! it was, those inside free and cached chunks too.

use crate::damage::State;
use crate::numbers::Numbers;
use crate::pair::{misleading, History, Step};
use crate::plain::{Answer, Plain};
use crate::port::{self, Kind};
use crate::record::{Record, Reply};

/// Words behind a heap that are watched, and the longest memory that is ever lent.
const BEHIND: usize = 8;
const MEMORY: usize = 65_535;

/// The port with one kind of calls, and the rules.
pub struct Beside {
    kind: Kind,
    plain: Plain,
    pub record: Record,
    pub memory: Vec<u32>,
    /// What tasks hold: the offset of each payload, and its words.
    held: Vec<(u32, Vec<u32>)>,
    /// The words behind the heap.
    behind: Vec<u32>,
    /// After a refused handout, the words before it; else none.
    entry: Vec<u32>,
    /// Requests put to both so far, headers compared, and the most chunks that were cached.
    pub requests: u64,
    pub headers: u64,
    pub most_cached: usize,
}

/// An answer as the rules without words have it.
pub fn answer(reply: Reply) -> Answer {
    (reply.number, reply.value, reply.compared)
}

/// The link that names the chunk at an offset.
fn link(start: u32) -> u16 {
    (start / 4 + 6) as u16
}

impl Beside {
    /// Both, with no heap made.
    pub fn new(kind: Kind) -> Beside {
        Beside {
            plain: Plain::new(kind.places),
            kind,
            record: Record::default(),
            memory: vec![0; MEMORY],
            held: Vec::new(),
            behind: Vec::new(),
            entry: Vec::new(),
            requests: 0,
            headers: 0,
            most_cached: 0,
        }
    }

    /// The port's calls.
    pub fn kind(&self) -> Kind {
        self.kind
    }

    /// Memory before a history: no heap, and words of a seed.
    fn begin(&mut self, history: &History) {
        self.plain = Plain::new(self.kind.places);
        self.record = Record::default();
        self.held.clear();
        let mut numbers = Numbers::new(history.fill);
        let watched = (history.words as usize + BEHIND).min(MEMORY);
        for word in &mut self.memory[..watched] {
            *word = if history.fill == 0 {
                0
            } else {
                misleading(&mut numbers)
            };
        }
        self.behind = self.memory[..watched].to_vec();
    }

    /// Play a history; what differs and after which step, if anything does.
    pub fn play(&mut self, history: &History) -> Result<(), (usize, String)> {
        self.begin(history);
        for (at, step) in history.steps.iter().enumerate() {
            self.step(*step).map_err(|what| (at, what))?;
        }
        Ok(())
    }

    /// Play a history and say each step with its answers.
    pub fn tell(&mut self, history: &History) -> String {
        self.begin(history);
        let (places, words, fill) = (self.kind.places, history.words, history.fill);
        let mut lines = format!("cache places: {places}, memory: {words} words, fill {fill}\n");
        for step in &history.steps {
            let told = match (step, self.payload(step)) {
                (Step::Free(_), Some(rank)) => format!("FreeAt({})", self.held[rank].0),
                _ => format!("{step:?}"),
            };
            match self.step(*step) {
                Ok(answer) => lines += &format!("{told}: {answer}\n"),
                Err(what) => return lines + &format!("{told}: {what}\n"),
            }
        }
        lines
    }

    /// The rank of the payload that a step is about, if it is about one and any is live.
    fn payload(&self, step: &Step) -> Option<usize> {
        match step {
            Step::Free(rank) | Step::Write(rank, _) if !self.held.is_empty() => {
                Some(*rank as usize % self.held.len())
            }
            _ => None,
        }
    }

    /// Put a step to both and compare: the answer, or what differs.
    fn step(&mut self, step: Step) -> Result<String, String> {
        let rank = self.payload(&step);
        let (wanted, given) = match (step, rank) {
            (Step::Make { lent, words }, _) => self.make(lent, words),
            (Step::Ask(size), _) => self.ask(size),
            (Step::FreeAt(offset), _) => self.free(offset),
            (Step::Free(_), Some(rank)) => self.free(self.held[rank].0),
            (Step::Write(_, seed), Some(rank)) => {
                self.scribble(rank, seed);
                return Ok("written".into());
            }
            (Step::Free(_) | Step::Write(..), None) => return Ok("none live".into()),
            (Step::Mark(stacklets), _) => return self.mark(stacklets),
        };
        self.requests += 1;
        if wanted != given {
            return Err(format!(
                "answers differ: {wanted:?} wanted, {given:?} given"
            ));
        }
        if !self.entry.is_empty() && self.entry != self.memory[..self.entry.len()] {
            return Err(format!("{given:?} is answered and a word has changed"));
        }
        self.entry.clear();
        self.compare().map_or(Ok(format!("{given:?}")), Err)
    }

    /// The words of the heap.
    fn words(&mut self) -> &mut [u32] {
        &mut self.memory[..self.plain.words as usize]
    }

    /// Both answers to making.
    fn make(&mut self, lent: u32, words: u32) -> (Answer, Answer) {
        let slice = &mut self.memory[..lent as usize];
        let given = answer(self.kind.door.make(&mut self.record, slice, words));
        let wanted = self.plain.make(lent, words);
        if wanted.0 == 0 {
            self.held.clear();
            let watched = self.behind.len().max(words as usize);
            let kept = self.memory[words as usize..watched].to_vec();
            self.behind = vec![0; words as usize];
            self.behind.extend(kept);
        }
        (wanted, given)
    }

    /// Both answers to asking. Of a refusal the words before it are kept.
    fn ask(&mut self, size: u32) -> (Answer, Answer) {
        let wanted = self.plain.hand_out(size);
        if wanted.0 == 0 {
            let words = self.plain.at(wanted.1 - 4).length as usize / 4 - 1;
            self.held.push((wanted.1, vec![0; words]));
        } else {
            self.entry = self.words().to_vec();
        }
        let (door, mut record) = (self.kind.door, self.record);
        let given = answer(door.hand_out(&mut record, self.words(), size));
        self.record = record;
        (wanted, given)
    }

    /// Both answers to freeing.
    fn free(&mut self, payload: u32) -> (Answer, Answer) {
        let (door, mut record) = (self.kind.door, self.record);
        let given = answer(door.take_back(&mut record, self.words(), payload));
        self.record = record;
        let wanted = self.plain.take_back(payload);
        if wanted.0 == 0 {
            let rank = self.held.iter().position(|held| held.0 == payload);
            self.held.swap_remove(rank.expect("what is freed was held"));
        }
        (wanted, given)
    }

    /// Both marks; they have to agree.
    fn mark(&mut self, stacklets: u32) -> Result<String, String> {
        self.requests += 1;
        let given = port::mark(&mut self.record, stacklets);
        let wanted = self.plain.mark(stacklets);
        if wanted != given {
            return Err(format!("marks differ: {wanted:?} wanted, {given:?} given"));
        }
        self.compare().map_or(Ok(format!("{given:?}")), Err)
    }

    /// A task writes its payload, all of it or a stretch.
    fn scribble(&mut self, rank: usize, seed: u64) {
        let mut numbers = Numbers::new(seed);
        let (payload, words) = &mut self.held[rank];
        let any = numbers.below(words.len() as u32) as usize;
        let from = numbers.pick(&[0, any]);
        for (at, word) in words.iter_mut().enumerate().skip(from) {
            *word = misleading(&mut numbers);
            self.memory[*payload as usize / 4 + at] = *word;
        }
    }

    /// The indices of the words that the rules tell: tags, link words, what tasks hold, and those behind the heap.
    pub fn told_words(&self) -> Vec<usize> {
        let words = self.plain.words as usize;
        let mut told: Vec<usize> = (words - 1..self.behind.len()).collect();
        for chunk in &self.plain.chunks {
            let (first, behind) = (
                chunk.start as usize / 4,
                (chunk.start + chunk.length) as usize / 4,
            );
            told.push(first);
            if !chunk.used {
                told.extend([first + 1, behind - 1]);
            } else if !self.plain.cache.contains(&chunk.start) {
                told.extend(first + 1..behind);
            }
        }
        told.sort();
        told
    }

    /// How many payloads are live.
    pub fn live_count(&self) -> u32 {
        self.held.len() as u32
    }

    /// The port's record and its words.
    pub fn state(&self) -> State {
        State {
            record: self.record,
            words: self.memory[..self.plain.words as usize].to_vec(),
        }
    }

    /// What differs, if anything does; and how much was compared.
    fn compare(&mut self) -> Option<String> {
        self.headers += self.plain.chunks.len() as u64;
        self.most_cached = self.most_cached.max(self.plain.cache.len());
        self.difference()
    }

    /// What differs between the port's state and the rules', if anything does.
    pub fn difference(&self) -> Option<String> {
        self.record_difference()
            .or_else(|| self.plain.tag_difference(&self.memory))
            .or_else(|| self.payload_difference())
    }

    /// What differs in the record, or in what the readers say of it.
    fn record_difference(&self) -> Option<String> {
        let wanted = self.plain.record();
        let figures = port::figures(&self.record);
        if self.record != wanted {
            let given = self.record;
            return Some(format!(
                "records differ: {wanted:?} wanted, {given:?} given"
            ));
        }
        (figures != (wanted.in_use, wanted.committed, wanted.peak, wanted.high))
            .then(|| format!("the readers say {figures:?} of {wanted:?}"))
    }

    /// What differs in a payload that a task holds, or behind the heap.
    fn payload_difference(&self) -> Option<String> {
        let made = self.plain.words as usize;
        if self.memory[made..self.behind.len()] != self.behind[made..] {
            return Some("a word behind the heap has changed".into());
        }
        self.held.iter().find_map(|(payload, words)| {
            let at = *payload as usize / 4;
            let given = &self.memory[at..at + words.len()];
            let place = given.iter().zip(words).position(|(a, b)| a != b)?;
            let (wanted, given) = (words[place], given[place]);
            Some(format!("word {place} of the payload at {payload} differs: {wanted:#x} wanted, {given:#x} given"))
        })
    }
}

impl Plain {
    /// The record that the heap has.
    pub fn record(&self) -> Record {
        let mut record = Record {
            words: self.words,
            in_use: self.in_use,
            committed: self.committed,
            peak: self.peak,
            high: self.high,
            fresh: self.fresh as _,
            ..Record::default()
        };
        let cached: Vec<u16> = self.cache.iter().copied().map(link).collect();
        record.set_cached(&cached);
        if self.words > 0 {
            for (class, list) in self.lists.iter().enumerate() {
                record.next[class] = list.first().copied().map_or(class as u16, link);
                record.prev[class] = list.last().copied().map_or(class as u16, link);
            }
        }
        record
    }

    /// What differs in a header, in the guard, or in a free chunk's footer or link word.
    pub fn tag_difference(&self, memory: &[u32]) -> Option<String> {
        let mut left_used = true;
        let mut tags = Vec::new();
        for chunk in &self.chunks {
            let header = chunk.length + 2 * chunk.used as u32 + left_used as u32;
            tags.push(("header", chunk.start, header));
            if !chunk.used {
                tags.push(("footer", chunk.start + chunk.length - 4, chunk.length));
            }
            left_used = chunk.used;
        }
        if self.words > 0 {
            tags.push(("guard", 4 * self.words - 4, 2 + left_used as u32));
        }
        for (class, list) in self.lists.iter().enumerate() {
            let links: Vec<u16> = list.iter().copied().map(link).collect();
            for (at, start) in list.iter().enumerate() {
                let prev = if at == 0 { class as u16 } else { links[at - 1] };
                let next = links.get(at + 1).copied().unwrap_or(class as u16);
                tags.push(("link word", start + 4, (next as u32) << 16 | prev as u32));
            }
        }
        tags.into_iter().find_map(|(what, offset, wanted)| {
            let given = memory[offset as usize / 4];
            (given != wanted).then(|| {
                format!("the {what} at {offset} differs: {wanted:#x} wanted, {given:#x} given")
            })
        })
    }
}
