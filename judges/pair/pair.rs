//! The Rust and the port side by side: each step of a history is put to both, and afterwards everything that can be seen is
//! compared.
//!
//! Compared are the answer with its value and count, the six sentinels' links, every word of the heap and a few behind it, the
//! cached chunk, the counters and the flag; bytes in use with the lengths of the payloads that tasks hold, the other counters with the
//! Rust's, whose bytes in use are committed here. Links are compared by what they name; since the sentinels' links and every link word
//! agree, so do the lists and their order. A word is a link word if it was last written as one, also where it has become part of a payload.
//! Outside the Rust's domain it is not asked: there the answer has to be the rules' number, and nothing may have changed.
//!
//! The port clears a payload when it hands it out, and the Rust does not. In one half of the histories the task that gets a payload from the
//! Rust clears it, and every word is compared with the Rust's. In the other half the Rust is left alone: a word of a payload has
//! to be 0 from its handout until a task writes it or a call makes it a header, footer or link word, and every other word the Rust's.
//!
//! The port empties its cache before it says no, and the Rust does not, so there are requests that the port serves and the Rust refuses; and the port
//! says 8, never, to a size whose threshold the whole heap does not reach, which the Rust may serve from its cache. Before each
//! request a plain reading of the Rust's own headers says what either does. Where the two part the request is not compared: as a rule it is left
//! out, and the history goes on as if it had not been made; one time in so many it is put to the Rust and to the port, on a copy, each of
//! which must do what was read, the port as plain.rs does, and the history ends before it. Where the reading says that they do not part and their
//! answers do, that is a difference. Of a request that both refuse the Rust says null, and its count is that of its one search: there the port's number, 3
//! or 8, and its count are compared with plain.rs's, which is asked everything that the port is.

use crate::audit;
use crate::beside::answer;
use crate::damage::State;
use crate::numbers::Numbers;
use crate::plain::Plain;
use crate::port::{self, Kind};
use crate::record::{Record, Reply};
use oracle::{can_make, Name, Oracle};

/// The largest size that the rules serve.
pub const LARGEST_SIZE: u32 = 4_294_967_284;

/// Words behind a heap that are watched.
const BEHIND: u32 = 8;

/// One step of a history. A payload is told by its rank among the live ones, counted round, so that a step keeps a meaning when
/// others are left out.
#[derive(Clone, Copy, Debug)]
pub enum Step {
    /// Make a heap of the first words lent, saying so many words.
    Make { lent: u32, words: u32 },
    /// Ask for bytes.
    Ask(u32),
    /// Free the live payload of a rank; nothing if none is live.
    Free(u32),
    /// Free whatever is at an offset.
    FreeAt(u32),
    /// A task writes into the live payload of a rank, what a seed says.
    Write(u32, u64),
    /// Read the mark for so many stacklets.
    Mark(u32),
}

/// A whole history: what memory holds before it (zeros for seed 0), whether the Rust's payloads are left as it hands them out, of how many
/// requests at which Rust and port part one ends it, and its steps.
#[derive(Clone)]
pub struct History {
    pub words: u32,
    pub fill: u64,
    pub alone: bool,
    pub one_in: u32,
    pub steps: Vec<Step>,
}

/// Both heaps.
pub struct Pair {
    oracle: Oracle,
    /// The rules without words, for what the Rust does not say.
    plain: Plain,
    /// The port's record and memory.
    pub record: Record,
    pub memory: Vec<u32>,
    /// For each word of the memory, whether it was last written as a link word.
    is_link: Vec<bool>,
    /// Whether the Rust's payloads are left as it hands them out. If so, for each word whether it was handed out and not written since,
    /// and how many such words there are.
    alone: bool,
    cleared: Vec<bool>,
    cleared_count: u32,
    /// Payloads handed out and not taken back.
    live: Vec<u32>,
    /// The words of the heap, 0 before one is made.
    made: u32,
    /// The words that are compared.
    watched: u32,
    /// Of how many requests at which the two part one ends the history, and whether one has.
    one_in: u32,
    pub ended: bool,
    /// Requests put to both so far.
    pub requests: u64,
    /// Words compared so far with the Rust's, and words held to 0 because the Rust had been left alone.
    pub words_compared: u64,
    pub words_zero: u64,
    /// Histories ended before a request at which the two part, and such requests left out.
    pub endings: u64,
    pub left_out: u64,
}

/// The answer of a number alone.
fn refusal(number: u32) -> Reply {
    Reply {
        number,
        value: 0,
        compared: 0,
    }
}

/// An answer of the rules without words as the port's.
fn reply((number, value, compared): (u32, u32, u32)) -> Reply {
    Reply {
        number,
        value,
        compared,
    }
}

/// The port's link to what the Rust's link names.
fn port_link(name: Name) -> Option<u16> {
    match name {
        Name::Sentinel(class) => Some(class as u16),
        Name::Chunk(offset) => Some((offset / 4 + 6) as u16),
        Name::Nothing => None,
    }
}

impl Pair {
    /// Both, with no heap made.
    pub fn only() -> Pair {
        let words = oracle::MOST_WORDS as usize;
        Pair {
            oracle: Oracle::only(),
            plain: Plain::new(port::ONE.places),
            record: Record::default(),
            memory: vec![0; words + 8],
            is_link: vec![false; words + 8],
            alone: false,
            cleared: vec![false; words + 8],
            cleared_count: 0,
            live: Vec::new(),
            made: 0,
            watched: 0,
            one_in: 1,
            ended: false,
            requests: 0,
            words_compared: 0,
            words_zero: 0,
            endings: 0,
            left_out: 0,
        }
    }

    /// Play a history; what differs and after which step, if anything does.
    pub fn play(&mut self, history: &History) -> Result<(), (usize, String)> {
        self.begin(history);
        for (at, step) in history.steps.iter().enumerate() {
            self.step(*step).map_err(|what| (at, what))?;
            if self.ended {
                break;
            }
        }
        Ok(())
    }

    /// Play a history and say each step with its answers.
    pub fn tell(&mut self, history: &History) -> String {
        self.begin(history);
        let mut lines = format!(
            "memory: {} words, fill {}, the Rust left alone: {}\n",
            history.words, history.fill, history.alone
        );
        for step in &history.steps {
            let live = self.live.clone();
            let told = match step {
                Step::Free(rank) if !live.is_empty() => {
                    format!("FreeAt({})", live[*rank as usize % live.len()])
                }
                other => format!("{other:?}"),
            };
            match self.step(*step) {
                Ok(answer) => lines += &format!("{told}: {answer}\n"),
                Err(what) => return lines + &format!("{told}: {what}\n"),
            }
            if self.ended {
                break;
            }
        }
        lines
    }

    /// Memory before a history: no heap, and words of a seed.
    pub fn begin(&mut self, history: &History) {
        self.record = Record::default();
        self.plain = Plain::new(port::ONE.places);
        self.one_in = history.one_in;
        self.ended = false;
        self.made = 0;
        self.live.clear();
        self.alone = history.alone;
        self.cleared[..self.watched as usize].fill(false);
        self.cleared_count = 0;
        self.watched = (history.words + BEHIND).min(oracle::MOST_WORDS);
        let mut numbers = Numbers::new(history.fill);
        for index in 0..self.watched {
            let word = if history.fill == 0 {
                0
            } else {
                misleading(&mut numbers)
            };
            self.write(index, word);
        }
    }

    /// Write a word of both memories.
    fn write(&mut self, index: u32, word: u32) {
        self.memory[index as usize] = word;
        self.write_rust(index, word);
        self.written(index);
    }

    /// Write a word of the Rust's memory.
    fn write_rust(&mut self, index: u32, word: u32) {
        self.is_link[index as usize] = false;
        // Safety: no heap is made yet, or the word is one of a payload that is live.
        unsafe { self.oracle.set_word(index, word) }
    }

    /// Note that both have written a word.
    fn written(&mut self, index: u32) {
        self.cleared_count -= self.cleared[index as usize] as u32;
        self.cleared[index as usize] = false;
    }

    /// The Rust has handed out a payload: its task clears it, or its words have to be 0 in the port alone.
    fn handed_out(&mut self, payload: u32) {
        let (length, _) = self.oracle.header(payload - 4);
        for index in payload / 4..(payload - 4 + length) / 4 {
            if self.alone {
                self.cleared_count += !self.cleared[index as usize] as u32;
                self.cleared[index as usize] = true;
            } else {
                self.write_rust(index, 0);
            }
        }
    }

    /// Put a step to both and compare: the answer, or what differs.
    pub fn step(&mut self, step: Step) -> Result<String, String> {
        let (rust, port, rules) = match step {
            Step::Make { lent, words } => self.make(lent, words),
            Step::Ask(size) => match self.reading(size) {
                Some((rust, port)) if rust != port => return self.part(size),
                reading => self.ask(size, reading.map(|(rust, _)| rust))?,
            },
            Step::FreeAt(offset) => self.free(offset),
            Step::Free(_) | Step::Write(..) if self.live.is_empty() => {
                return Ok("none live".into())
            }
            Step::Free(rank) => self.free(self.live[rank as usize % self.live.len()]),
            Step::Write(rank, seed) => {
                self.scribble(self.live[rank as usize % self.live.len()], seed);
                return Ok("written".into());
            }
            Step::Mark(stacklets) => return self.mark(stacklets),
        };
        self.requests += 1;
        if rust != port || rules != port {
            return Err(format!(
                "answers differ: {rust} wanted, {rules} by the rules without words, {port} given"
            ));
        }
        self.note_tags();
        self.compare().map_or(Ok(port.to_string()), Err)
    }

    /// The answers to making: the Rust's, the port's and the rules'. Lengths that are not accepted, or not those of the slice, get 6.
    fn make(&mut self, lent: u32, words: u32) -> (Reply, Reply, Reply) {
        let slice = &mut self.memory[..lent as usize];
        let port = port::ONE.door.make(&mut self.record, slice, words);
        let rules = reply(self.plain.make(lent, words));
        if lent != words || !can_make(words) {
            return (refusal(6), port, rules);
        }
        self.oracle.make(words);
        self.live.clear();
        self.made = words;
        (refusal(0), port, rules)
    }

    /// The answers to asking, or where the Rust is not as its headers were read. 1, 2 and 5 are the rules'; where the Rust is asked, null is
    /// the rules' 3 or 8, with their count.
    fn ask(&mut self, size: u32, read: Option<bool>) -> Result<(Reply, Reply, Reply), String> {
        let slice = &mut self.memory[..self.made as usize];
        let port = port::ONE.door.hand_out(&mut self.record, slice, size);
        let rules = reply(self.plain.hand_out(size));
        let rust = match size {
            0 => refusal(1),
            _ if size > LARGEST_SIZE => refusal(2),
            _ if self.made == 0 => refusal(5),
            _ => self.ask_rust(size, rules),
        };
        match read {
            Some(serves) if serves != (rust.number == 0) => Err(format!(
                "the Rust's headers say served: {serves}; it answers {rust}"
            )),
            _ => Ok((rust, port, rules)),
        }
    }

    /// The Rust's answer to asking. Null is what the rules refuse with, 3 if they do not.
    fn ask_rust(&mut self, size: u32, rules: Reply) -> Reply {
        let Some(payload) = self.oracle.hand_out(size) else {
            return if matches!(rules.number, 3 | 8) {
                rules
            } else {
                refusal(3)
            };
        };
        self.live.push(payload);
        self.handed_out(payload);
        Reply {
            number: 0,
            value: payload,
            compared: self.oracle.compared(),
        }
    }

    /// The chunks by the Rust's headers, from left to right: offset, length, and whether it is used.
    fn chunks(&self) -> Vec<(u32, u32, bool)> {
        let (mut chunks, mut offset) = (Vec::new(), 0);
        while offset + 4 < 4 * self.made {
            let (length, used) = self.oracle.header(offset);
            chunks.push((offset, length, used));
            offset += length;
        }
        chunks
    }

    /// Whether the Rust serves a size and whether the port does, by the Rust's headers and its cached chunk; nothing where the Rust is not asked.
    /// The Rust: its cached chunk serves, or a free chunk reaches the threshold. The port: not where the threshold exceeds the heap's bytes less
    /// the guard's; else the cached chunk serves, or a run of touching chunks that are free or cached reaches it.
    fn reading(&self, size: u32) -> Option<(bool, bool)> {
        if self.made == 0 || size == 0 || size > LARGEST_SIZE {
            return None;
        }
        let s = (size + 4).max(16).div_ceil(8) * 8;
        let threshold = if s < 512 {
            (s + 1).next_power_of_two()
        } else {
            s
        };
        let cached = self.oracle.cached();
        let length = cached.map_or(0, |offset| self.oracle.header(offset).0);
        let from_cache = s <= length && length - s <= 512;
        let (mut free, mut run, mut longest) = (0, 0, 0);
        for (offset, length, used) in self.chunks() {
            free = if used { free } else { length.max(free) };
            let touches = !used || cached == Some(offset);
            run = if touches { run + length } else { 0 };
            longest = longest.max(run);
        }
        let reaches = |length| from_cache || length >= threshold;
        let never = threshold > 4 * self.made - 4;
        Some((reaches(free), reaches(longest) && !never))
    }

    /// A request at which Rust and port part. One time in so many, as the headers and the size say, it ends the history; else it is left out.
    fn part(&mut self, size: u32) -> Result<String, String> {
        let mix = |sum: u64, part: u32| sum.wrapping_mul(0x100_0000_01B3) ^ part as u64;
        let seed = self.chunks().iter().fold(size as u64, |sum, chunk| {
            mix(mix(sum, chunk.0), chunk.1 + chunk.2 as u32)
        });
        if !Numbers::new(seed).one_in(self.one_in) {
            self.left_out += 1;
            return Ok("left out: the two part".into());
        }
        self.ended = true;
        self.endings += 1;
        self.beyond(size).map_or(Ok("the two part".into()), Err)
    }

    /// What is wrong with the answers to a request at which the two part, if anything is. The port, on a copy, answers as the rules without words do: it
    /// serves what the Rust refuses, and leaves a sound heap and an empty payload; or it says 8 to what the Rust serves, and leaves all as it was.
    fn beyond(&mut self, size: u32) -> Option<String> {
        let mut state = self.state();
        let before = state.clone();
        let mut rules = self.plain.clone();
        let given = port::ONE
            .door
            .hand_out(&mut state.record, &mut state.words, size);
        let wanted = rules.hand_out(size);
        let served = self.oracle.hand_out(size).is_some();
        if answer(given) != wanted || given.number != if served { 8 } else { 0 } {
            return Some(format!("where the two part: the Rust serves it: {served}; {wanted:?} wanted, {given} given"));
        }
        if served {
            return (state != before)
                .then(|| format!("{given} is answered and something has changed"));
        }
        if state.record != rules.record() {
            return Some(format!(
                "records differ: {:?} wanted, {:?} given",
                rules.record(),
                state.record
            ));
        }
        if !audit::sound(&state.record, &state.words, port::ONE.places) {
            return Some(format!("{given} leaves no sound heap"));
        }
        if !state.is_empty(given.value) {
            return Some(format!("{given}, and the payload is not 0"));
        }
        rules.tag_difference(&state.words)
    }

    /// The answers to freeing. Before a heap is made 5 is the rules', and 4 where nothing live begins at the offset.
    fn free(&mut self, offset: u32) -> (Reply, Reply, Reply) {
        let slice = &mut self.memory[..self.made as usize];
        let port = port::ONE.door.take_back(&mut self.record, slice, offset);
        let rules = reply(self.plain.take_back(offset));
        if self.made == 0 {
            return (refusal(5), port, rules);
        }
        let Some(rank) = self.live.iter().position(|live| *live == offset) else {
            return (refusal(4), port, rules);
        };
        self.live.swap_remove(rank);
        // Safety: the payload is live, and live payloads are those of used chunks of 16 bytes or more.
        unsafe { self.oracle.take_back(offset) }
        (refusal(0), port, rules)
    }

    /// Both marks; they have to agree.
    fn mark(&mut self, stacklets: u32) -> Result<String, String> {
        if self.made == 0 {
            return Ok("no heap".into());
        }
        self.requests += 1;
        let port = port::mark(&mut self.record, stacklets);
        let rust = self.oracle.adjusted_mark(stacklets);
        self.plain.mark(stacklets);
        if rust != port {
            return Err(format!("marks differ: {rust:?} wanted, {port:?} given"));
        }
        self.compare().map_or(Ok(format!("{port:?}")), Err)
    }

    /// A task writes into its payload, all of it or a stretch.
    fn scribble(&mut self, payload: u32, seed: u64) {
        let mut numbers = Numbers::new(seed);
        let (length, _) = self.oracle.header(payload - 4);
        let (mut from, mut to) = (payload / 4, (payload - 4 + length) / 4);
        if numbers.one_in(2) {
            from = numbers.within(from, to - 1);
            to = numbers.within(from + 1, to);
        }
        for index in from..to {
            let copied = self.memory[numbers.below(self.made) as usize];
            let word = if numbers.one_in(3) {
                copied
            } else {
                misleading(&mut numbers)
            };
            self.write(index, word);
        }
    }

    /// Note which words now are headers, link words and footers: those of the chunks, of the free ones for the last two, and the guard.
    fn note_tags(&mut self) {
        let mut offset = 0;
        while offset + 4 < 4 * self.made {
            let (length, used) = self.oracle.header(offset);
            self.written(offset / 4);
            if !used {
                let (links, footer) = (offset / 4 + 1, (offset + length) / 4 - 1);
                self.is_link[links as usize] = true;
                self.is_link[footer as usize] = false;
                self.written(links);
                self.written(footer);
            }
            offset += length;
        }
        self.written(offset / 4);
    }

    /// How many payloads are live.
    pub fn live_count(&self) -> u32 {
        self.live.len() as u32
    }

    /// The port's configuration: the Rust has one cache place.
    pub fn kind(&self) -> Kind {
        port::ONE
    }

    /// The port's record and its words.
    pub fn state(&self) -> State {
        State {
            record: self.record,
            words: self.memory[..self.made as usize].to_vec(),
        }
    }

    /// What differs between the two states, if anything does; and how many words were compared.
    fn compare(&mut self) -> Option<String> {
        self.words_compared += (self.watched - self.cleared_count) as u64;
        self.words_zero += self.cleared_count as u64;
        self.difference()
    }

    /// What differs between the two states, if anything does.
    pub fn difference(&self) -> Option<String> {
        let record = self.record_difference();
        record.or_else(|| (0..self.watched).find_map(|index| self.word_difference(index)))
    }

    /// What differs between the record and the Rust's statics.
    fn record_difference(&self) -> Option<String> {
        let wanted = if self.made == 0 {
            Record::default()
        } else {
            self.rust_record()
        };
        let figures = port::figures(&self.record);
        if self.record != wanted {
            Some(format!(
                "records differ: {wanted:?} wanted, {:?} given",
                self.record
            ))
        } else if figures != (wanted.in_use, wanted.committed, wanted.peak, wanted.high) {
            Some(format!("the readers say {figures:?} of {wanted:?}"))
        } else {
            None
        }
    }

    /// The lengths of the chunks that tasks hold, by the payloads that they got from the Rust and did not give back.
    fn held(&self) -> u32 {
        let lengths = self.live.iter().map(|at| self.oracle.header(at - 4).0);
        lengths.sum()
    }

    /// The record that the Rust's statics stand for. What the Rust calls in use is committed; in use is what tasks hold.
    fn rust_record(&self) -> Record {
        let mut record = Record {
            words: self.made,
            in_use: self.held(),
            committed: self.oracle.in_use(),
            peak: self.oracle.peak(),
            high: self.oracle.high(),
            fresh: self.oracle.fresh() as _,
            ..Record::default()
        };
        let cached = self.oracle.cached();
        let cached: Vec<u16> = cached
            .map(|offset| (offset / 4 + 6) as u16)
            .into_iter()
            .collect();
        record.set_cached(&cached);
        for class in 0..6 {
            let (prev, next) = self.oracle.sentinel_links(class);
            record.prev[class] =
                port_link(prev).expect("the Rust's sentinels link to chunks or sentinels");
            record.next[class] =
                port_link(next).expect("the Rust's sentinels link to chunks or sentinels");
        }
        record
    }

    /// What differs in the word at an index.
    #[inline]
    fn word_difference(&self, index: u32) -> Option<String> {
        let given = self.memory[index as usize];
        if self.cleared[index as usize] {
            return (given != 0).then(|| format!("word {index} of a payload is {given:#x}"));
        }
        let rust = self.oracle.word(index);
        if !self.is_link[index as usize] {
            return (rust != given)
                .then(|| format!("word {index} differs: {rust:#x} wanted, {given:#x} given"));
        }
        let (prev, next) = self.oracle.links(index);
        let halves = port_link(prev).zip(port_link(next));
        let wanted = halves.map(|(prev, next)| (next as u32) << 16 | prev as u32);
        (wanted != Some(given))
            .then(|| format!("link word {index} differs: {prev}/{next} wanted, {given:#x} given"))
    }
}

/// A word that looks like a header, a footer, a guard or links; or any.
pub fn misleading(numbers: &mut Numbers) -> u32 {
    match numbers.below(4) {
        0 => numbers.below(256),
        1 => 8 * numbers.within(2, 80) + numbers.below(4),
        2 => numbers.below(64) << 16 | numbers.below(64),
        _ => numbers.next() as u32,
    }
}
