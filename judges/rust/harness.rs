//! The harness: reads the trace frames of the rules, puts them to the oracle and writes the answer
//! lines of the rules. docs/ORACLE.md says which answers are the oracle's and which the harness's,
//! and describes the dump.
//!
//!     harness [--dump] [--words N] [--fill SEED | --unguarded] [--uncleared] [--marks STACKLETS] < frames
//!
//! --dump            after every answer line, the whole state on one line
//! --words N         the memory has N words (16383 if not said, 65527 at most)
//! --fill SEED       memory starts with numbers instead of zeros, and before the next request every
//!                   payload is overwritten with numbers by its task
//! --marks STACKLETS after every handout that is done, the adjusted mark for so many stacklets
//! --uncleared       payloads are left as the oracle hands them out; if not said, the task that gets
//!                   one first sets it to 0, so that its words can be compared with the rules'
//! --unguarded       sizes above 4294967284, and frees of the chunk that is cached already, go to
//!                   the oracle too, and no task writes anything; where that leaves no heap, the
//!                   harness stops with status 3

use oracle::{can_make, Name, Oracle};
use std::collections::HashSet;
use std::io::{self, BufRead, Write};
use std::ops::Range;
use std::process::exit;

/// The largest size that the rules serve.
const LARGEST_SIZE: u32 = 4_294_967_284;

/// One request of a frame.
enum Request {
    Make(u32),
    HandOut(u32),
    TakeBack(u32),
}

/// An answer line: answer number, value, free chunks compared.
struct Answer(u8, u32, u32);

/// What the command line asks for.
struct Options {
    dump: bool,
    words: u32,
    fill: Option<u32>,
    marks: Option<u32>,
    uncleared: bool,
    unguarded: bool,
}

/// The oracle, and what the harness itself has to know to answer as the rules do.
struct Harness {
    oracle: Oracle,
    options: Options,
    /// Offsets of the payloads handed out and not taken back.
    live: HashSet<u32>,
    /// For each word of the memory, whether it was last written as a link word.
    is_link: Vec<bool>,
    /// What a loader or a task has yet to write: all words, or the payload handed out last.
    unwritten: Range<u32>,
    /// What the words behind the heap's guard held when the heap was made.
    behind: Vec<u32>,
    /// The last number given by `number`.
    seed: u32,
    /// Why this is no heap any more, if that is so.
    broken: Option<String>,
}

impl Harness {
    /// The harness with its memory as at the start and no heap made.
    fn new(options: Options) -> Harness {
        let mut harness = Harness {
            oracle: Oracle::only(),
            live: HashSet::new(),
            is_link: vec![false; options.words as usize],
            unwritten: 0..options.words,
            behind: Vec::new(),
            seed: options.fill.unwrap_or(0),
            broken: None,
            options,
        };
        harness.fill();
        harness
    }

    /// The next number to fill memory with. They are below 256, so that they look like headers,
    /// footers and links.
    fn number(&mut self) -> u32 {
        self.seed = self
            .seed
            .wrapping_mul(1_664_525)
            .wrapping_add(1_013_904_223);
        self.seed >> 24
    }

    /// With --fill, let the loader or the last task write.
    fn fill(&mut self) {
        if self.options.fill.is_none() {
            return;
        }
        for index in std::mem::take(&mut self.unwritten) {
            let number = self.number();
            self.write(index, number);
        }
    }

    /// Write a word: one of memory before a heap is made, or of a payload that is live.
    fn write(&mut self, index: u32, value: u32) {
        // Safety: it is no header, link word, footer or guard.
        unsafe { self.oracle.set_word(index, value) }
        self.is_link[index as usize] = false;
    }

    /// The answer to a request.
    fn answer(&mut self, request: Request) -> Answer {
        self.fill();
        match request {
            Request::Make(words) => self.make(words),
            Request::HandOut(size) => self.hand_out(size),
            Request::TakeBack(offset) => self.take_back(offset),
        }
    }

    /// Make a heap. The rules' test 6 is the harness's.
    fn make(&mut self, words: u32) -> Answer {
        if !can_make(words) || words > self.options.words {
            return Answer(6, 0, 0);
        }
        self.check_behind();
        self.oracle.make(words);
        self.live.clear();
        self.behind = (words..self.options.words)
            .map(|w| self.oracle.word(w))
            .collect();
        Answer(0, 0, self.noted())
    }

    /// Hand out. The rules' tests 2 and 5 are the harness's; 1 and 3 are the oracle's null.
    fn hand_out(&mut self, size: u32) -> Answer {
        let made = self.oracle.words() > 0;
        if size == 0 && !made {
            return Answer(1, 0, 0);
        }
        if size > LARGEST_SIZE && !self.options.unguarded {
            return Answer(2, 0, 0);
        }
        if !made {
            return Answer(5, 0, 0);
        }
        match self.oracle.hand_out(size) {
            Some(offset) => self.handed_out(offset),
            None => Answer(if size == 0 { 1 } else { 3 }, 0, self.noted()),
        }
    }

    /// Take back. The rules' tests 5 and 4 are the harness's.
    fn take_back(&mut self, offset: u32) -> Answer {
        if self.oracle.words() == 0 {
            return Answer(5, 0, 0);
        }
        let cached = self.oracle.cached();
        let again = self.options.unguarded && cached.is_some_and(|chunk| chunk + 4 == offset);
        if !self.live.remove(&offset) && !again {
            return Answer(4, 0, 0);
        }
        for chunk in cached.into_iter().chain([offset - 4]) {
            let (_, used) = self.oracle.header(chunk);
            assert!(used, "the chunk at {chunk} is listed already");
        }
        // Safety: both chunks are used, and `main` stops at the first that is too short.
        unsafe { self.oracle.take_back(offset) }
        Answer(0, 0, self.noted())
    }

    /// Remember a payload that was handed out, and let its task set it to 0.
    fn handed_out(&mut self, offset: u32) -> Answer {
        let compared = self.noted();
        let (length, _) = self.oracle.header(offset - 4);
        if length < 16 {
            self.broken = Some(format!("offset {offset} is in a chunk of {length} bytes"));
        } else if !self.live.insert(offset) {
            self.broken = Some(format!("offset {offset} was handed out twice"));
        } else {
            self.unwritten = offset / 4..(offset - 4 + length) / 4;
            if !self.options.uncleared && !self.options.unguarded {
                for index in self.unwritten.clone() {
                    self.write(index, 0);
                }
            }
        }
        Answer(0, offset, compared)
    }

    /// After a request: note which words now are link words and footers, and give the count of
    /// compared chunks. Every link and footer that a request writes is one of a chunk that is free
    /// after it, or of one that was free before it and so is noted already.
    fn noted(&mut self) -> u32 {
        if self.options.dump {
            let guard = 4 * (self.oracle.words() - 1);
            let mut offset = 0;
            while offset < guard {
                let (length, used) = self.oracle.header(offset);
                if length < 16 {
                    break;
                }
                if !used {
                    self.is_link[offset as usize / 4 + 1] = true;
                    self.is_link[(offset + length) as usize / 4 - 1] = false;
                }
                offset += length;
            }
        }
        self.oracle.compared()
    }

    /// Stop if a word behind the heap's guard is not what it was when the heap was made.
    fn check_behind(&self) {
        for (index, kept) in (self.oracle.words()..).zip(&self.behind) {
            assert!(
                self.oracle.word(index) == *kept,
                "word {index}, behind the guard, has changed"
            );
        }
    }

    /// The lengths of the chunks that tasks hold, by the payloads that they got and did not give back. The Rust has no such figure:
    /// what it calls in use is what the rules call committed.
    fn held(&self) -> u32 {
        let lengths = self.live.iter().map(|at| self.oracle.header(at - 4).0);
        lengths.sum()
    }

    /// The whole state on one line.
    fn dump(&self) -> String {
        let oracle = &self.oracle;
        let cached = oracle
            .cached()
            .map_or("-".to_string(), |offset| format!("@{offset}"));
        let heads: Vec<String> = (0..6)
            .map(|class| oracle.sentinel_links(class))
            .map(|(prev, next)| format!("{prev}/{next}"))
            .collect();
        let lists: Vec<String> = (0..6).map(|class| self.list(class)).collect();
        format!(
            "words={} in_use={} committed={} peak={} high={} fresh={} cached={} heads={} lists={} memory={}",
            oracle.words(),
            self.held(),
            oracle.in_use(),
            oracle.peak(),
            oracle.high(),
            oracle.fresh() as u8,
            cached,
            heads.join(","),
            lists.join(","),
            self.memory()
        )
    }

    /// The chunks of a class in the order of their list, `-` for none, `?` if the list does not
    /// come back to its sentinel.
    fn list(&self, class: usize) -> String {
        let mut chunks = Vec::new();
        let (_, mut next) = self.oracle.sentinel_links(class);
        while let Name::Chunk(offset) = next {
            if chunks.len() as u32 > self.oracle.words() / 4 {
                return "?".to_string();
            }
            chunks.push(next.to_string());
            next = self.oracle.links(offset / 4 + 1).1;
        }
        if next != Name::Sentinel(class) {
            "?".to_string()
        } else if chunks.is_empty() {
            "-".to_string()
        } else {
            chunks.join(">")
        }
    }

    /// Every word of the heap, equal neighbours once with their count.
    fn memory(&self) -> String {
        let value = |index: u32| (self.is_link[index as usize], self.oracle.word(index));
        let mut words = Vec::new();
        let mut index = 0;
        while index < self.oracle.words() {
            let first = value(index);
            let count = (index..self.oracle.words())
                .take_while(|&next| value(next) == first)
                .count();
            let (prev, next) = self.oracle.links(index);
            let word = if first.0 {
                format!("{prev}/{next}")
            } else {
                first.1.to_string()
            };
            words.push(if count == 1 {
                word
            } else {
                format!("{word}*{count}")
            });
            index += count as u32;
        }
        if words.is_empty() {
            "-".to_string()
        } else {
            words.join(",")
        }
    }
}

/// The request of a line, line feed included, or nothing if it is no frame.
fn request_of(line: &[u8]) -> Option<Request> {
    let digits = line.strip_suffix(b"\n")?;
    if digits.len() != 10
        || !digits
            .iter()
            .all(|d| matches!(d, b'0'..=b'9' | b'A'..=b'F'))
    {
        return None;
    }
    let number = u32::from_str_radix(std::str::from_utf8(&digits[2..]).ok()?, 16).ok()?;
    match &digits[..2] {
        b"00" => Some(Request::Make(number)),
        b"01" => Some(Request::HandOut(number)),
        b"02" => Some(Request::TakeBack(number)),
        _ => None,
    }
}

/// Say what the command line should be, and stop.
fn usage() -> ! {
    eprintln!(
        "usage: harness [--dump] [--words N] [--fill SEED | --unguarded] [--uncleared] \
         [--marks STACKLETS] < frames"
    );
    exit(2)
}

/// The options of the command line.
fn options() -> Options {
    let mut options = Options {
        dump: false,
        words: 16_383,
        fill: None,
        marks: None,
        uncleared: false,
        unguarded: false,
    };
    let mut args = std::env::args().skip(1);
    while let Some(arg) = args.next() {
        let mut number = || {
            args.next()
                .and_then(|n| n.parse().ok())
                .unwrap_or_else(|| usage())
        };
        match arg.as_str() {
            "--dump" => options.dump = true,
            "--words" => options.words = number(),
            "--fill" => options.fill = Some(number()),
            "--marks" => options.marks = Some(number()),
            "--uncleared" => options.uncleared = true,
            "--unguarded" => options.unguarded = true,
            _ => usage(),
        }
    }
    // A task's numbers in a chunk that is listed too could send a search round for ever.
    let both = options.unguarded && options.fill.is_some();
    if both || options.words > oracle::MOST_WORDS {
        usage()
    }
    options
}

/// Answer every line of the input.
fn main() -> io::Result<()> {
    let mut harness = Harness::new(options());
    let mut input = io::BufReader::new(io::stdin());
    let mut output = io::BufWriter::new(io::stdout().lock());
    let mut line = Vec::new();
    while input.read_until(b'\n', &mut line)? > 0 {
        let request = request_of(&line);
        line.clear();
        let asked = matches!(request, Some(Request::HandOut(_)));
        let answer = request.map_or(Answer(7, 0, 0), |request| harness.answer(request));
        writeln!(output, "{:02X}{:08X}{:08X}", answer.0, answer.1, answer.2)?;
        if let (Some(stacklets), true, 0) = (harness.options.marks, asked, answer.0) {
            match harness.oracle.adjusted_mark(stacklets) {
                Some(mark) => writeln!(output, "mark={mark}")?,
                None => writeln!(output, "mark=unchanged")?,
            }
        }
        if harness.options.dump {
            writeln!(output, "{}", harness.dump())?;
        }
        if let Some(why) = &harness.broken {
            output.flush()?;
            eprintln!("harness: this is no heap any more: {why}");
            exit(3);
        }
        // Whoever waits for an answer before the next line gets it.
        if input.buffer().is_empty() {
            output.flush()?;
        }
    }
    output.flush()?;
    harness.check_behind();
    Ok(())
}
