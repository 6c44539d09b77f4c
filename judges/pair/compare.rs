//! The comparison at scale: the proved library, linked as C links it, beside the oracle, and beside the rules without words, in one process.
//!
//!     compare [SECONDS]
//!
//! Every short history on tiny heaps, frees in every order and heaps of every length up to 4,001 are run whole; random histories, and
//! damage to the heaps that they leave, fill the rest of the seconds (110 if not said). A difference is shown by the
//! smallest history that could be found, and ends the run with status 1. docs/ORACLE.md says what the Rust is asked and what it
//! is not; pair.rs what is compared with it. The Rust has one cache place; each configuration of the library, by its number of places, is
//! also compared with plain.rs, as beside.rs says. audit.rs is the audit that the proved one is compared with.

mod audit;
mod beside;
mod cached;
mod damage;
mod door;
// The declarations of the Rust crate, of which a part is used here.
#[allow(dead_code)]
#[path = "../../bindings/rust/src/door.rs"]
mod library;
mod numbers;
mod pair;
mod plain;
mod port;
#[path = "../../bindings/rust/src/record.rs"]
mod record;

use beside::Beside;
use damage::State;
use numbers::Numbers;
use pair::{History, Pair, Step, LARGEST_SIZE};
use port::Kind;
use record::{Record, Reply};
use std::process::exit;
use std::time::{Duration, Instant};

/// Lengths at which something changes: classes, the cache's slack, the least chunk.
const EDGES: [u32; 12] = [16, 24, 32, 40, 64, 128, 256, 504, 512, 520, 536, 544];

/// Of how many requests at which the Rust and the port part one ends a random history.
const ONE_IN: u32 = 16;

/// The step that makes a heap of so many words.
fn making(words: u32) -> Step {
    Step::Make { lent: words, words }
}

/// The port and a judge, side by side.
trait Sides {
    /// Play a history; what differs and after which step, if anything does.
    fn play(&mut self, history: &History) -> Result<(), (usize, String)>;
    /// Play a history and say each step with its answers.
    fn tell(&mut self, history: &History) -> String;
    /// How many payloads are live.
    fn live_count(&self) -> u32;
    /// The port's record and words.
    fn state(&self) -> State;
    /// The port's configuration.
    fn kind(&self) -> Kind;
    /// Requests put to both so far.
    fn requests(&self) -> u64;
    /// Whether the last history ended before a request at which the two part.
    fn ended(&self) -> bool;
    /// The words of the longest heap that the judge can have.
    fn most_words(&self) -> u32;
}

/// What the two kinds of sides have by the same names.
macro_rules! sides {
    ($sides:ty, $most_words:expr, $ended:expr) => {
        impl Sides for $sides {
            fn play(&mut self, history: &History) -> Result<(), (usize, String)> {
                self.play(history)
            }
            fn tell(&mut self, history: &History) -> String {
                self.tell(history)
            }
            fn live_count(&self) -> u32 {
                self.live_count()
            }
            fn state(&self) -> State {
                self.state()
            }
            fn kind(&self) -> Kind {
                self.kind()
            }
            fn requests(&self) -> u64 {
                self.requests
            }
            fn ended(&self) -> bool {
                $ended(self)
            }
            fn most_words(&self) -> u32 {
                $most_words
            }
        }
    };
}
sides!(Pair, oracle::MOST_WORDS, |pair: &Pair| pair.ended);
sides!(Beside, 65_529, |_| false);

/// What has been compared so far.
struct Comparison<S: Sides> {
    pair: S,
    /// Histories played so far; in every second one the Rust's payloads are left as it hands them out.
    played: u64,
    /// Audits that said yes and no, alike on both sides.
    sound: u64,
    damaged: u64,
    /// Calls on the states that were audited.
    calls: u64,
}

impl<S: Sides> Comparison<S> {
    /// Nothing yet.
    fn new(pair: S) -> Self {
        Comparison {
            pair,
            played: 0,
            sound: 0,
            damaged: 0,
            calls: 0,
        }
    }

    /// Play a history. A difference is the end.
    fn play(&mut self, name: &str, history: &mut History) {
        self.played += 1;
        history.alone = self.played % 2 == 0;
        if self.pair.play(history).is_err() {
            self.report(name, history, None);
        }
    }

    /// What differs after a history, or after damage of a seed to the heap that it leaves.
    fn fault(&mut self, history: &History, damage: Option<u64>) -> Option<String> {
        match self.pair.play(history) {
            Err((_, what)) => Some(what),
            Ok(()) => damage.and_then(|seed| self.damage(seed).err()),
        }
    }

    /// Show a difference with the fewest steps, and stop.
    fn report(&mut self, name: &str, history: &History, damage: Option<u64>) -> ! {
        let least = self.shrunk(history, damage);
        eprintln!("compare: {name}: a difference\n{}", self.pair.tell(&least));
        if let Some(what) = self.fault(&least, damage) {
            eprintln!("{what}");
        }
        exit(1)
    }

    /// A history that still shows a difference, from which no step can be left out.
    fn shrunk(&mut self, history: &History, damage: Option<u64>) -> History {
        let mut least = history.clone();
        if let Err((at, _)) = self.pair.play(&least) {
            least.steps.truncate(at + 1);
        }
        let mut run = least.steps.len();
        while run > 0 {
            let before = least.steps.len();
            self.leave_out(&mut least, damage, run);
            // Once more with single steps as long as that helps: fewer asks give other ranks.
            if run > 1 || least.steps.len() == before {
                run /= 2;
            }
        }
        least
    }

    /// Leave out every run of so many steps without which there still is a difference.
    fn leave_out(&mut self, least: &mut History, damage: Option<u64>, run: usize) {
        let mut from = 0;
        while from < least.steps.len() {
            let mut shorter = least.clone();
            let to = (from + run).min(least.steps.len());
            shorter.steps.drain(from..to);
            if self.fault(&shorter, damage).is_some() {
                *least = shorter;
            } else {
                from += run;
            }
        }
    }

    /// Every history of up to so many requests: asks of these sizes, each payload written by its task, and all frees.
    fn every_history(&mut self, words: u32, sizes: &[u32], depth: usize) {
        let mut history = History {
            words,
            fill: words as u64,
            alone: false,
            one_in: 1,
            steps: vec![making(words)],
        };
        self.extend(&mut history, sizes, depth);
    }

    /// Play a history, and every longer one that begins with it.
    fn extend(&mut self, history: &mut History, sizes: &[u32], depth: usize) {
        self.play("every short history", history);
        if depth == 0 || self.pair.ended() {
            return;
        }
        let (live, length) = (self.pair.live_count(), history.steps.len());
        // The payload that is handed out next has the rank of the number that are live now.
        let asks = sizes
            .iter()
            .map(|size| vec![Step::Ask(*size), Step::Write(live, 1)]);
        let frees = (0..live).map(|rank| vec![Step::Free(rank)]);
        for steps in asks.chain(frees) {
            history.steps.extend(steps);
            self.extend(history, sizes, depth - 1);
            history.steps.truncate(length);
        }
    }

    /// Five payloads of every choice of these sizes, freed in every order, and asked for again.
    fn every_order(&mut self, sizes: [u32; 3]) {
        for choice in 0..3usize.pow(5) {
            let asks: Vec<Step> = (0..5)
                .map(|at| Step::Ask(sizes[choice / 3usize.pow(at) % 3]))
                .collect();
            for order in 0..120 {
                let ranks = [order % 5, order / 5 % 4, order / 20 % 3, order / 60 % 2, 0];
                let mut steps = vec![making(65)];
                steps.extend(&asks);
                steps.push(Step::Write(order, 1 + order as u64));
                steps.extend(ranks.map(Step::Free));
                steps.extend([Step::Ask(28), Step::Ask(60), Step::Mark(1)]);
                self.play(
                    "every order of frees",
                    &mut History {
                        words: 65,
                        fill: 7,
                        alone: false,
                        one_in: 1,
                        steps,
                    },
                );
            }
        }
    }

    /// Every accepted length up to 4,001, and of the longer ones every sixteenth up to the judge's longest: the heap's own size and
    /// what is near it, and a few requests.
    fn every_length(&mut self) {
        for words in (5..4001)
            .step_by(2)
            .chain((4023..=self.pair.most_words()).step_by(32))
        {
            let own = 4 * words - 8;
            let asks = [own + 1, own, own - own / 3, 12].map(Step::Ask);
            let steps = [making(words)]
                .into_iter()
                .chain(asks)
                .chain([Step::Free(0), Step::Free(1)]);
            let mut history = History {
                words,
                fill: 1,
                alone: false,
                one_in: 1,
                steps: steps.collect(),
            };
            self.play("every length", &mut history);
        }
    }

    /// A random history, and damage to the heap that it leaves.
    fn random(&mut self, seed: u64) {
        let mut numbers = Numbers::new(seed);
        let mut history = random_history(&mut numbers);
        let name = format!("random history {seed}");
        self.play(&name, &mut history);
        let times = if history.words < 2000 { 60 } else { 6 };
        for _ in 0..times {
            let damage = numbers.next();
            if self.damage(damage).is_err() {
                self.report(&name, &history, Some(damage));
            }
        }
    }

    /// Damage a copy of the heap in one place or two, as a seed says, and let both audits and the calls judge it.
    fn damage(&mut self, seed: u64) -> Result<(), String> {
        let mut numbers = Numbers::new(seed);
        let mut state = self.pair.state();
        let mut ways = vec![state.damage(&mut numbers)];
        if numbers.one_in(2) {
            ways.push(state.damage(&mut numbers));
        }
        self.judge(&state, &mut numbers).map_err(|what| {
            let ways = ways.join(" and to ");
            format!("then damage to {ways}: {what}\n{}", told(&state))
        })
    }

    /// Whether the two audits agree on a state, and the calls do what a sound or a damaged one asks of them.
    fn judge(&mut self, state: &State, numbers: &mut Numbers) -> Result<(), String> {
        let Kind { places, door } = self.pair.kind();
        let sound = audit::sound(&state.record, &state.words, places);
        let said = door.audit(&state.record, &state.words);
        if said != sound as u32 {
            return Err(format!(
                "the proved audit says {said}, the plain one {sound}"
            ));
        }
        if sound {
            self.sound += 1;
        } else {
            self.damaged += 1;
        }
        let size = numbers.pick(&[1, 12, 100, 508, 600]);
        let payload = 8 * numbers.below(state.words.len() as u32 / 2 + 1) + 4;
        self.judge_call(state, sound, &[0, 3, 8], |r, w| door.hand_out(r, w, size))?;
        self.judge_call(state, sound, &[0, 4], |r, w| door.take_back(r, w, payload))?;
        if numbers.one_in(8) {
            self.judge_call(state, true, &[1], |r, w| door.hand_out(r, w, 0))?;
            self.judge_call(state, true, &[2], |r, w| {
                door.hand_out(r, w, LARGEST_SIZE + 1)
            })?;
        }
        Ok(())
    }

    /// Whether a call on a state answers one of these numbers if it may be served, else 5; and leaves a sound heap after 0, with an
    /// empty payload if one was handed out, and every byte as it was after anything else.
    fn judge_call(
        &mut self,
        state: &State,
        served: bool,
        numbers: &[u32],
        call: impl Fn(&mut Record, &mut [u32]) -> Reply,
    ) -> Result<(), String> {
        self.calls += 1;
        let mut after = state.clone();
        let reply = call(&mut after.record, &mut after.words);
        let wanted = if served { numbers } else { &[5] };
        if !wanted.contains(&reply.number) || (reply.number != 0 && reply.value != 0) {
            return Err(format!(
                "a call answers {reply} where one of {wanted:?} is right"
            ));
        }
        if reply.number != 0 && after != *state {
            return Err(format!("a call answers {reply} and changes something"));
        }
        if reply.number == 0 && !audit::sound(&after.record, &after.words, self.pair.kind().places)
        {
            return Err(format!("a call answers {reply} and leaves no sound heap"));
        }
        if reply.value != 0 && !after.is_empty(reply.value) {
            return Err(format!("a call answers {reply} and the payload is not 0"));
        }
        Ok(())
    }

    /// Say what has been done.
    fn done(&self, what: &str) {
        println!("compare: {what}: {} requests", self.pair.requests());
    }
}

/// A history that leaves two listed chunks, live ones and, with four places, cached ones.
fn short_history() -> History {
    let steps = [
        making(65),
        Step::Ask(12),
        Step::Ask(60),
        Step::Ask(12),
        Step::Free(0),
        Step::Free(0),
    ];
    History {
        words: 65,
        fill: 3,
        alone: false,
        one_in: 1,
        steps: steps.to_vec(),
    }
}

impl Comparison<Pair> {
    /// The comparison itself is sharp: a change of any field, or of any word, is seen as a difference.
    fn is_sharp(&mut self) {
        self.play("a short history", &mut short_history());
        for index in 0..65 + 8 {
            self.pair.memory[index] ^= 1;
            assert!(
                self.pair.difference().is_some(),
                "a change of word {index} is not seen"
            );
            self.pair.memory[index] ^= 1;
        }
        let record = self.pair.record;
        for change in changes() {
            change(&mut self.pair.record);
            assert!(
                self.pair.difference().is_some(),
                "a change of the record is not seen"
            );
            self.pair.record = record;
        }
        assert!(
            self.pair.difference().is_none(),
            "a difference is seen where there is none"
        );
    }

    /// The longest heap of all, which is too long for the Rust: made, used and found sound.
    fn longest(&mut self) {
        let mut state = State {
            record: Record::default(),
            words: vec![0; 65_529],
        };
        let door = self.pair.kind().door;
        let made = door.make(&mut state.record, &mut state.words, 65_529);
        assert_eq!(
            (made.number, made.value, made.compared),
            (0, 0, 0),
            "65,529 words are made"
        );
        let mut numbers = Numbers::new(65_529);
        for _ in 0..50 {
            let size = numbers.within(1, 3000);
            let reply = door.hand_out(&mut state.record, &mut state.words, size);
            assert_eq!(reply.number, 0, "there is room for {size} bytes");
            if numbers.one_in(2) {
                door.take_back(&mut state.record, &mut state.words, reply.value);
            }
            if let Err(what) = self.judge(&state, &mut numbers) {
                eprintln!("compare: 65,529 words: {what}");
                exit(1);
            }
        }
    }
}

impl Comparison<Beside> {
    /// The comparison itself is sharp: a change of any field, or of any tag, link word, word behind the heap or word that a task holds, is seen.
    fn is_sharp(&mut self) {
        self.play("a short history", &mut short_history());
        let seen: Vec<usize> = (0..65 + 8)
            .filter(|index| {
                self.pair.memory[*index] ^= 1;
                let seen = self.pair.difference().is_some();
                self.pair.memory[*index] ^= 1;
                seen
            })
            .collect();
        assert_eq!(
            seen,
            self.pair.told_words(),
            "a change of a word that the rules tell is not seen"
        );
        let record = self.pair.record;
        for change in changes() {
            change(&mut self.pair.record);
            assert!(
                self.pair.difference().is_some(),
                "a change of the record is not seen"
            );
            self.pair.record = record;
        }
        assert!(
            self.pair.difference().is_none(),
            "a difference is seen where there is none"
        );
    }

    /// Everything that is run whole: short histories, frees in every order, heaps of many lengths.
    fn whole(&mut self) {
        self.is_sharp();
        for words in [9, 13, 17, 21] {
            self.every_history(words, &[12, 20, 28], 6);
        }
        self.every_order([12, 20, 28]);
        self.every_length();
        let places = self.pair.kind().places;
        assert_eq!(self.pair.most_cached, places, "the cache is filled");
        self.done(&format!(
            "cache places {places}, beside the rules without words"
        ));
    }

    /// Say how much was compared.
    fn total(&self) {
        println!(
            "compare: cache places {}: {} requests put to the rules without words and to the port, no difference; {} headers compared; {} states audited \
             alike, {} sound and {} damaged, with {} calls on them",
            self.pair.kind().places,
            self.pair.requests,
            self.pair.headers,
            self.sound + self.damaged,
            self.sound,
            self.damaged,
            self.calls
        );
    }
}

/// One change of each field of a record.
fn changes() -> Vec<Box<dyn Fn(&mut Record)>> {
    let mut all: Vec<Box<dyn Fn(&mut Record)>> = vec![
        Box::new(|r| r.words ^= 1),
        Box::new(|r| r.in_use ^= 8),
        Box::new(|r| r.committed ^= 8),
        Box::new(|r| r.peak ^= 8),
        Box::new(|r| r.high ^= 8),
        Box::new(|r| r.fresh ^= 1),
    ];
    for place in 0..4 {
        all.push(Box::new(move |r| r.cached[place] ^= 1));
    }
    for class in 0..6 {
        all.push(Box::new(move |r| r.prev[class] ^= 1));
        all.push(Box::new(move |r| r.next[class] ^= 1));
    }
    all
}

/// A state in words: its record, and what it holds if that is little.
fn told(state: &State) -> String {
    let words = if state.words.len() < 200 {
        &state.words[..]
    } else {
        &[]
    };
    format!("{:?}\n{words:?}", state.record)
}

/// A random history: a length, a filling, and steps in spells of growing, shrinking and both.
fn random_history(numbers: &mut Numbers) -> History {
    let most = numbers.pick(&[41, 41, 129, 129, 129, 1101, 1101, 6001, 16_383, 65_527]);
    let words = if numbers.one_in(10) {
        most
    } else {
        numbers.within(2, most / 2) * 2 + 1
    };
    let mut steps = vec![making(words)];
    let length = numbers.within(20, 700);
    let mut wish = 50;
    while (steps.len() as u32) < length {
        if numbers.one_in(60) {
            wish = numbers.pick(&[10, 35, 50, 55, 65, 90]);
        }
        steps.push(random_step(numbers, words, wish));
    }
    History {
        words,
        fill: numbers.pick(&[0, 1, 1, 2, 3]),
        alone: false,
        one_in: ONE_IN,
        steps,
    }
}

/// A random step; so many of a hundred are frees.
fn random_step(numbers: &mut Numbers, words: u32, wish: u32) -> Step {
    match numbers.below(100) {
        0 if numbers.one_in(4) => random_making(numbers, words),
        0 => Step::Mark(numbers.below(4)),
        1 => Step::FreeAt(numbers.pick(&[0, 4, 20, u32::MAX, 4 * words - 4, 4 * words])),
        2 => Step::FreeAt(numbers.below(4 * words + 8)),
        3..=9 => Step::Write(numbers.next() as u32, numbers.next()),
        _ if numbers.below(100) < wish => Step::Free(numbers.next() as u32),
        _ => Step::Ask(random_size(numbers, words)),
    }
}

/// Making again: the same words, fewer, or lengths that are refused.
fn random_making(numbers: &mut Numbers, words: u32) -> Step {
    match numbers.below(5) {
        0 => making(numbers.below(5)),
        1 => making(numbers.within(2, words / 2) * 2),
        2 => making(65_531),
        3 => Step::Make {
            lent: words,
            words: numbers.pick(&[words - 2, words + 2, 65_529, u32::MAX]),
        },
        _ => making(numbers.within(2, words / 2) * 2 + 1),
    }
}

/// A size to ask for: at the limits, at an edge, near the heap's own, anything up to it, or small.
fn random_size(numbers: &mut Numbers, words: u32) -> u32 {
    match numbers.below(40) {
        0 => numbers.pick(&[
            0,
            LARGEST_SIZE,
            LARGEST_SIZE - 1,
            LARGEST_SIZE + 1,
            u32::MAX,
        ]),
        1 => numbers.next() as u32,
        2 => 4 * words - numbers.below(20),
        3 | 4 => numbers.within(1, 4 * words),
        5..=9 => numbers.within(480, 1100),
        10..=20 => numbers.pick(&EDGES) - numbers.below(14),
        21..=24 => numbers.within(1, 300),
        _ => numbers.within(1, 60),
    }
}

/// The seconds that the command line asks for.
fn seconds() -> u64 {
    match std::env::args().nth(1).map(|word| word.parse()) {
        None => 110,
        Some(Ok(seconds)) => seconds,
        Some(Err(_)) => {
            eprintln!("usage: compare [SECONDS]");
            exit(2)
        }
    }
}

/// Compare, and say how much was compared.
fn main() {
    let end = Instant::now() + Duration::from_secs(seconds());
    let mut all = Comparison::new(Pair::only());
    let mut plain = port::KINDS.map(|kind| Comparison::new(Beside::new(kind)));
    for _ in 0..2 {
        all.is_sharp();
    }
    all.longest();
    for words in [5, 7, 9, 11, 13, 17, 21] {
        all.every_history(words, &[12, 20, 28], 7);
    }
    all.done("every history of up to seven requests on 5 to 21 words");
    all.every_order([12, 20, 28]);
    all.done("and five payloads freed in every order");
    all.every_length();
    all.done("and heaps of every length up to 4,001 words, and of some up to 65,527");
    plain.iter_mut().for_each(Comparison::whole);
    let whole = all.pair.requests;
    let mut histories = 0;
    while histories < 100 || Instant::now() < end {
        histories += 1;
        all.random(histories);
        plain.iter_mut().for_each(|one| one.random(histories));
    }
    plain.iter().for_each(Comparison::total);
    println!(
        "compare: {} requests put to Rust and port, {} of them in {histories} random histories, no difference; {} histories ended before a request that \
         one serves and the other refuses, {} such requests left out; {} words compared with the Rust's, \
         {} more, in payloads that it had been left to hand out uncleared, held to 0; {} states audited alike, {} sound and {} damaged, with {} calls \
         on them",
        all.pair.requests,
        all.pair.requests - whole,
        all.pair.endings,
        all.pair.left_out,
        all.pair.words_compared,
        all.pair.words_zero,
        all.sound + all.damaged,
        all.sound,
        all.damaged,
        all.calls
    );
}
