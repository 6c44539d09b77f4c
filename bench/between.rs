//! Two versions of the proved library side by side: what a call costs after a change, over what it cost before, measured by turns in one run.
//!
//!     between BEFORE AFTER     what the two are called in the table
//!
//! bench/between links both, each with its own beginning to the names of its functions. Prints a table. Both versions get the same
//! requests on heaps in the same states, with one cache place; a version that serves them otherwise than the row says ends the run with status 1.

#[path = "../judges/pair/door.rs"]
mod door;
mod measure;
// The mark is not measured.
#[allow(dead_code)]
#[path = "../bindings/rust/src/record.rs"]
mod record;
mod states;

use door::Door;
use measure::{ratio, Ratio, REPEATS, SPELLS};
use record::{Record, Reply};
use states::{bring, long, Heap, Requests, WORDS};
use std::env;
use std::hint::black_box;
use std::process::exit;

// The record has the size that the headers of both versions say.
const _: () = assert!(
    matches!(usize::from_str_radix(env!("RECORD_BYTES"), 10), Ok(bytes) if bytes == size_of::<Record>()),
    "bindings/rust/src/record.rs has another record than include/lischemur.h"
);

#[link(name = "before", kind = "static")]
extern "C" {
    fn before_lischemur_make(record: *mut Record, heap: *mut u32, len: u64, words: u32) -> Reply;
    fn before_lischemur_one_hand_out(
        record: *mut Record,
        heap: *mut u32,
        len: u64,
        size: u32,
    ) -> Reply;
    fn before_lischemur_one_take_back(
        record: *mut Record,
        heap: *mut u32,
        len: u64,
        at: u32,
    ) -> Reply;
    fn before_lischemur_one_audit(record: Record, heap: *const u32, len: u64) -> u32;
}

#[link(name = "after", kind = "static")]
extern "C" {
    fn after_lischemur_make(record: *mut Record, heap: *mut u32, len: u64, words: u32) -> Reply;
    fn after_lischemur_one_hand_out(
        record: *mut Record,
        heap: *mut u32,
        len: u64,
        size: u32,
    ) -> Reply;
    fn after_lischemur_one_take_back(
        record: *mut Record,
        heap: *mut u32,
        len: u64,
        at: u32,
    ) -> Reply;
    fn after_lischemur_one_audit(record: Record, heap: *const u32, len: u64) -> u32;
}

/// The library before the change.
const BEFORE: Door = Door {
    make: before_lischemur_make,
    hand_out: before_lischemur_one_hand_out,
    take_back: before_lischemur_one_take_back,
    audit: before_lischemur_one_audit,
};

/// The library after it.
const AFTER: Door = Door {
    make: after_lischemur_make,
    hand_out: after_lischemur_one_hand_out,
    take_back: after_lischemur_one_take_back,
    audit: after_lischemur_one_audit,
};

/// The bytes of the large payload.
const LARGE: u32 = 16_384;

/// A call of a turn. Payloads are kept in two places.
#[derive(Clone, Copy)]
enum Step {
    /// The audit alone.
    Audit,
    /// A handout that the cache serves: for a place, of so many bytes.
    Cached(usize, u32),
    /// A handout that the lists serve, with a split.
    Listed(usize, u32),
    /// The free of a place's payload.
    Free(usize),
}
use Step::*;

/// What is measured: calls, again and again, on heaps in a state.
struct Row {
    state: &'static str,
    calls: &'static str,
    heap: fn(Door) -> Heap,
    turn: Vec<Step>,
}

/// A heap and the payloads in its two places.
struct Side {
    heap: Heap,
    places: [u32; 2],
}

impl Side {
    /// The calls of a turn, which leaves the heap as it found it.
    fn run(&mut self, turn: &[Step]) {
        for step in turn {
            match *step {
                Audit => {
                    black_box(black_box(&self.heap).audit());
                }
                Cached(place, size) | Listed(place, size) => {
                    self.places[place] = self.heap.ask(size)
                }
                Free(place) => self.heap.free(self.places[place]),
            }
        }
    }

    /// The same turn, looked at: what is not as the row says.
    fn look(&mut self, turn: &[Step]) -> Result<(), String> {
        let counts = self.heap.counts();
        for step in turn {
            match *step {
                Cached(place, size) => self.look_at(place, size, false)?,
                Listed(place, size) => self.look_at(place, size, true)?,
                Audit | Free(_) => self.run(&[*step]),
            }
        }
        if self.heap.audit() != 1 {
            return Err("the heap is not sound after the calls".to_string());
        }
        // Every split added a chunk, so every one of them was merged again.
        if self.heap.counts() != counts {
            return Err("the calls leave more chunks or fewer than there were".to_string());
        }
        Ok(())
    }

    /// A handout, which has to come from where the row says.
    fn look_at(&mut self, place: usize, size: u32, listed: bool) -> Result<(), String> {
        let (used, free) = self.heap.counts();
        let reply = self.heap.hand_out(size);
        self.places[place] = reply.value;
        let (from, counts) = match listed {
            true => ("the lists with a split", (used + 1, free)),
            false => ("the cache", (used, free)),
        };
        if reply.number != 0 || (reply.compared > 0) != listed || self.heap.counts() != counts {
            return Err(format!(
                "{size} bytes did not come from {from}; number, value and compared are {reply}"
            ));
        }
        Ok(())
    }
}

/// 33 words; the first 16 bytes are cached and the rest is free.
fn small(door: Door) -> Heap {
    let mut heap = Heap::made(door, 33);
    let payload = heap.ask(12);
    heap.free(payload);
    heap
}

/// Part the last free chunk in two, the first for so many bytes, with a used one between them; 16 bytes of the second are cached. A
/// freed chunk goes to the head of its list, so that handouts of 16 bytes and of more than 528 by turns are cut from
/// the one and from the other, and frees give them back to the rest that they were cut from.
fn part(heap: &mut Heap, size: u32) {
    let first = heap.ask(size);
    heap.ask(20);
    heap.free(first);
    let second = heap.ask(12);
    heap.free(second);
}

/// 16,383 words, nearly all free.
fn fresh(door: Door) -> Heap {
    let mut heap = Heap::made(door, WORDS);
    part(&mut heap, 30_000);
    heap
}

/// 16,383 words with every other one of the chunks of 16 bytes free.
fn fragmented(door: Door) -> Heap {
    let shape = long(3940, 12, 2);
    let mut heap = Heap::made(door, shape.words);
    bring(&mut heap, &shape);
    part(&mut heap, 1100);
    heap
}

/// A row of the table.
fn row(state: &'static str, calls: &'static str, heap: fn(Door) -> Heap, turn: &[Step]) -> Row {
    Row {
        state,
        calls,
        heap,
        turn: turn.to_vec(),
    }
}

/// All that is measured.
fn rows() -> Vec<Row> {
    let by_turns = |size| [Listed(0, size), Free(0), Listed(0, 12), Free(0)];
    let mixed = [Listed(0, 20), Cached(1, 12), Free(0), Free(1)];
    let cached = |size| [Cached(0, size), Free(0)];
    let (first, second, third) = (
        "small: 33 words",
        "fresh: 16,383 words",
        "fragmented: 16,383 words, about 2,000 free",
    );
    vec![
        row(first, "audit", small, &[Audit]),
        row(second, "audit", fresh, &[Audit]),
        row(third, "audit", fragmented, &[Audit]),
        row(first, "cache: 12 bytes", small, &cached(12)),
        row(second, "cache: 60 bytes", fresh, &cached(60)),
        row(third, "cache: 60 bytes", fragmented, &cached(60)),
        row(second, "cache: 16 KiB", fresh, &cached(LARGE)),
        row(first, "lists: 20 bytes, cache: 12", small, &mixed),
        row(second, "lists: 540 and 12 bytes", fresh, &by_turns(540)),
        row(third, "lists: 540 and 12 bytes", fragmented, &by_turns(540)),
        row(
            second,
            "lists: 16 KiB and 12 bytes",
            fresh,
            &by_turns(LARGE),
        ),
    ]
}

impl Row {
    /// One version's side, after two turns that were looked at.
    fn side(&self, version: &str, door: Door) -> Side {
        let mut side = Side {
            heap: (self.heap)(door),
            places: [0; 2],
        };
        // What the cache is to serve is put there.
        if let Cached(place, size) = self.turn[0] {
            side.run(&[Listed(place, size), Free(place)]);
        }
        for _ in 0..2 {
            if let Err(why) = side.look(&self.turn) {
                eprintln!("between: {version}, {}, {}: {why}", self.state, self.calls);
                exit(1);
            }
        }
        side
    }

    /// What a turn takes after the change, over what it took before.
    fn measure(&self, names: &[String]) -> Ratio {
        let mut before = self.side(&names[0], BEFORE);
        let mut after = self.side(&names[1], AFTER);
        ratio(|| after.run(&self.turn), || before.run(&self.turn))
    }

    /// Its line of the table; times are a call's.
    fn line(&self, measured: &Ratio) -> String {
        let calls = self.turn.len() as f64;
        format!(
            "| {} | {} | {} | {} | {:.3} | {:.3} to {:.3} |",
            self.state,
            self.calls,
            shown(measured.under / calls),
            shown(measured.over / calls),
            measured.median,
            measured.least,
            measured.most
        )
    }
}

/// Nanoseconds as the table has them: from a thousand on without a fraction, thousands set apart.
fn shown(nanoseconds: f64) -> String {
    let whole = nanoseconds.round() as u64;
    match whole {
        0..1000 => format!("{nanoseconds:.1}"),
        1000..1_000_000 => format!("{},{:03}", whole / 1000, whole % 1000),
        _ => format!("{whole}"),
    }
}

/// Measure and print.
fn main() {
    let names: Vec<String> = env::args().skip(1).collect();
    if names.len() != 2 {
        eprintln!("between: say what the two versions are called; bench/between does");
        exit(2);
    }
    println!(
        "| Heap | Calls | {}, ns a call | {}, ns a call | After over before | Spread |",
        names[0], names[1]
    );
    println!("|---|---|---|---|---|---|");
    for row in rows() {
        println!("{}", row.line(&row.measure(&names)));
    }
    println!("\nThe median of {REPEATS} repeats, and the least and the most; a repeat keeps the fastest of {SPELLS} short spells of either.");
}
