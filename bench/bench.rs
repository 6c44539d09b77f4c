//! The benchmarks: what the audit costs, alone and in every call, as ratios of times measured side by side in one run.
//!
//!     bench [FILE]
//!
//! Prints the figures; with FILE it also writes there the sections of docs/BENCHMARKS.md that `bench/run --record` puts in their place.
//! Status 1 if the audit misses a target by more than twice.

#[path = "../judges/pair/door.rs"]
mod door;
mod measure;
#[path = "../bindings/rust/src/record.rs"]
mod record;
mod states;
// The bench uses a part of these three.
#[allow(dead_code)]
#[path = "../bindings/rust/src/door.rs"]
mod library;
#[allow(dead_code)]
#[path = "../judges/pair/numbers.rs"]
mod numbers;
#[allow(dead_code)]
#[path = "../judges/pair/port.rs"]
mod port;

use measure::{ratio, Ratio, REPEATS, SPELLS};
use numbers::Numbers;
use oracle::Oracle;
use port::ONE_DOOR;
use states::{bring, long, Heap, Requests, Shape, WORDS};
use std::fs;
use std::hint::black_box;
use std::process::exit;

/// A ratio with what is said of it.
struct Row {
    name: String,
    /// What it should not exceed, if something is said.
    target: Option<f64>,
    ratio: Ratio,
}

impl Requests for Oracle {
    fn ask(&mut self, size: u32) -> u32 {
        self.hand_out(size).expect("there is room")
    }

    fn free(&mut self, payload: u32) {
        // Safety: the bench frees live payloads only.
        unsafe { self.take_back(payload) }
    }
}

/// One walk of the tiling: a plain loop over the headers.
#[inline(never)]
fn walk(words: &[u32]) -> usize {
    let mut at = 0;
    let mut chunks = 0;
    while at + 1 < words.len() {
        at += (words[at] / 8 * 2) as usize;
        chunks += 1;
    }
    chunks
}

impl Row {
    /// Measure it, and say it on one line.
    fn new(name: String, target: Option<f64>, over: impl FnMut(), under: impl FnMut()) -> Row {
        let row = Row {
            name,
            target,
            ratio: ratio(over, under),
        };
        row.print();
        row
    }

    /// Say it on one line.
    fn print(&self) {
        println!(
            "{}: {:.2} ({:.2} to {:.2}), {:.0} ns over {:.1} ns{}",
            self.name,
            self.ratio.median,
            self.ratio.least,
            self.ratio.most,
            self.ratio.over,
            self.ratio.under,
            self.target.map_or(String::new(), |target| format!(
                ", target {target}: {}",
                self.verdict()
            ))
        );
    }

    /// Whether the target is met.
    fn verdict(&self) -> &'static str {
        match self.target {
            None => "",
            Some(target) if self.ratio.median <= target => "met",
            Some(_) => "missed",
        }
    }
}

/// The audit alone against one walk of the same words.
fn audit_ratio(name: &str, target: Option<f64>, shape: &Shape) -> Row {
    let mut heap = Heap::made(ONE_DOOR, shape.words);
    bring(&mut heap, shape);
    let (used, free) = heap.counts();
    assert_eq!(heap.audit(), 1, "the heap is sound");
    Row::new(
        format!("{name} ({free} free, {used} used)"),
        target,
        || {
            black_box(black_box(&heap).audit());
        },
        || {
            black_box(walk(black_box(heap.words)));
        },
    )
}

/// The requests of a cycle: slots that are freed and asked for again in a fixed order, so that it can go on for ever.
struct Cycle {
    slots: Vec<u32>,
    sizes: Vec<u32>,
    numbers: Numbers,
}

impl Cycle {
    /// The cycle with its first asks done.
    fn new(heap: &mut impl Requests, sizes: &[u32]) -> Cycle {
        Cycle {
            slots: sizes.iter().map(|size| heap.ask(*size)).collect(),
            sizes: sizes.to_vec(),
            numbers: Numbers::new(1),
        }
    }

    /// Two requests: a slot is freed, and asked for with another slot's size.
    fn turn(&mut self, heap: &mut impl Requests) {
        let slot = self.numbers.below(self.slots.len() as u32) as usize;
        heap.free(self.slots[slot]);
        self.slots[slot] = heap.ask(self.numbers.pick(&self.sizes));
    }
}

/// Our calls against the Rust's: the same requests put to both.
fn call_ratio(name: &str, oracle: &mut Oracle, shape: &Shape, sizes: &[u32]) -> Row {
    let mut heap = Heap::made(ONE_DOOR, shape.words);
    bring(&mut heap, shape);
    let mut ours = Cycle::new(&mut heap, sizes);
    oracle.make(shape.words);
    bring(oracle, shape);
    let mut theirs = Cycle::new(oracle, sizes);
    Row::new(
        name.to_string(),
        None,
        || ours.turn(&mut heap),
        || theirs.turn(oracle),
    )
}

/// The rows of a table.
fn rows(rows: &[Row]) -> String {
    let line = |row: &Row| {
        let target = row
            .target
            .map_or(String::new(), |t| format!(" {t} ({}) |", row.verdict()));
        let r = &row.ratio;
        format!(
            "| {} | {:.1} | {:.1} to {:.1} |{target}\n",
            row.name, r.median, r.least, r.most
        )
    };
    rows.iter().map(line).collect()
}

/// The sections of docs/BENCHMARKS.md that are measured here, below their first heading.
fn sections(audits: &[Row], untargeted: &[Row], calls: &[Row]) -> String {
    format!(
        "\
`bench/run` measures this section and the next; `bench/run --record` also writes them here and draws the plot. The figures are ratios of times on one computer,
both sides optimised and measured in turns in one process: the median of {REPEATS} repeats, and the least and the most. A repeat keeps
the fastest of {SPELLS} short spells of either side. On a busy computer the audit was seen
to take up to twice its time where a walk of 4,000 chunks hardly took longer, so there medians and spreads are higher.

![Two panels: the audit over one walk of the same heap, with its targets, and our calls over the Rust's](benchmarks.svg)

Here it is the audit alone, `lischemur_audit`, over a plain loop that goes from header to header of the same words and tests nothing. The
heap has 16,383 words.

| Heap, by chunks | Audit over walk | Spread | Target |
|---|---|---|---|
{}
Where the time goes: the tiling is walked with all tests, and from its first free chunk on once more with one. Each list is followed
once both ways, and once more for each of the 8 windows of 2,048 words. With few chunks a fixed cost shows, which a heap just made has alone.
States that tell these apart, and one that shows that it is the same wherever the cached chunk stands:

| Heap, by chunks | Audit over walk | Spread |
|---|---|---|
{}
On the stack the audit needs 128 bytes of marks besides its locals, whatever the length of the heap.

## Calls against the Rust

Handing out and taking back through the door, over Hopter's `heap.rs` as the oracle runs it: the same requests, a free and an ask by turns,
on the same states. Each of our calls audits the whole heap first, and the Rust's trusts it; this is the price of answer 5.

| Heap | Our call over the Rust's | Spread |
|---|---|---|
{}",
        rows(audits),
        rows(untargeted),
        rows(calls)
    )
}

/// The audit on the states that have a target.
fn audits() -> Vec<Row> {
    vec![
        audit_ratio("about 2,000 free", Some(20.0), &long(4000, 12, 2)),
        audit_ratio("about 200 free", Some(4.0), &long(4000, 12, 20)),
        audit_ratio("nearly empty", Some(8.0), &long(8, 100, 0)),
    ]
}

/// The audit on states that have none.
fn more_audits() -> Vec<Row> {
    let early = Shape {
        backwards: true,
        ..long(4000, 12, 20)
    };
    vec![
        audit_ratio("cached chunk first", None, &early),
        audit_ratio("nothing cached", None, &long(4000, 12, 0)),
        audit_ratio("few and longer", None, &long(400, 156, 2)),
        audit_ratio("a tenth in use", None, &long(60, 100, 0)),
        audit_ratio("just made", None, &long(0, 0, 0)),
    ]
}

/// Our calls over the Rust's on three states.
fn calls() -> Vec<Row> {
    let mut oracle = Oracle::only();
    let shape = |words, asks, free_every| Shape {
        words,
        asks,
        size: 12,
        free_every,
        backwards: false,
    };
    vec![
        call_ratio("small: 33 words", &mut oracle, &shape(33, 0, 0), &[12, 20]),
        call_ratio(
            "fresh: 16,383 words",
            &mut oracle,
            &shape(WORDS, 0, 0),
            &[24, 60, 100, 200],
        ),
        call_ratio(
            "fragmented: 16,383 words, 2,000 free",
            &mut oracle,
            &shape(WORDS, 4000, 2),
            &[24, 60, 100, 200],
        ),
    ]
}

/// Measure, write if that is asked, and judge by the targets.
fn main() -> std::io::Result<()> {
    let (audits, more, calls) = (audits(), more_audits(), calls());
    if let Some(file) = std::env::args_os().nth(1) {
        fs::write(file, sections(&audits, &more, &calls))?;
    }
    let wide = |row: &&Row| {
        row.target
            .is_some_and(|target| row.ratio.median > 2.0 * target)
    };
    let missed: Vec<&str> = audits
        .iter()
        .filter(wide)
        .map(|row| row.name.as_str())
        .collect();
    if !missed.is_empty() {
        eprintln!("bench: more than twice the target: {}", missed.join("; "));
        exit(1);
    }
    Ok(())
}
