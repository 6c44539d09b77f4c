//! Fixed checks: the rules' whole run and their entries reckoned by hand, the incident, the figures after
//! each kind of call, frees that must be refused, pointers, and maps.

use crate::checks::{figures, set_word, state, word, Checks};
use lischemur::{
    accepted, map_room, served, words_for, Heap, Kind, Memory, Offset, Record, Refusal, MAP_LINE,
    MOST_SIZE, MOST_WORDS,
};
use std::ptr::NonNull;

/// The rules' whole run: a frame, and the answer line to it.
const WHOLE_RUN: [(&str, &str); 11] = [
    ("0000000021", "000000000000000000"),
    ("010000000D", "000000000400000001"),
    ("010000000C", "000000001C00000001"),
    ("0200000004", "000000000000000000"),
    ("0100000014", "000000000400000000"),
    ("0200000004", "000000000000000000"),
    ("0200000004", "040000000000000000"),
    ("020000001C", "000000000000000000"),
    ("01FFFFFFFF", "020000000000000000"),
    ("0100000000", "010000000000000000"),
    ("0100000058", "000000000400000001"),
];

/// The answer line to a frame.
fn answer_line(heap: &mut Heap, frame: &str) -> String {
    let number = u32::from_str_radix(&frame[2..], 16).expect("eight digits");
    let answer = match &frame[..2] {
        "00" => heap.make_again().map(|()| Offset(0)),
        "01" => heap.hand_out(number),
        _ => heap.take_back(Offset(number)).map(|()| Offset(0)),
    };
    let (number, Offset(value)) = match answer {
        Ok(value) => (0, value),
        Err(refusal) => (refusal.number(), Offset(0)),
    };
    format!("{number:02X}{value:08X}{:08X}", heap.compared())
}

/// The rules' whole run, line by line.
fn whole_run(checks: &mut Checks) {
    for kind in [Kind::One, Kind::Four] {
        let mut memory = Memory::<33>::new();
        let mut heap = Heap::over_as(kind, Record::EMPTY, memory.words());
        for (frame, line) in WHOLE_RUN {
            let got = answer_line(&mut heap, frame);
            checks.equal(format_args!("{kind:?}, frame {frame}"), got.as_str(), line);
        }
    }
}

/// Dimensioning: as many words as `words_for` says serve and two fewer do not; a chunk serves what `served` says and not a byte more.
fn dimensions(checks: &mut Checks) {
    let mut words = vec![0u32; 5_000];
    let handouts = |lent: &mut [u32], size: usize| {
        let mut heap = Heap::make(lent).expect("an accepted length");
        (0..).take_while(|_| heap.alloc(size).is_ok()).count()
    };
    for size in 1..1_200 {
        for count in 1..4 {
            let enough = words_for(count, size);
            let (more, less) = (
                handouts(&mut words[..enough], size),
                handouts(&mut words[..enough - 2], size),
            );
            let what = format_args!("{count} of {size} bytes in {enough} words: {more}, {less}");
            checks.equal(what, (more >= count, less < count), (true, true));
        }
    }
    for length in (5..1_200).step_by(2) {
        let size = served(4 * (length - 1));
        let mut heap = Heap::make(&mut words[..length]).expect("an accepted length");
        let what = format_args!("{} bytes in {length} words", size + 1);
        checks.equal(what, heap.alloc(size + 1), Err(Refusal::NeverFits));
        let got = heap.alloc(size).is_ok();
        checks.equal(
            format_args!("{size} bytes in {length} words"),
            got,
            size > 0,
        );
    }
}

/// The incident: sizes whose sum with a header wraps are too large, and nothing changes.
fn incident(checks: &mut Checks) {
    let mut memory = Memory::<33>::new();
    let mut heap = Heap::make(memory.words()).expect("an accepted length");
    checks.equal(format_args!("handout"), heap.hand_out(13), Ok(Offset(4)));
    let before = state(&heap, 33);
    for size in (MOST_SIZE + 1..=u32::MAX).rev() {
        let got = heap.hand_out(size);
        checks.equal(
            format_args!("asked for {size}"),
            got,
            Err(Refusal::TooLarge),
        );
        checks.equal(format_args!("after it"), state(&heap, 33), before.clone());
    }
    let sizes: [u64; 4] = [4_294_967_295, 4_294_967_296, 4_294_967_308, u64::MAX];
    for size in sizes.map(|size| usize::try_from(size).unwrap_or(usize::MAX)) {
        let got = heap.alloc(size);
        checks.equal(
            format_args!("asked for {size}"),
            got,
            Err(Refusal::TooLarge),
        );
        checks.equal(format_args!("after it"), state(&heap, 33), before.clone());
    }
    let most = heap.hand_out(MOST_SIZE);
    checks.equal(
        format_args!("the largest size"),
        most,
        Err(Refusal::NeverFits),
    );
    checks.equal(format_args!("after it"), state(&heap, 33), before);
}

/// A lent run of zeros, a heap over it, and what a few requests give.
fn entry(checks: &mut Checks, words: usize, sizes: &[u32], wanted: &[Result<Offset, Refusal>]) {
    let mut lent = vec![0; words];
    let mut heap = Heap::make(&mut lent).expect("an accepted length");
    let got: Vec<_> = sizes.iter().map(|size| heap.hand_out(*size)).collect();
    let what = format_args!("{words} words, asked for {sizes:?}");
    checks.equal(what, got.as_slice(), wanted);
}

/// The rules' entries reckoned by hand, as far as a caller sees them.
fn entries(checks: &mut Checks) {
    for words in [0, 1, 3, 4, 8, 65_528, 65_530, 65_531, 100_001] {
        let mut lent = vec![7; words];
        let refusal = Heap::make(&mut lent).err();
        let what = format_args!("making {words} words");
        checks.equal(what, refusal, Some(Refusal::BadLength));
        checks.holds(what, lent.iter().all(|word| *word == 7) && !accepted(words));
    }
    for words in [5, 7, 33, 65_527, MOST_WORDS] {
        let mut lent = vec![7; words];
        let heap = Heap::make(&mut lent);
        let held = heap.is_ok_and(|heap| heap.audit()) && accepted(words);
        checks.holds(format_args!("making {words} words"), held);
    }
    let no_fit = Err(Refusal::NoFit);
    let never = Err(Refusal::NeverFits);
    entry(checks, 5, &[1], &[never]);
    entry(checks, 7, &[1], &[never]);
    entry(checks, 9, &[12, 1], &[Ok(Offset(4)), no_fit]);
    entry(checks, 9, &[20, 1], &[Ok(Offset(4)), no_fit]);
    entry(checks, 9, &[28, MOST_SIZE], &[never, never]);
    entry(
        checks,
        33,
        &[1, 12, 13, 1],
        &[4, 20, 36, 60].map(|at| Ok(Offset(at))),
    );

    // a cached chunk of 536 serves 24 bytes, one of 544 does not
    for (size, second) in [(532, Offset(4)), (540, Offset(548))] {
        let mut lent = vec![0; 1001];
        let mut heap = Heap::make(&mut lent).expect("an accepted length");
        let first = heap.hand_out(size);
        checks.equal(format_args!("asked for {size}"), first, Ok(Offset(4)));
        checks.equal(format_args!("free"), heap.take_back(Offset(4)), Ok(()));
        let next = heap.hand_out(20);
        checks.equal(format_args!("20 after {size}"), next, Ok(second));
    }

    // 33 words with one cache place: a merge on the left, and the counters
    let mut lent = vec![0; 33];
    let mut heap = Heap::make_as(Kind::One, &mut lent).expect("an accepted length");
    for at in [4, 20, 36] {
        checks.equal(
            format_args!("asked for 12"),
            heap.hand_out(12),
            Ok(Offset(at)),
        );
    }
    for at in [4, 36, 20] {
        checks.equal(
            format_args!("free of {at}"),
            heap.take_back(Offset(at)),
            Ok(()),
        );
    }
    checks.equal(
        format_args!("asked for 40"),
        heap.hand_out(40),
        Ok(Offset(36)),
    );
    let counters = (heap.high_water(), heap.peak());
    checks.equal(format_args!("high water and peak"), counters, (80, 64));
    checks.equal(
        format_args!("free of 36"),
        heap.take_back(Offset(36)),
        Ok(()),
    );
    let sums = (heap.in_use(), heap.committed());
    checks.equal(format_args!("in use and committed"), sums, (0, 48));
    checks.equal(format_args!("the merged chunk"), word(&heap, 0), 33);
}

/// In use, what tasks hold, and committed, that and the cached chunk, after each kind of call; peak follows committed.
const FIGURES: [(&str, (u32, u32, u32, u32)); 13] = [
    ("0000000021", (0, 0, 0, 0)),
    ("010000000C", (16, 16, 16, 16)),
    ("0100000014", (40, 40, 40, 40)),
    // cached, handed out from the cache, and the other one cached
    ("0200000004", (24, 40, 40, 40)),
    ("010000000C", (40, 40, 40, 40)),
    ("0200000014", (16, 40, 40, 40)),
    // from a list beside the cached chunk of 24, and that one released
    ("0100000028", (64, 88, 88, 88)),
    ("0200000004", (48, 64, 88, 88)),
    // refused
    ("0200000004", (48, 64, 88, 88)),
    ("01000000C8", (48, 64, 88, 88)),
    ("0100000008", (64, 64, 88, 88)),
    ("020000002C", (16, 64, 88, 88)),
    ("0000000021", (0, 0, 0, 0)),
];

/// The figures after each kind of call.
fn both_figures(checks: &mut Checks) {
    let mut memory = Memory::<33>::new();
    let mut heap = Heap::over_as(Kind::One, Record::EMPTY, memory.words());
    for (frame, wanted) in FIGURES {
        answer_line(&mut heap, frame);
        checks.equal(format_args!("after {frame}"), figures(&heap), wanted);
    }
}

/// Frees that must be refused, and that change nothing.
fn frees(checks: &mut Checks) {
    let mut memory = Memory::<101>::new();
    let mut heap = Heap::make(memory.words()).expect("an accepted length");
    let first = heap.alloc(40).expect("a payload");
    let second = heap.alloc(40).expect("a payload");
    checks.equal(format_args!("free"), heap.free(first), Ok(()));
    // a task's data that looks like a used header of 16 bytes
    set_word(&heap, 14, 19);
    let before = state(&heap, 101);
    let inside = heap.pointer(Offset(60)).expect("a byte of the heap");
    let mut elsewhere = 0_u64;
    let outside = NonNull::from(&mut elsewhere).cast();
    for pointer in [first, inside, outside, NonNull::dangling()] {
        let freed = heap.free(pointer);
        checks.equal(
            format_args!("a free of no live payload"),
            freed,
            Err(Refusal::NotLive),
        );
        checks.equal(format_args!("after it"), state(&heap, 101), before.clone());
    }
    checks.equal(format_args!("free"), heap.free(second), Ok(()));
    for pointer in [first, second] {
        let freed = heap.free(pointer);
        checks.equal(format_args!("a double free"), freed, Err(Refusal::NotLive));
    }
}

/// Pointers and offsets, there and back.
fn pointers(checks: &mut Checks) {
    let mut memory = Memory::<101>::new();
    let start = memory.words().as_mut_ptr() as usize;
    checks.equal(format_args!("start of the memory mod 8"), start % 8, 4);
    let mut heap = Heap::make(memory.words()).expect("an accepted length");
    checks.holds(format_args!("payloads are 8-aligned"), heap.aligned());
    for at in 0..404 {
        let pointer = heap.pointer(Offset(at)).expect("a byte of the heap");
        checks.equal(
            format_args!("pointer"),
            pointer.as_ptr() as usize,
            start + at as usize,
        );
        checks.equal(
            format_args!("offset"),
            heap.offset(pointer),
            Some(Offset(at)),
        );
    }
    for at in [404, 405, u32::MAX] {
        let pointer = heap.pointer(Offset(at));
        checks.equal(format_args!("pointer to {at}"), pointer, None);
    }
    for address in [start - 1, start + 404, 1, usize::MAX] {
        let pointer = NonNull::new(address as *mut u8).expect("not null");
        checks.equal(
            format_args!("offset of {address}"),
            heap.offset(pointer),
            None,
        );
    }
    while let Ok(payload) = heap.alloc(13) {
        checks.equal(
            format_args!("payload mod 8"),
            payload.as_ptr() as usize % 8,
            0,
        );
    }

    // a heap goes on where it was left
    let (record, words) = heap.into_parts();
    let mut heap = Heap::over(record, words);
    checks.holds(format_args!("sound as it was left"), heap.audit());
    checks.equal(format_args!("free"), heap.take_back(Offset(4)), Ok(()));

    // words that start elsewhere make a heap too, and it says so
    let mut memory = Memory::<103>::new();
    let mut heap = Heap::make(&mut memory.words()[1..102]).expect("an accepted length");
    checks.holds(format_args!("payloads are not 8-aligned"), !heap.aligned());
    checks.equal(format_args!("handout"), heap.hand_out(13), Ok(Offset(4)));
}

/// The map of a heap after each of a few frames.
const MAPS: [(&str, &str); 7] = [
    ("0000000021", "100000000000000080\n"),
    ("010000000C", "110000000000000010\n100000001000000070\n"),
    (
        "010000000C",
        "110000000000000010\n110000001000000010\n100000002000000060\n",
    ),
    (
        "010000000C",
        "110000000000000010\n110000001000000010\n110000002000000010\n100000003000000050\n",
    ),
    (
        "0200000004",
        "120000000000000010\n110000001000000010\n110000002000000010\n100000003000000050\n",
    ),
    (
        "0200000024",
        "100000000000000010\n110000001000000010\n120000002000000010\n100000003000000050\n",
    ),
    (
        "0200000014",
        "100000000000000010\n120000001000000010\n100000002000000060\n",
    ),
];

/// Maps in room of every length, which keeps what no line takes.
fn maps(checks: &mut Checks) {
    let mut memory = Memory::<33>::new();
    let mut heap = Heap::over_as(Kind::One, Record::EMPTY, memory.words());
    for (frame, lines) in MAPS {
        answer_line(&mut heap, frame);
        let before = state(&heap, 33);
        for len in 0..=map_room(33) {
            let mut room = vec![b'~'; len];
            let got = heap.write_map(&mut room).map(<[u8]>::to_vec);
            let fits = lines.len() <= len;
            let wanted = if fits {
                Ok(lines.into())
            } else {
                Err(Refusal::NoRoom)
            };
            checks.equal(format_args!("map after {frame}, in {len}"), got, wanted);
            let kept = if fits { &room[lines.len()..] } else { &room };
            checks.holds(
                format_args!("its room"),
                kept.iter().all(|byte| *byte == b'~'),
            );
        }
        checks.equal(format_args!("after the map"), state(&heap, 33), before);
    }

    // as many chunks as words allow
    let mut lent = vec![0; 1001];
    let mut heap = Heap::make(&mut lent).expect("an accepted length");
    while heap.hand_out(12).is_ok() {}
    let mut room = vec![0; map_room(1001)];
    let lines = heap.write_map(&mut room).map(|map| map.len() / MAP_LINE);
    checks.equal(format_args!("lines of the longest map"), lines, Ok(250));
}

/// Four cache places: what is freed is handed out again oldest first, and a fifth free releases the oldest.
fn four_places(checks: &mut Checks) {
    let mut memory = Memory::<25>::new();
    let mut heap = Heap::make(memory.words()).expect("an accepted length");
    checks.equal(format_args!("kind"), heap.kind(), Kind::Four);
    for at in [4, 20, 36, 52, 68] {
        let got = heap.hand_out(12);
        checks.equal(format_args!("handout"), got, Ok(Offset(at)));
    }
    for at in [4, 20, 36, 52, 68] {
        let freed = heap.take_back(Offset(at));
        checks.equal(format_args!("free of {at}"), freed, Ok(()));
    }
    let cached = heap.record().cached;
    checks.equal(format_args!("cached"), cached, [10, 14, 18, 22]);
    checks.equal(format_args!("figures"), figures(&heap), (0, 64, 80, 80));
    let mut room = [0; map_room(25)];
    let map = heap.write_map(&mut room).map(<[u8]>::to_vec);
    let wanted: &[u8] = b"100000000000000010\n120000001000000010\n120000002000000010\n\
        120000003000000010\n120000004000000010\n100000005000000010\n";
    checks.equal(format_args!("map"), map, Ok(wanted.into()));

    // to calls with one place it is damaged, and nothing changes
    let (record, words) = heap.into_parts();
    let mut one = Heap::over_as(Kind::One, record, words);
    checks.holds(format_args!("four cached, one place"), !one.audit());
    let refused = (one.hand_out(12), one.take_back(Offset(4)));
    let wanted = (Err(Refusal::Damaged), Err(Refusal::Damaged));
    checks.equal(format_args!("four cached, one place"), refused, wanted);
    let map = one.write_map(&mut room).map(<[u8]>::len);
    checks.equal(format_args!("its map"), map, Err(Refusal::Damaged));
    checks.equal(format_args!("its record"), *one.record(), record);

    let (record, words) = one.into_parts();
    let mut heap = Heap::over(record, words);
    for at in [20, 36, 52, 68] {
        let again = heap.hand_out(12);
        checks.equal(format_args!("handed out again"), again, Ok(Offset(at)));
    }
    let fifth = heap.hand_out(12);
    checks.equal(format_args!("a fifth"), fifth, Err(Refusal::NoFit));
}

/// One history for each kind of heap: sizes asked for, offsets freed, a last request, what it gives, and how many chunks it compares.
type Emptied = (
    usize,
    &'static [u32],
    &'static [u32],
    u32,
    Result<Offset, Refusal>,
    u32,
);

/// The cache is emptied before a handout is refused, and what can never fit is told; refused after all, nothing has changed.
fn emptying(checks: &mut Checks) {
    const NO_FIT: Result<Offset, Refusal> = Err(Refusal::NoFit);
    const NEVER: Result<Offset, Refusal> = Err(Refusal::NeverFits);
    const CASES: [Emptied; 9] = [
        (9, &[12], &[4], 20, Ok(Offset(4)), 1),
        (9, &[12], &[4], 28, NEVER, 0),
        (9, &[20], &[4], 28, NEVER, 0),
        (131, &[], &[], 541, NEVER, 0),
        (135, &[12], &[], 532, NO_FIT, 2),
        (281, &[556, 548], &[4], 557, NO_FIT, 1),
        (281, &[556, 548], &[4], 12, Ok(Offset(4)), 1),
        (17, &[12, 12, 12], &[36], 20, Ok(Offset(36)), 1),
        (17, &[12, 12, 12], &[20], 20, NO_FIT, 0),
    ];
    for kind in [Kind::One, Kind::Four] {
        for (words, sizes, frees, size, wanted, compared) in CASES {
            let what = format_args!("{kind:?}, {words} words, {sizes:?}, free {frees:?}, {size}");
            let mut lent = vec![0; words];
            let mut heap = Heap::make_as(kind, &mut lent).expect("an accepted length");
            for size in sizes {
                let at = heap.hand_out(*size).expect("there is room").0 / 4;
                for index in at..at - 1 + word(&heap, at - 1) / 4 {
                    set_word(&heap, index, u32::MAX);
                }
            }
            for at in frees {
                checks.equal(what, heap.take_back(Offset(*at)), Ok(()));
            }
            let before = state(&heap, words as u32);
            checks.equal(what, heap.hand_out(size), wanted);
            checks.equal(what, heap.compared(), compared);
            checks.holds(what, heap.audit());
            if wanted.is_err() {
                checks.equal(what, state(&heap, words as u32), before);
            } else {
                checks.equal(what, heap.record().cached, [0; 4]);
            }
        }
    }
}

/// Run all.
pub fn run(checks: &mut Checks) {
    let parts: [(&str, fn(&mut Checks)); 10] = [
        ("whole run", whole_run),
        ("dimensions", dimensions),
        ("incident", incident),
        ("entries reckoned by hand", entries),
        ("in use and committed", both_figures),
        ("refused frees", frees),
        ("pointers", pointers),
        ("maps", maps),
        ("four cache places", four_places),
        ("the cache emptied before a refusal", emptying),
    ];
    for (name, part) in parts {
        checks.begin(name.into());
        part(checks);
    }
}
