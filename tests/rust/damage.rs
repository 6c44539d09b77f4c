//! Damaged heaps: the audit says no exactly when the heap is not sound, every call is then refused as
//! damaged, and not a field of the record and not a word changes.

use crate::checks::{set_word, state, word, Checks, Numbers};
use crate::sound::sound;
use lischemur::{map_room, Heap, Kind, Memory, Offset, Record, Refusal, MOST_SIZE};

/// How many heaps are damaged at random.
const ROUNDS: u64 = 40_000;

/// The words of each heap.
const WORDS: u32 = 101;

/// A record with one field changed.
fn damaged(mut record: Record, numbers: &mut Numbers) -> Record {
    let near = numbers.one_of(&[1, 2, 4, 8, 16, 24]);
    let class = numbers.below(6) as usize;
    let link = numbers.below(WORDS + 8) as u16;
    let counter = match numbers.below(9) {
        0 => &mut record.words,
        1 => &mut record.in_use,
        2 => &mut record.committed,
        3 => &mut record.peak,
        4 => &mut record.high,
        5 => {
            record.prev[class] = link;
            return record;
        }
        6 => {
            record.next[class] = link;
            return record;
        }
        7 => {
            record.cached[numbers.below(4) as usize] = link;
            return record;
        }
        _ => {
            record.fresh = record
                .fresh
                .wrapping_add(numbers.one_of(&[1, 2, 3, 4, 65_536]));
            return record;
        }
    };
    *counter = if numbers.below(2) == 0 {
        counter.wrapping_add(near)
    } else {
        counter.wrapping_sub(near)
    };
    record
}

/// Every call on a heap, sound or not; the heap is given back as it was.
fn judged(checks: &mut Checks, heap: &mut Heap, live: &[Offset], numbers: &mut Numbers) -> bool {
    let before = state(heap, WORDS);
    let is_sound = sound(&before.0, &before.1, heap.kind().places());
    checks.equal(format_args!("audit of {before:?}"), heap.audit(), is_sound);
    let mut unchanged = |what, heap: &Heap| {
        checks.equal(
            format_args!("after {what}"),
            state(heap, WORDS),
            before.clone(),
        );
    };
    if is_sound {
        return true;
    }
    let size = 1 + numbers.below(200);
    let refused = heap.hand_out(size);
    unchanged("a handout", heap);
    let mut offsets = vec![numbers.below(4 * WORDS), numbers.any()];
    offsets.extend(live.iter().take(2).map(|payload| payload.0));
    let mut frees = Vec::new();
    for offset in offsets {
        frees.push(heap.take_back(Offset(offset)));
        unchanged("a free", heap);
    }
    frees.push(heap.free(std::ptr::NonNull::dangling()));
    unchanged("a free of a pointer that is outside", heap);
    let mut room = [b'~'; map_room(WORDS as usize)];
    let map = heap.write_map(&mut room).map(<[u8]>::to_vec);
    unchanged("a map", heap);
    let zero = heap.hand_out(0);
    let large = heap.hand_out(MOST_SIZE + 1);
    unchanged("sizes that are refused first", heap);
    checks.equal(format_args!("handout"), refused, Err(Refusal::Damaged));
    for freed in frees {
        checks.equal(format_args!("free"), freed, Err(Refusal::Damaged));
    }
    checks.equal(format_args!("map"), map, Err(Refusal::Damaged));
    let kept = room.iter().all(|byte| *byte == b'~');
    checks.holds(format_args!("the map's room"), kept);
    checks.equal(format_args!("size zero"), zero, Err(Refusal::ZeroSize));
    checks.equal(format_args!("a large size"), large, Err(Refusal::TooLarge));
    false
}

/// Run all; how many heaps were damaged.
pub fn run(checks: &mut Checks) -> u32 {
    let (mut found, mut harmless) = (0, 0);
    for seed in 0..ROUNDS {
        checks.begin(format!("damage {seed}"));
        let numbers = &mut Numbers::new(seed);
        let mut memory = Memory::<{ WORDS as usize }>::new();
        let kind = numbers.one_of(&[Kind::One, Kind::Four]);
        let mut heap = Heap::make_as(kind, memory.words()).expect("an accepted length");
        let mut live = Vec::new();
        for _ in 0..numbers.below(20) {
            if numbers.below(3) > 0 {
                live.extend(heap.hand_out(1 + numbers.below(60)));
            } else if !live.is_empty() {
                let payload = live.swap_remove(numbers.below(live.len() as u32) as usize);
                checks.equal(format_args!("a free"), heap.take_back(payload), Ok(()));
            }
        }
        checks.holds(format_args!("sound before the damage"), heap.audit());
        if numbers.below(2) == 0 {
            let (record, words) = heap.into_parts();
            heap = Heap::over_as(kind, damaged(record, numbers), words);
        } else {
            let index = numbers.below(WORDS);
            let old = word(&heap, index);
            let new = match numbers.below(4) {
                0 => old ^ (1 << numbers.below(32)),
                1 => old.wrapping_add(8),
                2 => numbers.below(128),
                _ => numbers.any(),
            };
            set_word(&heap, index, new);
        }
        if judged(checks, &mut heap, &live, numbers) {
            harmless += 1;
        } else {
            found += 1;
        }
    }
    checks.begin("all damage".into());
    checks.holds(format_args!("{harmless} harmless changes"), harmless > 100);
    checks.holds(format_args!("{found} damaged heaps"), found > 1000);
    found
}
