//! What crosses the door: the record's layout, here and as the archive's functions see it, the answer
//! numbers, records that no heap was made with, and the mark.

use crate::checks::{figures, state, word, Checks};
use lischemur::{Heap, Memory, Offset, Record, Refusal};
use std::mem::{align_of, offset_of, size_of};

/// The record's layout: in this crate, and in the archive as its readers see it.
fn layout(checks: &mut Checks) {
    let sizes = (size_of::<Record>(), align_of::<Record>());
    checks.equal(
        format_args!("size and alignment of the record"),
        sizes,
        (56, 4),
    );
    let offsets = [
        offset_of!(Record, prev),
        offset_of!(Record, next),
        offset_of!(Record, cached),
        offset_of!(Record, words),
        offset_of!(Record, in_use),
        offset_of!(Record, committed),
        offset_of!(Record, peak),
        offset_of!(Record, high),
        offset_of!(Record, fresh),
    ];
    let wanted = [0, 12, 24, 32, 36, 40, 44, 48, 52];
    checks.equal(format_args!("offsets of its fields"), offsets, wanted);

    let record = Record {
        prev: [1, 2, 3, 4, 5, 6],
        next: [7, 8, 9, 10, 11, 12],
        words: 0x0102_0304,
        in_use: 0x1112_1314,
        committed: 0x5152_5354,
        peak: 0x2122_2324,
        high: 0x3132_3334,
        cached: [0x4142, 0x4344, 0x4546, 0x4748],
        fresh: 1,
    };
    let mut heap = Heap::over(record, &mut []);
    let wanted = (record.in_use, record.committed, record.peak, record.high);
    let readers = figures(&heap);
    checks.equal(format_args!("readers"), readers, wanted);
    let mark = heap.mark(0);
    checks.equal(format_args!("mark"), mark, Some(0x3132_3334));
    let marked = Record { fresh: 0, ..record };
    checks.equal(
        format_args!("record after the mark"),
        *heap.record(),
        marked,
    );

    let mut memory = Memory::<33>::new();
    let mut heap = Heap::make(memory.words()).expect("an accepted length");
    let made = Record {
        prev: [0, 1, 2, 6, 4, 5],
        next: [0, 1, 2, 6, 4, 5],
        words: 33,
        ..Record::EMPTY
    };
    checks.equal(format_args!("record of 33 words"), *heap.record(), made);
    let words: Vec<u32> = [0, 1, 31, 32].map(|index| word(&heap, index)).into();
    checks.equal(format_args!("its words"), words, vec![129, 196_611, 128, 2]);
    checks.equal(format_args!("handout"), heap.hand_out(13), Ok(Offset(4)));
    checks.equal(format_args!("free"), heap.take_back(Offset(4)), Ok(()));
    let cached = Record {
        prev: [0, 1, 12, 3, 4, 5],
        next: [0, 1, 12, 3, 4, 5],
        words: 33,
        in_use: 0,
        committed: 24,
        peak: 24,
        high: 24,
        cached: [6, 0, 0, 0],
        fresh: 1,
    };
    checks.equal(
        format_args!("record with a cached chunk"),
        *heap.record(),
        cached,
    );
}

/// Every answer number is one refusal's, and back.
fn numbers(checks: &mut Checks) {
    let named = [
        Refusal::ZeroSize,
        Refusal::TooLarge,
        Refusal::NoFit,
        Refusal::NotLive,
        Refusal::Damaged,
        Refusal::BadLength,
    ];
    checks.equal(format_args!("number 0"), Refusal::of_number(0), Ok(()));
    for (refusal, number) in named.into_iter().zip(1..) {
        let meant = Refusal::of_number(number);
        checks.equal(format_args!("number {number}"), meant, Err(refusal));
        checks.equal(
            format_args!("number of {refusal}"),
            refusal.number(),
            number,
        );
    }
    let no_room = Refusal::NoRoom.number();
    checks.equal(format_args!("number of a short room"), no_room, 6);
    let never = (Refusal::of_number(8), Refusal::NeverFits.number());
    checks.equal(
        format_args!("number 8"),
        never,
        (Err(Refusal::NeverFits), 8),
    );
    for number in (9..1000).chain([7, u32::MAX]) {
        let meant = Refusal::of_number(number);
        let wanted = Err(Refusal::Unknown(number));
        checks.equal(format_args!("number {number}"), meant, wanted);
    }
}

/// Before a heap is made, after a length that is refused, and the mark.
fn records(checks: &mut Checks) {
    let mut lent = vec![7; 33];
    let mut heap = Heap::over(Record::EMPTY, &mut lent);
    checks.holds(format_args!("no heap is made yet"), !heap.audit());
    checks.equal(
        format_args!("size 0"),
        heap.hand_out(0),
        Err(Refusal::ZeroSize),
    );
    checks.equal(
        format_args!("size 1"),
        heap.hand_out(1),
        Err(Refusal::Damaged),
    );
    let freed = heap.take_back(Offset(4));
    checks.equal(format_args!("free"), freed, Err(Refusal::Damaged));
    let map = heap.write_map(&mut []);
    checks.equal(format_args!("map"), map, Err(Refusal::Damaged));
    checks.equal(
        format_args!("after refusals"),
        state(&heap, 33),
        (Record::EMPTY, vec![7; 33]),
    );

    let kept = Record {
        words: 33,
        high: 80,
        fresh: 1,
        ..Record::EMPTY
    };
    let mut even = vec![7; 34];
    let mut heap = Heap::over(kept, &mut even);
    let made = heap.make_again();
    checks.equal(
        format_args!("making 34 words"),
        made,
        Err(Refusal::BadLength),
    );
    checks.equal(
        format_args!("after it"),
        state(&heap, 34),
        (kept, vec![7; 34]),
    );

    for (high, stacklets, mark) in [
        (80, 0, 80),
        (108, 1, 0),
        (80, 1, -28),
        (0, u32::MAX, -463_856_467_860),
    ] {
        let mut heap = Heap::over(
            Record {
                high,
                fresh: 1,
                ..Record::EMPTY
            },
            &mut [],
        );
        let what = format_args!("mark of {high} with {stacklets}");
        checks.equal(what, heap.mark(stacklets), Some(mark));
        checks.equal(what, heap.mark(stacklets), None);
        // the mark never refuses: a damaged flag is on
        for fresh in [2, 255, 256, 65_535, 65_536, u32::MAX] {
            let damaged = Record {
                high,
                fresh,
                ..Record::EMPTY
            };
            let mut heap = Heap::over(damaged, &mut []);
            let what = format_args!("mark of {high} with a flag of {fresh}");
            checks.equal(what, heap.mark(stacklets), Some(mark));
            checks.equal(what, heap.mark(stacklets), None);
        }
    }
}

/// Run all.
pub fn run(checks: &mut Checks) {
    let parts: [(&str, fn(&mut Checks)); 3] = [
        ("layout", layout),
        ("answer numbers", numbers),
        ("records", records),
    ];
    for (name, part) in parts {
        checks.begin(name.into());
        part(checks);
    }
}
