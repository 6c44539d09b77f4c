//! The port: the functions of target/library/libdoor.a, as bindings/rust/src/door.rs declares them, with four cache places and with one.

use crate::door::Door;
use crate::library;
use crate::record::Record;

/// The library's calls with four cache places.
pub const DOOR: Door = Door {
    make: library::lischemur_make,
    hand_out: library::lischemur_hand_out,
    take_back: library::lischemur_take_back,
    audit: library::lischemur_audit,
};

/// The library's calls with one, as the Rust has it.
pub const ONE_DOOR: Door = Door {
    make: library::lischemur_make,
    hand_out: library::lischemur_one_hand_out,
    take_back: library::lischemur_one_take_back,
    audit: library::lischemur_one_audit,
};

/// A configuration of the library: a number of cache places, and the calls that have them.
#[derive(Clone, Copy)]
pub struct Kind {
    pub places: usize,
    pub door: Door,
}

/// The configuration that is put beside the Rust.
pub const ONE: Kind = Kind {
    places: 1,
    door: ONE_DOOR,
};

/// The configuration that calls without a word of their own have.
pub const FOUR: Kind = Kind {
    places: 4,
    door: DOOR,
};

/// Every configuration. Each is put beside the rules without words.
pub const KINDS: [Kind; 2] = [ONE, FOUR];

/// The mark, or nothing if high water has not just been updated; the flag clears.
pub fn mark(record: &mut Record, stacklets: u32) -> Option<i64> {
    let marking = unsafe { library::lischemur_mark(*record, stacklets) };
    *record = marking.rec;
    (marking.changed == 1).then_some(marking.mark)
}

/// Bytes in use, bytes committed, their peak and high water, as the four readers say them.
pub fn figures(record: &Record) -> (u32, u32, u32, u32) {
    unsafe {
        (
            library::lischemur_in_use(*record),
            library::lischemur_committed(*record),
            library::lischemur_peak(*record),
            library::lischemur_high_water(*record),
        )
    }
}
