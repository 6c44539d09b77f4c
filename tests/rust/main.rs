//! Tests the Rust crate over the archive. Stops at the first check that fails and says which; at the
//! end one line says how much was run. `tests/rust/run` builds and runs it.
//!
//! ```text
//! checks      counting, failing, and numbers that look random
//! crossing    the record's layout, answer numbers, the mark
//! fixed       the rules' whole run and entries, the incident, refused frees, pointers, maps
//! arrival     a key left in a payload: found in Hopter's heap.rs, not here
//! sound       the rules' soundness, written again
//! damage      damaged heaps: refused, and nothing changed
//! histories   random histories, side by side with Hopter's heap.rs
//! ```

mod arrival;
mod checks;
mod crossing;
mod damage;
mod fixed;
mod histories;
mod sound;

use checks::Checks;
use oracle::Oracle;

fn main() {
    let mut checks = Checks::new();
    crossing::run(&mut checks);
    fixed::run(&mut checks);
    let oracle = &mut Oracle::only();
    arrival::run(&mut checks, oracle);
    let damaged = damage::run(&mut checks);
    let requests = histories::run(&mut checks, oracle);
    println!(
        "rust: {} checks, {} requests compared with Hopter's heap.rs, {} left out that one serves and the other refuses, {damaged} damaged heaps refused",
        checks.made(),
        requests.compared,
        requests.left_out
    );
}
