//! Runs libkw_test.a and the unchanged Rust on the same inputs and compares every answer.
//!
//! usage: compare [ROUNDS [SEED]]
//!
//! ROUNDS (default 1) multiplies the random inputs. There is one module for each of our crates,
//! with a function `compare`, and each runs in a thread of its own. Exit status 1 if an answer
//! differs or nothing was compared.

mod answers;
mod borrowed;
mod crc;
mod ecc;
mod ffi;
mod ffi_api;
mod ffi_borrowed;
mod ffi_reader;
mod images;
mod inputs;
mod layout;
mod mend;
mod mending;
mod model;
mod plan;
mod region;
mod scalar;
mod scan;
mod scrub;
mod tables;
mod tally;
mod view;
mod writer;

use inputs::Random;
use std::process::ExitCode;
use std::thread;
use tally::Tally;

/// What every comparison takes: where it counts, and its random inputs.
pub struct Run {
    tally: Tally,
    random: Random,
    rounds: u64,
}

/// The longest first, since all run side by side.
const COMPARISONS: [fn(&mut Run); 11] = [
    scrub::compare,
    mend::compare,
    scan::compare,
    view::compare,
    writer::compare,
    tables::compare,
    borrowed::compare,
    ecc::compare,
    crc::compare,
    layout::compare,
    scalar::compare,
];

fn main() -> ExitCode {
    let mut words = std::env::args().skip(1);
    let mut number = |default| words.next().map_or(default, |word| word.parse().expect("a number"));
    let (rounds, seed) = (number(1), number(20_261_101));
    println!("rounds {rounds}, seed {seed}");

    let tallies = thread::scope(|threads| {
        let started = COMPARISONS.map(|compare| {
            threads.spawn(move || {
                let mut run = Run { tally: Tally::default(), random: Random::new(seed), rounds };
                compare(&mut run);
                run.tally
            })
        });
        started.map(|thread| thread.join().expect("a comparison that ends"))
    });
    if Tally::sum(tallies).finish() {
        ExitCode::SUCCESS
    } else {
        ExitCode::FAILURE
    }
}
