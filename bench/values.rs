//! Accepts and loads words as `Receiver::accept` and `Transmitter::load` do, in plain Rust: what bench/values
//! compares them with, next to a store and a load of an atomic alone. It shares no code with the library, and knows
//! the table that bench/values makes: source N has label N and any SDI, and every label passes.

use std::array::from_fn;
use std::sync::atomic::{AtomicU64, Ordering::SeqCst};
use std::time::Instant;

/// How many calls are timed.
const CALLS: u32 = 50_000_000;

enum Accept {
    Accepted(#[allow(dead_code)] usize),
    Parity,
    Filtered,
    NoSource,
    CountSpent,
}

struct Receiver<'a> {
    cells: &'a [AtomicU64],
    passing: Vec<bool>,
    sources: Vec<Option<u16>>,
    counts: Vec<u64>,
    limit: u64,
}

impl Receiver<'_> {
    fn accept(&mut self, raw: u32) -> Accept {
        if raw.count_ones() % 2 == 0 {
            return Accept::Parity;
        }
        let label = usize::from((raw as u8).reverse_bits());
        if !self.passing[label] {
            return Accept::Filtered;
        }
        let sdi = (raw >> 8 & 3) as usize;
        let Some(source) = self.sources[4 * label + sdi] else {
            return Accept::NoSource;
        };
        let source = usize::from(source);
        let count = self.counts[source];
        if count >= self.limit {
            return Accept::CountSpent;
        }
        self.cells[source].store((count + 1) << 23 | u64::from(raw >> 8 & 0x7f_ffff), SeqCst);
        self.counts[source] = count + 1;
        Accept::Accepted(source)
    }
}

struct Transmitter<'a> {
    cells: &'a [AtomicU64],
    labels: Vec<u8>,
}

impl Transmitter<'_> {
    fn load(&self, source: usize) -> Option<u32> {
        let number = self.cells[source].load(SeqCst);
        if number >> 23 == 0 {
            return None;
        }
        let raw = u32::from(self.labels[source].reverse_bits()) | (number as u32 & 0x7f_ffff) << 8;
        Some(if raw.count_ones() % 2 == 0 { raw | 1 << 31 } else { raw })
    }
}

/// Accepts the words one after another. The answer is how often one was accepted.
fn accept_many(receiver: &mut Receiver, words: &[u32; 16]) -> u32 {
    let mut accepted = 0;
    for call in 0..CALLS {
        if let Accept::Accepted(_) = receiver.accept(words[call as usize % 16]) {
            accepted += 1;
        }
    }
    accepted
}

/// Loads the first sources one after another. The answer is the sum of the words modulo 2^32.
fn load_many(transmitter: &Transmitter) -> u32 {
    let mut sum: u32 = 0;
    for call in 0..CALLS {
        if let Some(raw) = transmitter.load(call as usize % 16) {
            sum = sum.wrapping_add(raw);
        }
    }
    sum
}

/// The same without any test: a store alone.
fn store_many(cells: &[AtomicU64], words: &[u32; 16]) -> u32 {
    for call in 0..CALLS {
        cells[call as usize % 16].store(u64::from(words[call as usize % 16]), SeqCst);
    }
    CALLS
}

/// The same with a load of the whole word alone.
fn load_alone_many(cells: &[AtomicU64]) -> u32 {
    let mut sum: u32 = 0;
    for call in 0..CALLS {
        sum = sum.wrapping_add(cells[call as usize % 16].load(SeqCst) as u32);
    }
    sum
}

/// Prints how long this takes in milliseconds, and what it answers.
fn timed(name: &str, calls: impl FnOnce() -> u32) {
    let started = Instant::now();
    let answer = calls();
    println!("{name} {} {answer}", started.elapsed().as_millis());
}

fn main() {
    let cells: Vec<AtomicU64> = (0..256).map(|_| AtomicU64::new(0)).collect();
    let words: [u32; 16] = from_fn(|label| {
        let raw = u32::from((label as u8).reverse_bits());
        if raw.count_ones() % 2 == 0 { raw | 1 << 31 } else { raw }
    });
    let mut receiver = Receiver {
        cells: &cells,
        passing: vec![true; 256],
        sources: (0..1024).map(|n| Some(n / 4)).collect(),
        counts: vec![0; 256],
        limit: (1 << 41) - 1,
    };
    let transmitter = Transmitter { cells: &cells, labels: (0..=255).collect() };
    timed("accept", || accept_many(&mut receiver, &words));
    timed("load", || load_many(&transmitter));
    timed("store-alone", || store_many(&cells, &words));
    timed("load-alone", || load_alone_many(&cells));
}
