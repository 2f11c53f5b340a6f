//! Runs a station as `a429 live` does, in plain Rust with threads and atomics: what bench/live compares the program
//! with, in time and in its report. It shares no code with the program, knows the table that bench/live makes
//! (source `sN` has label N, receiver `rM` has the sources from 16 M on), and takes the slot tables from the text of
//! the plan.
//!
//! It does what a transmitter is for: one look-up and one load a cell, the spacing of a source's words and how often
//! one of them may be sent, and at each frame's end a look at the number of the newest plan.
//!
//! Arguments: the text of the plan, the file of words, how many receivers, how many frames, the spacing of
//! the words of a source in slots, and how often one word is sent at most (0: no limit).

use std::error::Error;
use std::sync::atomic::{AtomicU64, Ordering};
use std::{env, fs, thread};

struct Group {
    buses: usize,
    sources: Vec<Option<usize>>,
}

/// What limits the sends of each output.
#[derive(Clone, Copy)]
struct Limits {
    spacing: u64,
    hold: Option<u64>,
}

/// The word of a source that a group sent last: its number, how often it was sent, and the slot of the last time.
#[derive(Clone, Copy, Default)]
struct Last {
    count: u64,
    times: u64,
    slot: u64,
}

impl Last {
    fn send(&mut self, slot: u64, count: u64, limits: Limits) -> bool {
        let times = if self.count == count { self.times } else { 0 };
        if limits.hold.is_some_and(|most| times >= most) || self.times > 0 && slot - self.slot < limits.spacing {
            return false;
        }
        *self = Last { count, times: times + 1, slot };
        true
    }
}

fn groups(plan: &str) -> Result<Vec<Group>, Box<dyn Error>> {
    let mut groups: Vec<Group> = Vec::new();
    let mut frame = 0;
    for line in plan.lines() {
        match *line.split(' ').collect::<Vec<_>>() {
            ["group", _, "frame", slots, "buses", buses] => {
                frame = slots.parse()?;
                let buses = buses.parse()?;
                groups.push(Group { buses, sources: vec![None; frame * buses] });
            }
            ["output", source, "period", period, "bus", bus, "offset", offset] => {
                let group = groups.last_mut().ok_or("an output before its group")?;
                let bus: usize = bus.parse()?;
                for slot in (offset.parse()?..frame).step_by(period.parse()?) {
                    group.sources[slot * group.buses + bus] = Some(source[1..].parse()?);
                }
            }
            _ => {}
        }
    }
    Ok(groups)
}

fn words(text: &str, receivers: usize) -> Result<Vec<Vec<u32>>, Box<dyn Error>> {
    let mut words = vec![Vec::new(); receivers];
    for line in text.lines() {
        let (receiver, raw) = line.split_once(' ').ok_or("no word")?;
        words[receiver[1..].parse::<usize>()?].push(u32::from_str_radix(raw, 16)?);
    }
    Ok(words)
}

/// How many bits of a value keep the word: its bits 9 to 31. The label is the source's, and parity follows from the rest. The
/// bits above count the accepted words, as long as the program does: 32 of them are spent after 18 days at 100 kbit/s.
const WORD_BITS: u32 = 23;

/// The word of a source of this label (as the lowest bits of a word have it) in a value.
fn word_in(label: u32, value: u64) -> u32 {
    let rest = (value as u32 & ((1 << WORD_BITS) - 1)) << 8 | label;
    rest | (!rest.count_ones() & 1) << 31
}

/// How many words were accepted, and the last of each source.
fn receive(receiver: usize, words: &[u32], values: &[AtomicU64]) -> (u64, u64, u64) {
    let (mut accepted, mut parity, mut no_source) = (0, 0, 0);
    for raw in words {
        let source = usize::from((*raw as u8).reverse_bits());
        if raw.count_ones() % 2 == 0 {
            parity += 1;
        } else if source / 16 != receiver {
            no_source += 1;
        } else {
            let count = values[source].load(Ordering::SeqCst) >> WORD_BITS;
            let word = u64::from(*raw >> 8) & ((1 << WORD_BITS) - 1);
            values[source].store((count + 1) << WORD_BITS | word, Ordering::SeqCst);
            accepted += 1;
        }
    }
    (accepted, parity, no_source)
}

/// How many cells were sent, how many of them with a word, and a sum over them, so that none is left out.
fn send(group: &Group, frames: u64, limits: Limits, values: &[AtomicU64], newest: &AtomicU64) -> (u64, u64, u64) {
    let mut last = vec![Last::default(); values.len()];
    let labels: Vec<u32> = (0..values.len()).map(|source| u32::from((source as u8).reverse_bits())).collect();
    let (mut cells, mut words, mut sum) = (0, 0, 0u64);
    let mut slot = 0;
    for _ in 0..frames {
        for cells_of_slot in group.sources.chunks_exact(group.buses) {
            for (bus, source) in cells_of_slot.iter().enumerate() {
                cells += 1;
                let Some(source) = *source else { continue };
                let value = values[source].load(Ordering::SeqCst);
                let count = value >> WORD_BITS;
                if count > 0 && last[source].send(slot, count, limits) {
                    words += 1;
                    sum = sum.wrapping_add(u64::from(word_in(labels[source], value)) ^ slot ^ bus as u64);
                }
            }
            slot += 1;
        }
        sum = sum.wrapping_add(newest.load(Ordering::SeqCst));
    }
    (cells, words, sum)
}

fn main() -> Result<(), Box<dyn Error>> {
    let [_, plan, text, receivers, frames, spacing, hold] = &env::args().collect::<Vec<_>>()[..] else {
        return Err("wanted: PLAN WORDS RECEIVERS FRAMES SPACING HOLD".into());
    };
    let groups = groups(&fs::read_to_string(plan)?)?;
    let words = words(&fs::read_to_string(text)?, receivers.parse()?)?;
    let frames: u64 = frames.parse()?;
    let hold = hold.parse()?;
    let limits = Limits { spacing: spacing.parse()?, hold: (hold > 0).then_some(hold) };
    let newest = &AtomicU64::new(1);
    let values: Vec<AtomicU64> = (0..256).map(|_| AtomicU64::new(0)).collect();
    let values = &values[..];
    let (received, sent) = thread::scope(|scope| {
        let receiving: Vec<_> = words.iter().enumerate().map(|(r, words)| scope.spawn(move || receive(r, words, values))).collect();
        let sending: Vec<_> = groups.iter().map(|group| scope.spawn(move || send(group, frames, limits, values, newest))).collect();
        let received: Vec<_> = receiving.into_iter().map(|worker| worker.join()).collect();
        let sent: Vec<_> = sending.into_iter().map(|worker| worker.join()).collect();
        (received, sent)
    });
    for (r, done) in received.into_iter().enumerate() {
        let (accepted, parity, no_source) = done.map_err(|_| "a receiver failed")?;
        println!("receiver r{r} accepted {accepted} parity {parity} filtered 0 no-source {no_source} spent 0");
    }
    for (g, done) in sent.into_iter().enumerate() {
        let (cells, words, sum) = done.map_err(|_| "a group failed")?;
        std::hint::black_box((words, sum));
        println!("group g{g} cells {cells}");
    }
    Ok(())
}
