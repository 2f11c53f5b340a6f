//! Simulates a station by a log as `a429 simulate` does, in plain Rust: what bench/simulate compares the program with, in
//! time and in every byte. It shares no code with the program, knows the table that bench/simulate makes (source `sN`
//! has label N, and receiver `rM` has the sources from 16 M on; no output has a hold), and takes rates and slot tables
//! from the text of the plan.
//!
//! Arguments: `words`, the text of the plan and the log, for what the program prints; or `script` with these two, for a
//! script of the same events, as many as 16 MiB hold, and their number on standard error.

use std::collections::HashMap;
use std::error::Error;
use std::io::{self, BufWriter, Write};
use std::{env, fs};

const MICROS: u64 = 36_000_000;
const SCRIPT_SIZE: usize = 16 << 20;

/// A word of the log: its time, its receiver and its bits.
type Arrival = (u64, usize, u32);

/// A word that was accepted: its time and its bits.
type Kept = (u64, u32);

/// A group and its next slot.
struct Group {
    name: String,
    rate: u64,
    buses: usize,
    frame: u64,
    cells: Vec<Option<usize>>,
    /// Of each output, its source.
    outputs: Vec<usize>,
    slot: u64,
}

impl Group {
    fn micros(&self, slots: u64) -> u64 {
        (slots * MICROS).div_ceil(self.rate)
    }
}

fn groups(plan: &str) -> Result<Vec<Group>, Box<dyn Error>> {
    let sources: HashMap<String, usize> = (0..256).map(|n| (format!("s{n}"), n)).collect();
    let mut groups: Vec<Group> = Vec::new();
    for line in plan.lines() {
        match *line.split(' ').collect::<Vec<_>>() {
            ["group", name, "rate", rate, "frame", frame, "buses", buses] => {
                let (frame, buses): (u64, usize) = (frame.parse()?, buses.parse()?);
                groups.push(Group {
                    name: name.to_string(),
                    rate: rate.parse()?,
                    buses,
                    frame,
                    cells: vec![None; frame as usize * buses],
                    outputs: Vec::new(),
                    slot: 0,
                });
            }
            ["output", source, "period", period, "bus", bus, "offset", offset, "hold", "none"] => {
                let group = groups.last_mut().ok_or("an output before its group")?;
                let (period, bus, offset): (u64, usize, u64) = (period.parse()?, bus.parse()?, offset.parse()?);
                for slot in (offset..group.frame).step_by(period as usize) {
                    group.cells[slot as usize * group.buses + bus] = Some(group.outputs.len());
                }
                group.outputs.push(sources[source]);
            }
            _ => {}
        }
    }
    Ok(groups)
}

fn arrivals(log: &str) -> Result<Vec<Arrival>, Box<dyn Error>> {
    let receivers: HashMap<String, usize> = (0..16).map(|n| (format!("r{n}"), n)).collect();
    let mut arrivals = Vec::new();
    for line in log.lines().filter(|line| !line.is_empty() && !line.starts_with('#')) {
        let (time, word) = line.split_once(' ').ok_or("no receiver")?;
        let (receiver, raw) = word.split_once(' ').ok_or("no word")?;
        arrivals.push((time.parse()?, receivers[receiver], u32::from_str_radix(raw, 16)?));
    }
    Ok(arrivals)
}

/// What is done with the events, in their order.
trait Events {
    fn arrive(&mut self, arrival: Arrival) -> io::Result<()>;
    fn slot(&mut self, number: usize, group: &mut Group) -> io::Result<()>;
}

/// Meets the events until the last slot that begins in time.
fn run(groups: &mut [Group], arrivals: &[Arrival], events: &mut impl Events) -> io::Result<()> {
    let longest = groups.iter().map(|group| group.micros(group.frame)).max().unwrap_or(0);
    let until = arrivals.last().map_or(0, |arrival| arrival.0) + longest;
    let mut words = arrivals.iter().peekable();
    loop {
        // the first of those that begin at one instant
        let first = (0..groups.len()).min_by(|a, b| {
            let (a, b) = (&groups[*a], &groups[*b]);
            (a.slot * b.rate).cmp(&(b.slot * a.rate))
        });
        let Some(number) = first else { break };
        let group = &mut groups[number];
        let begin = group.slot * MICROS;
        if begin > until * group.rate {
            break;
        }
        while let Some(arrival) = words.next_if(|arrival| arrival.0 * group.rate <= begin) {
            events.arrive(*arrival)?;
        }
        events.slot(number, group)?;
        group.slot += 1;
    }
    words.try_for_each(|arrival| events.arrive(*arrival))
}

/// Prints the words.
struct Station<W: Write> {
    kept: [Option<Kept>; 256],
    out: W,
}

impl<W: Write> Station<W> {
    fn refuse(&mut self, (time, receiver, raw): Arrival, reason: &str) -> io::Result<()> {
        writeln!(self.out, "{time} r{receiver} {raw:08x} refused {reason}")
    }
}

impl<W: Write> Events for Station<W> {
    fn arrive(&mut self, arrival: Arrival) -> io::Result<()> {
        let (time, receiver, raw) = arrival;
        if raw.count_ones() % 2 == 0 {
            return self.refuse(arrival, "parity");
        }
        let source = usize::from((raw as u8).reverse_bits());
        if source / 16 != receiver {
            return self.refuse(arrival, "no-source");
        }
        self.kept[source] = Some((time, raw));
        Ok(())
    }

    fn slot(&mut self, _number: usize, group: &mut Group) -> io::Result<()> {
        let row = (group.slot % group.frame) as usize * group.buses;
        let (begin, end) = (group.micros(group.slot), group.micros(group.slot + 1));
        for bus in 0..group.buses {
            let Some(number) = group.cells[row + bus] else { continue };
            let source = group.outputs[number];
            let Some((time, raw)) = self.kept[source] else { continue };
            writeln!(self.out, "{begin} {} {bus} {raw:08x} s{source} {}", group.name, end - time)?;
        }
        Ok(())
    }
}

/// Writes the events as a script, as long as there is room.
struct Script<W: Write> {
    room: usize,
    events: u64,
    out: W,
}

impl<W: Write> Script<W> {
    fn line(&mut self, line: String) -> io::Result<()> {
        if self.room < line.len() {
            self.room = 0;
            return Ok(());
        }
        self.room -= line.len();
        self.events += 1;
        self.out.write_all(line.as_bytes())
    }
}

impl<W: Write> Events for Script<W> {
    fn arrive(&mut self, (_, receiver, raw): Arrival) -> io::Result<()> {
        self.line(format!("arrive r{receiver} {raw:08x}\n"))
    }

    fn slot(&mut self, number: usize, group: &mut Group) -> io::Result<()> {
        for _ in 0..group.buses {
            self.line(format!("cell g{number}\n"))?;
        }
        if (group.slot + 1) % group.frame == 0 {
            self.line(format!("frame g{number}\n"))?;
        }
        Ok(())
    }
}

fn main() -> Result<(), Box<dyn Error>> {
    let words: Vec<String> = env::args().skip(1).collect();
    let [what, plan, log] = &words[..] else { return Err("wanted: words or script, PLAN LOG".into()) };
    let mut groups = groups(&fs::read_to_string(plan)?)?;
    let arrivals = arrivals(&fs::read_to_string(log)?)?;
    let mut out = BufWriter::with_capacity(65536, io::stdout().lock());
    if what == "script" {
        let mut script = Script { room: SCRIPT_SIZE, events: 0, out: &mut out };
        run(&mut groups, &arrivals, &mut script)?;
        eprintln!("{}", script.events);
    } else {
        run(&mut groups, &arrivals, &mut Station { kept: [None; 256], out: &mut out })?;
    }
    Ok(out.flush()?)
}
