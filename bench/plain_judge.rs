//! Judges what a box sent, in plain Rust, without proofs: what `a429 judge --csv TABLE IN OUT` does. bench/judge compares the
//! two, in time and in every byte. It shares no code with the program, and knows the table that bench/judge makes (source
//! `sN` has label N and any SDI, receiver `rM` has the sources from 16 M on, no output has a hold, no label is twice in a
//! group). Rates, periods and buses are those of the text of the plan.
//!
//! Arguments: the tolerance in microseconds, the table, the text of the plan, the log of what came in, and the log of what was
//! sent.

use std::collections::HashMap;
use std::error::Error;
use std::io::{self, BufWriter, Write};
use std::{env, fs};

const SLOT: i64 = 36_000_000;

#[derive(Clone, Copy)]
struct Mark {
    time: i64,
    raw: u32,
}

struct Output {
    source: usize,
    period: i64,
    bus: u32,
    least: i64,
    greatest: i64,
    sends: Vec<Mark>,
}

struct Group {
    name: String,
    rate: i64,
    outputs: Vec<Output>,
    /// The output of each label.
    of_label: [Option<usize>; 256],
    first: Option<i64>,
    foreign: u64,
}

fn source_of(raw: u32) -> usize {
    usize::from((raw as u8).reverse_bits())
}

fn is_odd(raw: u32) -> bool {
    raw.count_ones() % 2 == 1
}

/// The groups of a plan, with the outputs of each in the order of the table, and with the intervals of the table.
fn groups(table: &str, plan: &str) -> Result<Vec<Group>, Box<dyn Error>> {
    let number = |line: &str, key: &str| line.strip_prefix(key).map(str::parse::<i64>);
    let least: Vec<i64> = table.lines().filter_map(|line| number(line, "min_us = ")).collect::<Result<_, _>>()?;
    let greatest: Vec<i64> = table.lines().filter_map(|line| number(line, "max_us = ")).collect::<Result<_, _>>()?;
    let mut groups: Vec<Group> = Vec::new();
    for line in plan.lines() {
        match *line.split(' ').collect::<Vec<_>>() {
            ["group", name, "rate", rate, ..] => groups.push(Group {
                name: name.to_string(),
                rate: rate.parse()?,
                outputs: Vec::new(),
                of_label: [None; 256],
                first: None,
                foreign: 0,
            }),
            ["output", source, "period", period, "bus", bus, ..] => {
                groups.last_mut().ok_or("an output before its group")?.outputs.push(Output {
                    source: source[1..].parse()?,
                    period: period.parse()?,
                    bus: bus.parse()?,
                    least: 0,
                    greatest: 0,
                    sends: Vec::new(),
                });
            }
            _ => {}
        }
    }
    let mut rows = least.into_iter().zip(greatest);
    for group in &mut groups {
        // the table has the outputs of a group by the numbers of their sources
        group.outputs.sort_by_key(|output| output.source);
        for (place, output) in group.outputs.iter_mut().enumerate() {
            (output.least, output.greatest) = rows.next().ok_or("a row less than outputs")?;
            group.of_label[output.source] = Some(place);
        }
    }
    Ok(groups)
}

/// The words of a log: time, name, bits.
fn words(log: &str) -> impl Iterator<Item = (i64, &str, u32)> {
    log.lines().map(|line| {
        let (time, rest) = line.split_once(' ').unwrap();
        let (name, raw) = rest.split_once(' ').unwrap();
        (time.parse().unwrap(), name, u32::from_str_radix(raw, 16).unwrap())
    })
}

fn figure(number: Option<i64>) -> String {
    number.map_or(String::new(), |number| number.to_string())
}

/// When the logs end: that of what came in, and the later of the two.
struct Ends {
    first: i64,
    heard: i64,
    both: i64,
}

/// The row of an output, and whether something is found.
fn judge(out: &mut impl Write, group: &Group, output: &Output, accepted: &[Mark], ends: &Ends, tolerance: i64) -> io::Result<bool> {
    let (rate, sends) = (group.rate, &output.sends);
    let mut firsts: HashMap<u32, i64> = HashMap::new();
    for word in accepted {
        firsts.entry(word.raw).or_insert(word.time);
    }
    let [mut known, mut wrong, mut stale, mut soon, mut late, mut missed] = [0u64; 6];
    // Of each send the greatest place of an equal word that was the latest at some moment of its window.
    let mut right: Vec<Option<usize>> = Vec::with_capacity(sends.len());
    let (mut past, mut by) = (0, 0);
    for (k, send) in sends.iter().enumerate() {
        while past < accepted.len() && (accepted[past].time + tolerance) * rate + SLOT < send.time * rate {
            past += 1;
        }
        while by < accepted.len() && accepted[by].time <= send.time + tolerance {
            by += 1;
        }
        let from = past.saturating_sub(1);
        let place = (from..by).rev().find(|place| accepted[*place].raw == send.raw);
        let is_known = past > 0 && send.time + tolerance < ends.heard;
        known += u64::from(is_known);
        if is_known && place.is_none() {
            match firsts.get(&send.raw) {
                Some(time) if *time <= send.time + tolerance => stale += 1,
                _ => wrong += 1,
            }
        }
        right.push(place);
        if k > 0 {
            let before = sends[k - 1].time;
            soon += u64::from(send.time + tolerance < before + output.least);
            late += u64::from(before + output.greatest + tolerance < send.time);
        }
    }
    let mut answer = 0;
    let mut delay = None;
    for (place, word) in accepted.iter().enumerate() {
        while answer < sends.len() && right[answer].is_none_or(|right| right < place) {
            answer += 1;
        }
        let since = word.time.max(group.first.unwrap_or(ends.first));
        let reach = (since + tolerance) * rate + (output.period + 1) * SLOT;
        if let Some(send) = sends.get(answer) {
            delay = delay.max(Some((send.time - word.time).max(0)));
        }
        if reach <= ends.heard * rate {
            missed += u64::from(sends.get(answer).is_none_or(|send| send.time * rate > reach));
        }
    }
    let intervals = || sends.windows(2).map(|pair| pair[1].time - pair[0].time);
    let silent = u64::from(sends.last().is_some_and(|send| send.time + output.greatest + tolerance < ends.both));
    let found = wrong + stale + soon + late + silent + missed > 0;
    let verdict = match (sends.len(), found) {
        (0, true) => "not-sent",
        (_, true) => "bad",
        (0, false) if accepted.is_empty() => "not-sent",
        (0 | 1, false) => "too-short",
        (_, false) if known == 0 => "too-short",
        (_, false) => "ok",
    };
    let (name, source, sent) = (&group.name, output.source, sends.len());
    let (least, greatest, delay) = (figure(intervals().min()), figure(intervals().max()), figure(delay));
    write!(out, "{name},s{source},{sent},{known},{least},{greatest},{delay},")?;
    writeln!(out, "{wrong},{stale},{soon},{late},0,{silent},{missed},{tolerance},{verdict}")?;
    Ok(found)
}

fn main() -> Result<(), Box<dyn Error>> {
    let tolerance: i64 = env::args().nth(1).ok_or("no tolerance")?.parse()?;
    let texts = env::args().skip(2).map(fs::read_to_string).collect::<Result<Vec<_>, _>>()?;
    let [table, plan, heard, sent] = &texts[..] else { return Err("four files".into()) };
    let mut groups = groups(table, plan)?;
    let mut accepted = vec![Vec::new(); 256];
    let mut ends = [0, 0];
    for (time, receiver, raw) in words(heard) {
        let source = source_of(raw);
        if is_odd(raw) && receiver[1..].parse::<usize>()? == source / 16 {
            accepted[source].push(Mark { time, raw });
        }
        ends[0] = time;
    }
    let mut first = None;
    for (time, name, raw) in words(sent) {
        let (name, bus) = name.split_once('.').ok_or("no bus")?;
        let group = groups.iter_mut().find(|group| group.name == name).ok_or("no such group")?;
        group.first.get_or_insert(time);
        first.get_or_insert(time);
        let bus: u32 = bus.parse()?;
        let fits = |place: &usize| group.outputs[*place].bus == bus;
        match group.of_label[source_of(raw)].filter(|_| is_odd(raw)).filter(fits) {
            Some(place) => group.outputs[place].sends.push(Mark { time, raw }),
            None => group.foreign += 1,
        }
        ends[1] = time;
    }
    let ends = Ends { first: first.unwrap_or(0), heard: ends[0], both: ends[0].max(ends[1]) };
    let mut out = BufWriter::new(io::stdout());
    write!(out, "group,source,sent,known,least_us,greatest_us,late_us,")?;
    writeln!(out, "wrong,stale,soon,late,again,silent,missed,tolerance_us,verdict")?;
    let mut found = false;
    for group in &groups {
        for output in &group.outputs {
            found |= judge(&mut out, group, output, &accepted[output.source], &ends, tolerance)?;
        }
        found |= group.foreign > 0;
        let verdict = if group.foreign > 0 { "bad" } else { "ok" };
        writeln!(out, "{},foreign,{},,,,,,,,,,,,,{verdict}", group.name, group.foreign)?;
    }
    out.flush()?;
    std::process::exit(i32::from(found));
}
