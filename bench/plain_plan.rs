//! Plans a table like `a429 plan`, prints its plan like `a429 icd`, `margin`, `load`, `slots` and `draw`, or checks its text
//! like `a429 check`, in plain Rust that is written to read, plan and print tables fast: what bench/plan and bench/ratios
//! compare the program with, in time and in every byte. It shares no code with the program. It reads tables of version 1
//! line by line in the form that bench/plan writes, while the program reads any TOML document. It tests the same rules of a
//! table and of a text as the program.
//!
//! Arguments: `plan`, `icd`, `margin`, `load`, `slots` or `draw` and the table; or `icd`, the table and `--csv`; or `slots`,
//! the table and `--c`; or `check`, the table and the text.

use std::collections::HashMap;
use std::error::Error;
use std::fmt::Write as _;
use std::hash::{BuildHasherDefault, Hasher};
use std::io::{self, Write as _};
use std::{env, fs};

type Fault = Box<dyn Error>;

/// The greatest number of slots in a period, and of buses in a group.
const SLOTS: u64 = 8192;
const BUSES: u64 = 16;

struct Source {
    name: String,
    receiver: String,
    label: u32,
    sdi: Option<u32>,
}

struct Output {
    source: usize,
    min_us: u64,
    max_us: u64,
}

struct Group {
    name: String,
    outputs: Vec<Output>,
}

struct Table {
    rate: u64,
    sources: Vec<Source>,
    groups: Vec<Group>,
}

/// An output in its place: its number in the group, its period, bus and offset.
struct Placed {
    output: usize,
    period: u64,
    bus: u64,
    offset: u64,
}

struct Plan {
    frame: u64,
    buses: u64,
    demand: u64,
    placed: Vec<Placed>,
}

/// The keys of a table of the document, which are few, and their values.
type Keys<'a> = Vec<(&'a str, &'a str)>;

/// The tables of a document, one after another: the array that each is of, and its keys.
struct Sections<'a> {
    left: &'a str,
    head: &'a str,
    keys: Keys<'a>,
}

impl<'a> Sections<'a> {
    fn of(text: &'a str) -> Sections<'a> {
        Sections { left: text, head: "", keys: Vec::with_capacity(8) }
    }

    /// Reads the keys of the table whose head was read, and the head of the next one, if there is one.
    fn next(&mut self) -> Result<Option<&'a str>, Fault> {
        self.keys.clear();
        while !self.left.is_empty() {
            let end = self.left.bytes().position(|byte| byte == b'\n').unwrap_or(self.left.len());
            let line = &self.left[..end];
            self.left = self.left.get(end + 1..).unwrap_or("");
            if let Some(head) = line.strip_prefix("[[") {
                return Ok(Some(head.strip_suffix("]]").ok_or("a head")?));
            }
            let space = line.bytes().position(|byte| byte == b' ').ok_or("a key")?;
            let (key, value) = (&line[..space], line[space..].strip_prefix(" = ").ok_or("a key")?);
            if self.keys.iter().any(|(other, _)| *other == key) {
                return Err("a key stands twice".into());
            }
            self.keys.push((key, value));
        }
        Ok(None)
    }
}

/// The value of a key.
fn value<'a>(keys: &Keys<'a>, key: &str) -> Result<&'a str, Fault> {
    keys.iter().find(|(other, _)| *other == key).map(|(_, value)| *value).ok_or_else(|| format!("no {key}").into())
}

fn text<'a>(keys: &Keys<'a>, key: &str) -> Result<&'a str, Fault> {
    value(keys, key)?.strip_prefix('"').and_then(|rest| rest.strip_suffix('"')).ok_or_else(|| "no text".into())
}

fn name<'a>(keys: &Keys<'a>) -> Result<&'a str, Fault> {
    let name = text(keys, "name")?;
    let fits = |c: u8| c.is_ascii_lowercase() || c.is_ascii_digit() || c == b'-' || c == b'_';
    if (1..=16).contains(&name.len()) && name.bytes().all(fits) { Ok(name) } else { Err("a name".into()) }
}

/// A hash of short names.
#[derive(Default)]
struct NameHasher(u64);

impl Hasher for NameHasher {
    fn write(&mut self, bytes: &[u8]) {
        for piece in bytes.chunks(8) {
            let mut eight = [0; 8];
            eight[..piece.len()].copy_from_slice(piece);
            self.0 = (self.0 ^ u64::from_le_bytes(eight)).wrapping_mul(0x9e37_79b9_7f4a_7c15).rotate_left(29);
        }
    }

    fn write_u8(&mut self, _: u8) {}

    fn finish(&self) -> u64 {
        self.0
    }
}

/// The numbers of names.
type Numbers<'a> = HashMap<&'a str, usize, BuildHasherDefault<NameHasher>>;

fn no_numbers<'a>() -> Numbers<'a> {
    Numbers::with_capacity_and_hasher(512, BuildHasherDefault::default())
}

/// Gives a name the next number, unless it has one.
fn number<'a>(numbers: &mut Numbers<'a>, name: &'a str) -> Result<(), Fault> {
    let next = numbers.len();
    if numbers.insert(name, next).is_some() { Err("a name stands twice".into()) } else { Ok(()) }
}

/// A number for each SDI, and one for any.
fn sdi_bit(sdi: Option<u32>) -> u8 {
    1 << sdi.unwrap_or(4)
}

fn table(text_of: &str) -> Result<Table, Fault> {
    let (mut receivers, mut sources, mut groups) = (no_numbers(), no_numbers(), no_numbers());
    let mut table = Table { rate: 0, sources: Vec::new(), groups: Vec::new() };
    // the SDIs of each label at each receiver, and in a group
    let (mut heard, mut sent) = (vec![[0; 256]; 16], [0; 256]);
    let mut sections = Sections::of(text_of);
    let mut is_last = false;
    while !is_last {
        let next = sections.next()?;
        let (head, keys) = (sections.head, &sections.keys);
        let only = |count: usize| if keys.len() == count { Ok(()) } else { Err("unknown keys") };
        match head {
            "" => {
                only(2)?;
                table.rate = value(keys, "rate")?.parse()?;
                if value(keys, "version")? != "1" || !matches!(table.rate, 100000 | 12000..=14500) {
                    return Err("version or rate".into());
                }
            }
            "receiver" => {
                only(1)?;
                number(&mut receivers, name(keys)?)?;
                if receivers.len() > 16 {
                    return Err("too many receivers".into());
                }
            }
            "source" => {
                only(4)?;
                let (own, sdi) = (name(keys)?, value(keys, "sdi")?);
                number(&mut sources, own)?;
                let receiver = *receivers.get(text(keys, "receiver")?).ok_or("unknown receiver")?;
                let source = Source {
                    name: own.into(),
                    receiver: text(keys, "receiver")?.into(),
                    label: u32::from_str_radix(text(keys, "label")?, 8)?,
                    sdi: if sdi == "\"any\"" { None } else { Some(sdi.parse()?) },
                };
                if source.label > 255 || source.sdi > Some(3) {
                    return Err("a source".into());
                }
                let taken = &mut heard[receiver][source.label as usize];
                // any stands for all four
                let clashes = if source.sdi.is_none() { 31 } else { sdi_bit(source.sdi) | 16 };
                if *taken & clashes != 0 {
                    return Err("a source stands twice".into());
                }
                *taken |= sdi_bit(source.sdi);
                table.sources.push(source);
            }
            "group" => {
                only(1)?;
                let name = name(keys)?;
                number(&mut groups, name)?;
                sent = [0; 256];
                table.groups.push(Group { name: name.into(), outputs: Vec::with_capacity(128) });
            }
            "group.output" => {
                only(3)?;
                let output = Output {
                    source: *sources.get(text(keys, "source")?).ok_or("unknown source")?,
                    min_us: value(keys, "min_us")?.parse()?,
                    max_us: value(keys, "max_us")?.parse()?,
                };
                let source = &table.sources[output.source];
                if !(1..=output.max_us).contains(&output.min_us) || output.max_us > 30_000_000 {
                    return Err("an interval".into());
                }
                let taken = &mut sent[source.label as usize];
                if *taken & sdi_bit(source.sdi) != 0 {
                    return Err("an output stands twice".into());
                }
                *taken |= sdi_bit(source.sdi);
                table.groups.last_mut().ok_or("an output before its group")?.outputs.push(output);
            }
            _ => return Err("unknown table".into()),
        }
        is_last = next.is_none();
        sections.head = next.unwrap_or("");
    }
    let many = receivers.len() > 16 || table.sources.len() > 256 || table.groups.len() > 8;
    if many || table.groups.iter().any(|group| !(1..=128).contains(&group.outputs.len())) {
        return Err("too many or no rows".into());
    }
    Ok(table)
}

/// The greatest period that the interval of an output allows.
fn grid_period(rate: u64, output: &Output) -> Result<u64, Fault> {
    let fits = |period: &u64| {
        let time = 36_000_000 * period;
        output.min_us * rate <= time && time <= output.max_us * rate
    };
    (0..14).rev().map(|digits| 1 << digits).find(fits).ok_or_else(|| "unfit".into())
}

fn plan(table: &Table, group: &Group) -> Result<Plan, Fault> {
    let mut order = Vec::with_capacity(group.outputs.len());
    for (number, output) in group.outputs.iter().enumerate() {
        let source = &table.sources[output.source];
        order.push((grid_period(table.rate, output)?, source.label, source.sdi, number));
    }
    order.sort_unstable();
    let frame = order.iter().map(|entry| entry.0).max().unwrap_or(1);
    let (mut start, mut placed) = (0, Vec::with_capacity(order.len()));
    for (period, _, _, output) in order {
        let place = start % frame;
        // the digits of the place in reverse, if there are any
        let offset = if frame == 1 { 0 } else { place.reverse_bits() >> (64 - frame.trailing_zeros()) };
        placed.push(Placed { output, period, bus: start / frame, offset });
        start += frame / period;
    }
    let buses = start.div_ceil(frame);
    if buses > BUSES || frame > SLOTS { Err("too many buses".into()) } else { Ok(Plan { frame, buses, demand: start, placed }) }
}

/// Adds a text and a number.
fn push_number(text: &mut String, before: &str, mut number: u64) {
    let (mut digits, mut at) = ([0; 20], 20);
    loop {
        at -= 1;
        digits[at] = b'0' + (number % 10) as u8;
        number /= 10;
        if number == 0 {
            break;
        }
    }
    text.push_str(before);
    text.extend(digits[at..].iter().map(|digit| char::from(*digit)));
}

fn plan_text(table: &Table) -> Result<String, Fault> {
    let mut text = String::with_capacity(65536);
    write!(text, "plan 1\nrate {}\n", table.rate)?;
    for group in &table.groups {
        let plan = plan(table, group)?;
        writeln!(text, "group {} frame {} buses {}", group.name, plan.frame, plan.buses)?;
        for placed in &plan.placed {
            let source = &table.sources[group.outputs[placed.output].source].name;
            text.push_str("output ");
            text.push_str(source);
            push_number(&mut text, " period ", placed.period);
            push_number(&mut text, " bus ", placed.bus);
            push_number(&mut text, " offset ", placed.offset);
            text.push('\n');
        }
        writeln!(text, "bound {} > {} * {}", plan.demand, plan.buses - 1, plan.frame)?;
    }
    Ok(text)
}

/// The duration of this number of slots in microseconds, rounded up.
fn slots_us(rate: u64, slots: u64) -> u64 {
    (36_000_000 * slots).div_ceil(rate)
}

const COLUMNS: [&str; 15] = [
    "group", "rate", "source", "receiver", "label", "sdi", "bus", "offset", "period_slots", "period_us", "min_us", "max_us",
    "hold", "spacing_slots", "latency_us",
];

/// The rows of the interface control document, the columns' names first.
fn document(table: &Table) -> Result<Vec<Vec<String>>, Fault> {
    let mut rows = vec![COLUMNS.map(String::from).to_vec()];
    for group in &table.groups {
        let mut plan = plan(table, group)?;
        plan.placed.sort_unstable_by_key(|placed| placed.output);
        for placed in &plan.placed {
            let output = &group.outputs[placed.output];
            let source = &table.sources[output.source];
            rows.push(vec![
                group.name.clone(),
                table.rate.to_string(),
                source.name.clone(),
                source.receiver.clone(),
                format!("{:03o}", source.label),
                source.sdi.map_or("any".into(), |sdi| sdi.to_string()),
                placed.bus.to_string(),
                placed.offset.to_string(),
                placed.period.to_string(),
                slots_us(table.rate, placed.period).to_string(),
                output.min_us.to_string(),
                output.max_us.to_string(),
                String::new(),
                (output.min_us * table.rate).div_ceil(36_000_000).to_string(),
                slots_us(table.rate, placed.period + 1).to_string(),
            ]);
        }
    }
    Ok(rows)
}

/// A field in columns.
fn shown(field: &str) -> &str {
    if field.is_empty() { "-" } else { field }
}

fn columns_text(rows: &[Vec<String>]) -> Result<String, Fault> {
    let columns = rows.first().map_or(0, Vec::len);
    let widths: Vec<usize> = (0..columns).map(|at| rows.iter().map(|row| shown(&row[at]).len()).max().unwrap_or(0)).collect();
    let mut text = String::new();
    for row in rows {
        let (last, fields) = row.split_last().ok_or("no field")?;
        for (field, width) in fields.iter().zip(&widths) {
            write!(text, "{:<width$}  ", shown(field))?;
        }
        writeln!(text, "{}", shown(last))?;
    }
    Ok(text)
}

fn csv_text(rows: &[Vec<String>]) -> String {
    let mut text = String::new();
    for row in rows {
        text.push_str(&row.join(","));
        text.push('\n');
    }
    text
}

/// The outputs that save a bus at twice their period, by their numbers, so that the fewest cells become free.
fn choice(outputs: &[Placed], frame: u64, needed: u64) -> Option<Vec<bool>> {
    let free = |placed: &Placed| frame / (2 * placed.period);
    if outputs.iter().map(free).sum::<u64>() < needed {
        return None;
    }
    let mut chosen = vec![false; outputs.len()];
    let (mut cells, mut size) = (0, frame / 2);
    while size > 0 {
        let rest: u64 = outputs.iter().map(free).filter(|it| *it < size).sum();
        for (chosen, placed) in chosen.iter_mut().zip(outputs) {
            if free(placed) == size && (cells + size <= needed || cells + rest < needed) {
                *chosen = true;
                cells += size;
            }
        }
        size /= 2;
    }
    Some(chosen)
}

const MARGIN_COLUMNS: [&str; 11] = [
    "group", "frame_slots", "buses", "excess", "bound", "source", "period_slots", "next_slots", "less", "max_us", "choose",
];

fn margin_text(table: &Table) -> Result<String, Fault> {
    let mut rows = vec![MARGIN_COLUMNS.map(String::from).to_vec()];
    for group in &table.groups {
        let mut plan = plan(table, group)?;
        plan.placed.sort_unstable_by_key(|placed| placed.output);
        let excess = plan.demand - (plan.buses - 1) * plan.frame;
        let chosen = if plan.buses > 1 { choice(&plan.placed, plan.frame, excess) } else { None };
        let windows = plan.placed.iter().map(|placed| group.outputs[placed.output].max_us * table.rate / 36_000_000);
        let bound = windows.map(|window| (1 << 32) / window).sum::<u64>().div_ceil(1 << 32);
        let numbers = [plan.frame, plan.buses, excess, bound];
        let mut row = vec![group.name.clone()];
        row.extend(numbers.map(|number| number.to_string()));
        row.resize(MARGIN_COLUMNS.len() - 1, String::new());
        row.push(if plan.buses < 2 { "" } else if chosen.is_some() { "yes" } else { "no" }.into());
        rows.push(row);
        for placed in plan.placed.iter().filter(|placed| plan.buses > 1 && placed.period < plan.frame) {
            let (from, to) = (placed.period, 2 * placed.period);
            let numbers = [from, to, plan.frame / to, slots_us(table.rate, to)];
            let mut row = vec![group.name.clone()];
            row.resize(5, String::new());
            row.push(table.sources[group.outputs[placed.output].source].name.clone());
            row.extend(numbers.map(|number| number.to_string()));
            row.push(if chosen.as_ref().is_some_and(|it| it[placed.output]) { "yes" } else { "no" }.into());
            rows.push(row);
        }
    }
    columns_text(&rows)
}

/// The outputs of the cells of a plan, bus by bus.
fn cells_of(plan: &Plan) -> Vec<Option<usize>> {
    let mut cells = vec![None; (plan.buses * plan.frame) as usize];
    for placed in &plan.placed {
        for slot in (placed.offset..plan.frame).step_by(placed.period as usize) {
            cells[(placed.bus * plan.frame + slot) as usize] = Some(placed.output);
        }
    }
    cells
}

/// The rows of some buses, by the cells of each that have an output: how full they are, and the room for each period.
fn load_rows(table: &Table, group: &Group, frame: u64, bus: String, loads: &[u64]) -> Vec<Vec<String>> {
    let (cells, all) = (loads.iter().sum::<u64>(), loads.len() as u64 * frame);
    let tenths = (1000 * cells).div_ceil(all);
    let words = (cells * table.rate).div_ceil(36 * frame);
    let mut row = vec![group.name.clone()];
    row.extend([table.rate.to_string(), bus.clone(), frame.to_string(), cells.to_string(), (all - cells).to_string()]);
    row.extend([format!("{}.{}", tenths / 10, tenths % 10), words.to_string()]);
    row.resize(LOAD_COLUMNS.len(), String::new());
    let mut rows = vec![row];
    for period in (1..14).map(|digits| 1 << digits).filter(|period| *period <= frame) {
        let room = loads.iter().map(|load| (frame - load) * period / frame).sum::<u64>();
        let mut row = vec![group.name.clone(), String::new(), bus.clone()];
        row.resize(LOAD_COLUMNS.len() - 2, String::new());
        row.extend([period.to_string(), room.to_string()]);
        rows.push(row);
    }
    rows
}

const LOAD_COLUMNS: [&str; 11] = [
    "group", "rate", "bus", "frame_slots", "cells", "free", "percent", "words_s", "needed", "period_slots", "room",
];

fn load_text(table: &Table) -> Result<String, Fault> {
    let mut rows = vec![LOAD_COLUMNS.map(String::from).to_vec()];
    for group in &table.groups {
        let plan = plan(table, group)?;
        let mut loads = vec![0; plan.buses as usize];
        for placed in &plan.placed {
            loads[placed.bus as usize] += plan.frame / placed.period;
        }
        for (bus, load) in loads.iter().enumerate() {
            rows.extend(load_rows(table, group, plan.frame, bus.to_string(), &[*load]));
        }
        rows.extend(load_rows(table, group, plan.frame, String::new(), &loads));
    }
    columns_text(&rows)
}

fn slots_text(table: &Table) -> Result<String, Fault> {
    let names = ["group", "slot", "time_us", "bus", "label", "sdi", "source", "period_slots"];
    let mut rows = vec![names.map(String::from).to_vec()];
    for group in &table.groups {
        let mut plan = plan(table, group)?;
        plan.placed.sort_unstable_by_key(|placed| placed.output);
        let cells = cells_of(&plan);
        for slot in 0..plan.frame {
            for bus in 0..plan.buses {
                let Some(output) = cells[(bus * plan.frame + slot) as usize] else { continue };
                let source = &table.sources[group.outputs[output].source];
                rows.push(vec![
                    group.name.clone(),
                    slot.to_string(),
                    slots_us(table.rate, slot).to_string(),
                    bus.to_string(),
                    format!("{:03o}", source.label),
                    source.sdi.map_or("any".into(), |sdi| sdi.to_string()),
                    source.name.clone(),
                    plan.placed[output].period.to_string(),
                ]);
            }
        }
    }
    columns_text(&rows)
}

const HEADER_START: &str = "/* Slot tables, by `a429 slots --c`. Element [bus * A429_GROUP_0_FRAME + slot] of an array
   is the number of the output in that cell, or A429_EMPTY. Outputs are numbered from 0. */
#ifndef A429_SLOTS_H
#define A429_SLOTS_H

#include <stdint.h>

#define A429_EMPTY 0xFFFF

";

fn header_text(table: &Table) -> Result<String, Fault> {
    let mut text = String::from(HEADER_START);
    for (number, group) in table.groups.iter().enumerate() {
        let mut plan = plan(table, group)?;
        plan.placed.sort_unstable_by_key(|placed| placed.output);
        write!(text, "/* group {}", group.name)?;
        for placed in &plan.placed {
            let source = &table.sources[group.outputs[placed.output].source];
            let sdi = source.sdi.map_or("any".into(), |sdi| sdi.to_string());
            write!(text, "\n   {}: label {:03o} sdi {sdi} period {} source {}", placed.output, source.label, placed.period, source.name)?;
        }
        text.push_str(" */\n");
        writeln!(text, "#define A429_GROUP_{number}_NAME \"{}\"", group.name)?;
        let sizes = [("RATE", table.rate), ("FRAME", plan.frame), ("BUSES", plan.buses), ("OUTPUTS", group.outputs.len() as u64)];
        for (size, value) in sizes {
            writeln!(text, "#define A429_GROUP_{number}_{size} {value}")?;
        }
        write!(text, "static const uint16_t a429_group_{number}_slots[A429_GROUP_{number}_BUSES * A429_GROUP_{number}_FRAME] = {{")?;
        for (place, cell) in cells_of(&plan).iter().enumerate() {
            text.push_str(if place as u64 % plan.frame % 16 == 0 { "\n    " } else { " " });
            match cell {
                Some(output) => push_number(&mut text, "", *output as u64),
                None => text.push_str("0xFFFF"),
            }
            text.push(',');
        }
        text.push_str("\n};\n\n");
    }
    text.push_str("#endif\n");
    Ok(text)
}

/// The number of a text: decimal, without sign or leading zeros, of at most ten digits.
/// Draws a group with its upper edge here, and answers how high it is.
fn draw_group(text: &mut String, table: &Table, number: usize, top: u64) -> Result<u64, Fault> {
    let group = &table.groups[number];
    let mut plan = plan(table, group)?;
    plan.placed.sort_unstable_by_key(|placed| placed.output);
    let (frame, buses) = (plan.frame, plan.buses);
    let slots = frame.min(256);
    let mut cells = vec![None; (buses * frame) as usize];
    for placed in &plan.placed {
        for slot in (placed.offset..frame).step_by(placed.period as usize) {
            cells[(placed.bus * frame + slot) as usize] = Some(placed.output);
        }
    }
    let source_of = |output: usize| &table.sources[group.outputs[output].source];
    let fold_top = |fold: u64| 26 + fold * (22 + 18 * buses);
    let left = |slot: u64| 100 + 16 * (slot % 64);
    writeln!(text, "<g transform='translate(0 {top})'>")?;
    let rate = table.rate;
    let ms = |slots: u64| {
        let us = slots_us(rate, slots);
        format!("{}.{:03} ms", us / 1000, us % 1000)
    };
    let (name, lasting, last) = (&group.name, ms(frame), slots - 1);
    writeln!(text, "<text x='8' y='18' font-size='14'>group {name} rate {rate} buses {buses} frame {frame} ({lasting}) slots 0 to {last} of {frame}</text>")?;
    writeln!(text, "<defs>")?;
    for output in 0..group.outputs.len() {
        let source = source_of(output);
        writeln!(text, "<g id='o{number}-{output}'><title>{}</title>", source.name)?;
        let lightness = source.sdi.map_or(70, |sdi| 92 - 5 * sdi);
        writeln!(text, "<rect width='15' height='17' fill='hsl({},65%,{lightness}%)'/>", source.label * 137 % 360)?;
        writeln!(text, "<text x='7' y='12' font-size='7' text-anchor='middle'>{:03o}</text></g>", source.label)?;
    }
    writeln!(text, "</defs>")?;
    for slot in (0..slots).step_by(8) {
        let (left, base) = (left(slot), fold_top(slot / 64) + 11);
        writeln!(text, "<text x='{left}' y='{base}' font-size='8' fill='#666'>{slot} ({})</text>", ms(slot))?;
    }
    for bus in 0..buses {
        let row = &cells[(bus * frame) as usize..((bus + 1) * frame) as usize];
        let load = 100 * row.iter().flatten().count() as u64 / frame;
        let row_top = |fold: u64| fold_top(fold) + 14 + 18 * bus;
        writeln!(text, "<text x='{}' y='{}'>{load} %</text>", 106 + 16 * slots.min(64), row_top(0) + 13)?;
        for fold in 0..slots.div_ceil(64) {
            let (top, width) = (row_top(fold), 16 * 64.min(slots - 64 * fold));
            writeln!(text, "<text x='8' y='{}'>bus {bus}</text>", top + 13)?;
            writeln!(text, "<rect x='100' y='{top}' width='{width}' height='17' fill='#eee'/>")?;
        }
        for slot in 0..slots {
            if let Some(output) = row[slot as usize] {
                writeln!(text, "<use href='#o{number}-{output}' x='{}' y='{}'/>", left(slot), row_top(slot / 64))?;
            }
        }
    }
    let legend = fold_top(slots.div_ceil(64)) + 4;
    writeln!(text, "<text x='8' y='{}' font-size='10'>group {}</text>", legend - 2, group.name)?;
    let mut ranked: Vec<usize> = (0..group.outputs.len()).collect();
    ranked.sort_by_key(|&output| (source_of(output).label, source_of(output).sdi.map_or(0, |sdi| sdi + 1)));
    let mut ranks = vec![0; ranked.len()];
    for (rank, &output) in ranked.iter().enumerate() {
        ranks[output] = rank;
    }
    for placed in &plan.placed {
        let (output, source) = (placed.output, source_of(placed.output));
        let (left, line) = (8 + 590 * (ranks[output] % 2), legend + 20 * (ranks[output] as u64 / 2));
        writeln!(text, "<use href='#o{number}-{output}' x='{left}' y='{line}'/>")?;
        let (left, base) = (left + 22, line + 13);
        let sdi = source.sdi.map_or("any".into(), |sdi| sdi.to_string());
        let (label, name, receiver) = (source.label, &source.name, &source.receiver);
        let (bus, period, lasting) = (placed.bus, placed.period, ms(placed.period));
        writeln!(text, "<text x='{left}' y='{base}' font-size='10'>{label:03o} {sdi} {name} receiver {receiver} bus {bus} every {period} slots ({lasting})</text>")?;
    }
    writeln!(text, "</g>")?;
    Ok(legend + 20 * (group.outputs.len() as u64).div_ceil(2) + 24)
}

fn drawing_text(table: &Table) -> Result<String, Fault> {
    let (mut groups, mut height) = (String::new(), 0);
    for number in 0..table.groups.len() {
        height += draw_group(&mut groups, table, number, height)?;
    }
    Ok(format!(
        "<svg xmlns='http://www.w3.org/2000/svg' viewBox='0 0 1190 {height}' font-family='monospace' font-size='11'>\n\
         <rect width='1190' height='{height}' fill='white'/>\n{groups}</svg>\n"
    ))
}

fn decimal(text: &str) -> Option<u64> {
    let plain = text.len() <= 10 && text.bytes().all(|b| b.is_ascii_digit()) && (text.len() == 1 || !text.starts_with('0'));
    if plain { text.parse().ok() } else { None }
}

/// The first line of a text that fails, from 1, and why; `None` if the text shows the fewest buses.
fn check<'a>(table: &Table, text: &'a str) -> Result<Option<(&'static str, usize)>, Fault> {
    let mut lines = text.split_inclusive('\n').map(|line| line.strip_suffix('\n'));
    let mut at = 0;
    let mut line: Vec<&str> = Vec::new();
    let mut words = |into: &mut Vec<&'a str>| {
        at += 1;
        into.clear();
        into.extend(lines.next().flatten().unwrap_or("").split(' '));
        at
    };
    let number = words(&mut line);
    if line != ["plan", "1"] {
        return Ok(Some(("form", number)));
    }
    let number = words(&mut line);
    match line[..] {
        ["rate", rate] if decimal(rate).is_some() => {
            if decimal(rate) != Some(table.rate) {
                return Ok(Some(("rate", number)));
            }
        }
        _ => return Ok(Some(("form", number))),
    }
    let names: Numbers = table.sources.iter().enumerate().map(|(at, it)| (it.name.as_str(), at)).collect();
    for group in &table.groups {
        // the period of each source that is not listed yet
        let mut periods = [None; 256];
        for output in &group.outputs {
            periods[output.source] = Some(grid_period(table.rate, output)?);
        }
        let greatest = periods.iter().flatten().copied().max().unwrap_or(1);
        let number = words(&mut line);
        let (name, frame, buses) = match line[..] {
            ["group", name, "frame", frame, "buses", buses] => match (decimal(frame), decimal(buses)) {
                (Some(frame), Some(buses)) => (name, frame, buses),
                _ => return Ok(Some(("form", number))),
            },
            _ => return Ok(Some(("form", number))),
        };
        if name != group.name {
            return Ok(Some(("group", number)));
        }
        if frame != greatest {
            return Ok(Some(("frame", number)));
        }
        if !(1..=BUSES).contains(&buses) {
            return Ok(Some(("buses", number)));
        }
        // the slots of each bus that are taken, whose periods divide the frame
        let mut taken = vec![false; (frame * buses) as usize];
        let mut demand = 0;
        for _ in &group.outputs {
            let number = words(&mut line);
            let (name, period, bus, offset) = match line[..] {
                ["output", name, "period", period, "bus", bus, "offset", offset] => {
                    match (decimal(period), decimal(bus), decimal(offset)) {
                        (Some(period), Some(bus), Some(offset)) => (name, period, bus, offset),
                        _ => return Ok(Some(("form", number))),
                    }
                }
                _ => return Ok(Some(("form", number))),
            };
            let Some(due) = names.get(name).and_then(|source| periods[*source].take()) else {
                return Ok(Some(("output", number)));
            };
            if period != due {
                return Ok(Some(("period", number)));
            }
            if bus >= buses || offset >= period {
                return Ok(Some(("place", number)));
            }
            let own = &mut taken[(bus * frame) as usize..((bus + 1) * frame) as usize];
            for slot in own[offset as usize..].iter_mut().step_by(period as usize) {
                if *slot {
                    return Ok(Some(("shared", number)));
                }
                *slot = true;
            }
            demand += frame / period;
        }
        let number = words(&mut line);
        let bound = match line[..] {
            ["bound", cells, ">", full, "*", slots] => match (decimal(cells), decimal(full), decimal(slots)) {
                (Some(cells), Some(full), Some(slots)) => (cells, full, slots),
                _ => return Ok(Some(("form", number))),
            },
            _ => return Ok(Some(("form", number))),
        };
        if bound != (demand, buses - 1, frame) || demand <= (buses - 1) * frame || demand > buses * frame {
            return Ok(Some(("bound", number)));
        }
    }
    let number = words(&mut line);
    Ok(if line == [""] { None } else { Some(("form", number)) })
}

fn main() -> Result<(), Fault> {
    let words: Vec<String> = env::args().skip(1).collect();
    let told = match &words[..] {
        [command, name] if command == "plan" => plan_text(&table(&fs::read_to_string(name)?)?)?,
        [command, name] if command == "icd" => columns_text(&document(&table(&fs::read_to_string(name)?)?)?)?,
        [command, name, option] if command == "icd" && option == "--csv" => {
            csv_text(&document(&table(&fs::read_to_string(name)?)?)?)
        }
        [command, name] if command == "margin" => margin_text(&table(&fs::read_to_string(name)?)?)?,
        [command, name] if command == "load" => load_text(&table(&fs::read_to_string(name)?)?)?,
        [command, name] if command == "slots" => slots_text(&table(&fs::read_to_string(name)?)?)?,
        [command, name, option] if command == "slots" && option == "--c" => {
            header_text(&table(&fs::read_to_string(name)?)?)?
        }
        [command, name] if command == "draw" => drawing_text(&table(&fs::read_to_string(name)?)?)?,
        [command, name, text] if command == "check" => {
            let table = table(&fs::read_to_string(name)?)?;
            match check(&table, &fs::read_to_string(text)?)? {
                None => "fewest\n".into(),
                Some((reason, line)) => format!("no {reason} {line}\n"),
            }
        }
        _ => return Err("words: plan, icd, margin, load, slots or draw TABLE, or icd TABLE --csv, or slots TABLE --c, or check TABLE TEXT".into()),
    };
    io::stdout().write_all(told.as_bytes())?;
    Ok(())
}
