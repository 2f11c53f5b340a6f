//! Plays a script like `a429 replay`, or reads a line file like `a429 lines`, in plain Rust that is written to be fast:
//! what bench/replay and bench/lines compare the program with, in time and in every byte. It shares no code with the
//! program, knows the table that bench/replay makes (source `sN` has label N, and receiver `rM` has the sources from 16 M
//! on), and takes the slot tables from the text of the plan. A word is counted, and a cell is looked up, as the program does
//! it: in 41 bits, by a binary search, with spacing and hold.
//!
//! Arguments: `replay`, the text of the plan and the script; or `lines`, the line file and filters.

use std::error::Error;
use std::hint::select_unpredictable;
use std::io::{self, Write};
use std::{env, fs};

type Fault = Box<dyn Error>;

/// A byte in each of the eight bytes of a number is that byte times this.
const BYTES: u64 = u64::MAX / 255;

// ---- Output

/// How many bytes are gathered before they are written.
const PIECE: usize = 65536;

/// More bytes than the longest line has.
const LINE: usize = 64;

/// Lines on their way out, in a room that has place for one line more than is written at once.
struct Lines<W: Write> {
    out: W,
    room: Box<[u8]>,
    used: usize,
    hex: [[u8; 2]; 256],
}

impl<W: Write> Lines<W> {
    fn to(out: W) -> Lines<W> {
        let digit = |nibble: usize| b"0123456789abcdef"[nibble];
        let hex = std::array::from_fn(|byte| [digit(byte / 16), digit(byte % 16)]);
        Lines { out, room: vec![0; PIECE + LINE].into_boxed_slice(), used: 0, hex }
    }

    /// A line has to be begun by this call, which leaves place for it.
    #[inline(always)]
    fn begin(&mut self) -> io::Result<()> {
        if self.used >= PIECE { self.write() } else { Ok(()) }
    }

    #[inline(never)]
    fn write(&mut self) -> io::Result<()> {
        self.out.write_all(&self.room[..self.used])?;
        self.used = 0;
        Ok(())
    }

    #[inline(always)]
    fn put(&mut self, bytes: &[u8]) {
        self.room[self.used..self.used + bytes.len()].copy_from_slice(bytes);
        self.used += bytes.len();
    }

    /// A text with its number of bytes. Other bytes follow it in its array: they are copied too and written over.
    #[inline(always)]
    fn put_short(&mut self, text: &Short) {
        self.room[self.used..self.used + 24].copy_from_slice(&text.bytes);
        self.used += text.length;
    }

    #[inline(always)]
    fn put_hex(&mut self, raw: u32) {
        let mut digits = [0; 8];
        for (pair, byte) in digits.chunks_exact_mut(2).zip(raw.to_be_bytes()) {
            pair.copy_from_slice(&self.hex[usize::from(byte)]);
        }
        self.put(&digits);
    }

    fn line(&mut self, text: &[u8]) -> io::Result<()> {
        self.begin()?;
        self.put(text);
        Ok(())
    }

    fn finish(mut self) -> io::Result<()> {
        self.write()?;
        self.out.flush()
    }
}

/// A text of at most 24 bytes.
#[derive(Clone, Copy)]
struct Short {
    bytes: [u8; 24],
    length: usize,
}

impl Short {
    fn of(text: &str) -> Short {
        let mut bytes = [0; 24];
        bytes[..text.len()].copy_from_slice(text.as_bytes());
        Short { bytes, length: text.len() }
    }

    /// A number and a space.
    fn number(mut number: u64) -> Short {
        let (mut digits, mut at) = ([b' '; 24], 23);
        loop {
            at -= 1;
            digits[at] = b'0' + (number % 10) as u8;
            number /= 10;
            if number == 0 {
                break;
            }
        }
        let mut bytes = [0; 24];
        bytes[..24 - at].copy_from_slice(&digits[at..]);
        Short { bytes, length: 24 - at }
    }
}

// ---- The station

#[derive(Clone, Copy)]
enum Event {
    Arrive(u8, u32),
    Cell(u8),
    Frame(u8),
}

/// The newest word of a source, and how many were accepted.
#[derive(Clone, Copy, Default)]
struct Current {
    count: u64,
    raw: u32,
}

/// How many words of a source are accepted at most: as many as 41 bits count.
const MOST: u64 = (1 << 41) - 1;

/// What stands for no source in a table of sources.
const NO_SOURCE: u16 = 256;

/// The source of each receiver, label and SDI, by the receiver and the lowest ten bits of a word.
fn sources() -> Vec<u16> {
    (0..16 << 10).map(|place| {
        let label = u16::from((place as u8).reverse_bits());
        if usize::from(label / 16) == place >> 10 { label } else { NO_SOURCE }
    }).collect()
}

/// What a group sent last of a source; the count is 0 if it sent nothing.
#[derive(Clone, Copy, Default)]
struct LastSend {
    count: u64,
    slot: u64,
    times: u32,
}

/// How many outputs a group has at most.
const OUTPUTS: usize = 128;

/// The outputs of a group, in the order in which they were placed: each has the cells from its start up to that of the
/// next, bus by bus, with the slots of a bus in the order of their reversed digits.
struct Layout {
    starts: [u32; OUTPUTS],
    sources: [u8; OUTPUTS],
    /// The minimum number of slots from one send to the next.
    spacings: [u32; OUTPUTS],
    /// The maximum number of sends of one accepted word.
    holds: [u32; OUTPUTS],
    cells: u32,
    digits: u32,
}

impl Layout {
    /// The layout of a frame of this number of slots, with the starts, sources and periods of its outputs, in the order of the starts. The
    /// table that bench/replay makes asks for an interval of a microsecond or more, and for no hold.
    fn of(frame: u32, outputs: &[(u32, u8, u32)]) -> Layout {
        let mut layout = Layout {
            starts: [u32::MAX; OUTPUTS],
            sources: [0; OUTPUTS],
            spacings: [1; OUTPUTS],
            holds: [u32::MAX; OUTPUTS],
            cells: outputs.last().map_or(0, |(start, _, period)| start + frame / period),
            digits: frame.ilog2(),
        };
        for (place, (start, source, _)) in outputs.iter().enumerate() {
            (layout.starts[place], layout.sources[place]) = (*start, *source);
        }
        layout
    }

    /// The output of a cell, which is given by its bus and the reversed digits of its slot.
    #[inline(always)]
    fn output(&self, bus: u32, reversed: u32) -> Option<usize> {
        let cell = bus << self.digits | reversed;
        if cell >= self.cells {
            return None;
        }
        let mut output = 0;
        for step in [64, 32, 16, 8, 4, 2, 1] {
            let next = output | step;
            output = select_unpredictable(self.starts[next] <= cell, next, output);
        }
        Some(output)
    }
}

/// The lowest digits of a number in binary, in reverse.
#[inline(always)]
fn reversed(number: u32, digits: u32) -> u32 {
    if digits == 0 { 0 } else { number.reverse_bits() >> (32 - digits) }
}

/// A group in its frame, which began with the slot `first`.
struct Group {
    layout: Layout,
    sends: Box<[LastSend; 256]>,
    buses: Vec<Short>,
    frame: u32,
    first: u64,
    slot: u32,
    bus: u32,
    reversed: u32,
    slot_text: Short,
}

impl Group {
    fn of(frame: u32, buses: u64, outputs: &mut [(u32, u8, u32)]) -> Group {
        outputs.sort();
        Group {
            layout: Layout::of(frame, outputs),
            sends: Box::new([LastSend::default(); 256]),
            buses: (0..buses).map(Short::number).collect(),
            frame,
            first: 0,
            slot: 0,
            bus: 0,
            reversed: 0,
            slot_text: Short::number(0),
        }
    }

    #[inline(always)]
    fn is_at_end(&self) -> bool {
        self.slot == self.frame
    }

    /// The word of the cell that is due, if its output has one that may be sent; what is sent is noted.
    #[inline(always)]
    fn word(&mut self, values: &[Current; 256]) -> Option<u32> {
        let output = self.layout.output(self.bus, self.reversed)?;
        let source = usize::from(self.layout.sources[output]);
        let Current { count, raw } = values[source];
        if count == 0 {
            return None;
        }
        let slot = self.first + u64::from(self.slot);
        let last = &mut self.sends[source];
        let times = if last.count == count { last.times } else { 0 };
        let is_soon = last.count != 0 && slot - last.slot < u64::from(self.layout.spacings[output]);
        if is_soon || times >= self.layout.holds[output] {
            return None;
        }
        *last = LastSend { count, slot, times: (times + 1).min(u32::MAX - 1) };
        Some(raw)
    }

    /// Goes on to the next cell.
    #[inline(always)]
    fn pass(&mut self) {
        self.bus += 1;
        if self.bus as usize == self.buses.len() {
            self.bus = 0;
            self.slot += 1;
            self.reversed = reversed(self.slot & (self.frame - 1), self.layout.digits);
            self.slot_text = Short::number(self.first + u64::from(self.slot));
        }
    }

    /// Goes on to the next frame.
    fn begin(&mut self) {
        (self.first, self.slot) = (self.first + u64::from(self.frame), 0);
    }
}

fn groups(plan: &str) -> Result<Vec<Group>, Fault> {
    let mut groups: Vec<(u32, u64, Vec<(u32, u8, u32)>)> = Vec::new();
    for line in plan.lines() {
        match *line.split(' ').collect::<Vec<_>>() {
            ["group", _, "frame", slots, "buses", buses] => groups.push((slots.parse()?, buses.parse()?, Vec::new())),
            ["output", source, "period", period, "bus", bus, "offset", offset] => {
                let (frame, _, outputs) = groups.last_mut().ok_or("an output before its group")?;
                let digits = frame.ilog2();
                let start = bus.parse::<u32>()? << digits | reversed(offset.parse()?, digits);
                outputs.push((start, source[1..].parse()?, period.parse()?));
            }
            _ => {}
        }
    }
    Ok(groups.into_iter().map(|(frame, buses, mut outputs)| Group::of(frame, buses, &mut outputs)).collect())
}

// ---- Scripts

/// Names of 1 to 16 bytes, found by their bytes as a number.
struct Names {
    heads: [u128; 64],
    numbers: [u8; 64],
}

fn place(head: u128) -> usize {
    let folded = head as u64 ^ ((head >> 64) as u64).wrapping_mul(0x9e37_79b9);
    (folded.wrapping_mul(0x9e37_79b9_7f4a_7c15) >> 58) as usize
}

/// The place of the first of eight bytes that is `end`; 8 if there is none.
#[inline(always)]
fn first_of(bytes: u64, end: u8) -> u32 {
    let unlike = bytes ^ u64::from(end) * BYTES;
    (unlike.wrapping_sub(BYTES) & !unlike & BYTES << 7).trailing_zeros() / 8
}

impl Names {
    fn of(letter: char, count: u8) -> Names {
        let mut names = Names { heads: [0; 64], numbers: [0; 64] };
        for number in 0..count {
            let mut bytes = [0; 16];
            let name = format!("{letter}{number}");
            bytes[..name.len()].copy_from_slice(name.as_bytes());
            let head = u128::from_le_bytes(bytes);
            let mut at = place(head);
            while names.heads[at] != 0 {
                at = (at + 1) % 64;
            }
            (names.heads[at], names.numbers[at]) = (head, number);
        }
        names
    }

    /// The number of the name before the first of sixteen bytes that is `end`, or of all of them, and the length of the
    /// name.
    #[inline(always)]
    fn number(&self, bytes: u128, end: u8) -> Option<(u8, usize)> {
        let mut length = first_of(bytes as u64, end);
        if length == 8 {
            length += first_of((bytes >> 64) as u64, end);
        }
        if length == 0 {
            return None;
        }
        let head = bytes & u128::MAX >> (128 - 8 * length);
        let mut at = place(head);
        while self.heads[at] != head {
            if self.heads[at] == 0 {
                return None;
            }
            at = (at + 1) % 64;
        }
        Some((self.numbers[at], length as usize))
    }
}

/// The values of hexadecimal digits; 255 for every other byte.
const DIGITS: [u8; 256] = {
    let mut digits = [255; 256];
    let mut value = 0;
    while value < 16 {
        digits[b"0123456789abcdef"[value] as usize] = value as u8;
        digits[b"0123456789ABCDEF"[value] as usize] = value as u8;
        value += 1;
    }
    digits
};

fn raw_word(digits: &[u8]) -> Option<u32> {
    let (mut raw, mut all) = (0, 0);
    for digit in digits {
        let value = DIGITS[usize::from(*digit)];
        raw = raw << 4 | u32::from(value);
        all |= value;
    }
    (all < 16).then_some(raw)
}

struct Reader {
    receivers: Names,
    groups: Names,
}

impl Reader {
    /// The first event of a text that is followed by bytes of no meaning, and the length of its line.
    #[inline(always)]
    fn event(&self, text: &[u8]) -> Option<(Event, usize)> {
        let verb = u64::from_le_bytes(*text.first_chunk::<8>()?);
        let name = |at: usize| Some(u128::from_le_bytes(*text.get(at..)?.first_chunk::<16>()?));
        if verb & 0xff_ffff_ffff == u64::from_le_bytes(*b"cell \0\0\0") {
            let (group, length) = self.groups.number(name(5)?, b'\n')?;
            return (text[5 + length] == b'\n').then_some((Event::Cell(group), 5 + length + 1));
        }
        if verb & 0xff_ffff_ffff_ffff == u64::from_le_bytes(*b"arrive \0") {
            let (receiver, length) = self.receivers.number(name(7)?, b' ')?;
            let [b' ', word @ .., b'\n'] = text.get(7 + length..)?.first_chunk::<10>()? else {
                return None;
            };
            return Some((Event::Arrive(receiver, raw_word(word)?), 7 + length + 10));
        }
        if verb & 0xffff_ffff_ffff == u64::from_le_bytes(*b"frame \0\0") {
            let (group, length) = self.groups.number(name(6)?, b'\n')?;
            return (text[6 + length] == b'\n').then_some((Event::Frame(group), 6 + length + 1));
        }
        None
    }
}

/// The events of a script.
fn events(mut script: Vec<u8>) -> Result<Vec<Event>, Fault> {
    let reader = Reader { receivers: Names::of('r', 16), groups: Names::of('g', 8) };
    let size = script.len();
    script.extend([0; 32]);
    let mut events = Vec::with_capacity(size / 7 + 1);
    let mut at = 0;
    while at < size {
        let (event, length) = reader.event(&script[at..]).ok_or("no event")?;
        events.push(event);
        at += length;
    }
    if at == size { Ok(events) } else { Err("no line feed at the end".into()) }
}

fn replay(plan: &str, script: &str) -> Result<(), Fault> {
    let mut groups = groups(&fs::read_to_string(plan)?)?;
    let events = events(fs::read(script)?)?;
    let accepted: Vec<Short> = (0..256).map(|source| Short::of(&format!("accepted s{source}\n"))).collect();
    let sources = sources();
    let mut values = Box::new([Current::default(); 256]);
    let mut lines = Lines::to(io::stdout().lock());
    for event in events {
        lines.begin()?;
        match event {
            Event::Arrive(_, raw) if raw.count_ones() % 2 == 0 => lines.put(b"refused parity\n"),
            Event::Arrive(receiver, raw) => match sources[usize::from(receiver) << 10 | (raw & 0x3ff) as usize] {
                NO_SOURCE => lines.put(b"refused no-source\n"),
                source => {
                    let value = &mut values[usize::from(source as u8)];
                    if value.count == MOST {
                        lines.put(b"refused count-spent\n");
                        continue;
                    }
                    *value = Current { count: value.count + 1, raw };
                    lines.put_short(&accepted[usize::from(source as u8)]);
                }
            },
            Event::Cell(number) => {
                let group = &mut groups[usize::from(number)];
                if group.is_at_end() {
                    lines.put(b"refused frame-end\n");
                    continue;
                }
                lines.put(b"sent ");
                lines.put_short(&group.buses[group.bus as usize]);
                lines.put_short(&group.slot_text);
                match group.word(&values) {
                    Some(raw) => lines.put_hex(raw),
                    None => lines.put(b"none"),
                }
                lines.put(b"\n");
                group.pass();
            }
            Event::Frame(number) => {
                let group = &mut groups[usize::from(number)];
                if group.is_at_end() {
                    group.begin();
                    lines.put(b"changed 0\n");
                } else {
                    lines.put(b"refused mid-frame\n");
                }
            }
        }
    }
    Ok(lines.finish()?)
}

// ---- Lines

/// A filter `LLL/MMM`: the label and the mask, in octal.
fn filter(text: &str) -> Result<(u8, u8), Fault> {
    let (label, mask) = text.split_once('/').ok_or("no mask")?;
    Ok((u8::from_str_radix(label, 8)?, u8::from_str_radix(mask, 8)?))
}

#[inline(always)]
fn is_line_byte(byte: u8) -> bool {
    (byte | 1 == b'1') | (byte == b'.') | (byte == b'\n') | (byte == b' ')
}

/// The place of the first byte that a line file has not. Whole runs of bytes are tested without a branch.
fn first_other(bytes: &[u8]) -> Option<usize> {
    let run = bytes.chunks(512).position(|run| !run.iter().fold(true, |all, byte| all & is_line_byte(*byte)))?;
    bytes[run * 512..].iter().position(|byte| !is_line_byte(*byte)).map(|at| run * 512 + at)
}

/// The bits that eight bytes `0` and `1` stand for, the first lowest.
#[inline(always)]
fn eight_bits(bytes: &[u8]) -> Option<u32> {
    let bytes = u64::from_le_bytes(*bytes.first_chunk::<8>()?);
    if bytes | BYTES != u64::from(b'1') * BYTES {
        return None;
    }
    let pairs = bytes & BYTES | (bytes & BYTES) >> 7;
    let fours = pairs & 0x3_0003_0003_0003 | (pairs & 0x3_0003_0003_0003) >> 14;
    Some((fours & 0xf | fours >> 28 & 0xf0) as u32)
}

/// The bits that 32 bytes `0` and `1` stand for.
#[inline(always)]
fn whole_word(bytes: &[u8]) -> Option<u32> {
    let bytes = bytes.first_chunk::<32>()?;
    let mut raw = 0;
    for (place, eight) in bytes.chunks_exact(8).enumerate() {
        raw |= eight_bits(eight)? << (8 * place);
    }
    Some(raw)
}

struct Teller<W: Write> {
    filters: Vec<(u8, u8)>,
    lines: Lines<W>,
}

impl<W: Write> Teller<W> {
    #[inline(always)]
    fn word(&mut self, raw: u32) -> io::Result<()> {
        let odd = raw.count_ones() % 2 == 1;
        if !self.filters.is_empty() {
            let label = (raw as u8).reverse_bits();
            if !odd || !self.filters.iter().any(|(own, mask)| (label ^ own) & mask == 0) {
                return Ok(());
            }
        }
        self.lines.begin()?;
        self.lines.put(if odd { b"word " } else { b"parity " });
        self.lines.put_hex(raw);
        self.lines.put(b"\n");
        Ok(())
    }

    #[inline(never)]
    fn fault(&mut self, text: String) -> io::Result<()> {
        if self.filters.is_empty() { self.lines.line(text.as_bytes()) } else { Ok(()) }
    }
}

/// The state of a reader of a line: the number of Nulls before (4 for more), the number of bits of the run, or that the
/// run was reported.
#[derive(Clone, Copy)]
enum Stage {
    Nulls(u32),
    Bits(u32, u32),
    Reported,
}

fn lines(file: &str, filters: &[String]) -> Result<(), Fault> {
    let bytes = fs::read(file)?;
    let filters = filters.iter().map(|text| filter(text)).collect::<Result<_, _>>()?;
    let mut teller = Teller { filters, lines: Lines::to(io::stdout().lock()) };
    if let Some(place) = first_other(&bytes) {
        teller.lines.line(format!("refused line byte {place}\n").as_bytes())?;
        return Ok(teller.lines.finish()?);
    }
    let mut stage = Stage::Nulls(0);
    let mut left = &bytes[..];
    while let [byte, rest @ ..] = left {
        left = rest;
        stage = match (stage, *byte) {
            (stage, b' ' | b'\n') => stage,
            (Stage::Nulls(nulls), b'.') => Stage::Nulls(if nulls < 4 { nulls + 1 } else { 4 }),
            (Stage::Nulls(4), bit) => match whole_word(&bytes[bytes.len() - rest.len() - 1..]) {
                Some(raw) => {
                    left = &rest[31..];
                    Stage::Bits(32, raw)
                }
                None => Stage::Bits(1, u32::from(bit & 1)),
            },
            (Stage::Nulls(nulls), _) => {
                teller.fault(format!("gap {nulls}\n"))?;
                Stage::Reported
            }
            (Stage::Bits(32, raw), b'.') => {
                teller.word(raw)?;
                // four Nulls are between most words
                match rest {
                    [b'.', b'.', b'.', rest @ ..] => {
                        left = rest;
                        Stage::Nulls(4)
                    }
                    _ => Stage::Nulls(1),
                }
            }
            (Stage::Bits(count, _), b'.') => {
                teller.fault(format!("short {count}\n"))?;
                Stage::Nulls(1)
            }
            (Stage::Bits(32, _), _) => {
                teller.fault("long\n".to_string())?;
                Stage::Reported
            }
            (Stage::Bits(count, raw), bit) => Stage::Bits(count + 1, raw | u32::from(bit & 1) << count),
            (Stage::Reported, b'.') => Stage::Nulls(1),
            (Stage::Reported, _) => Stage::Reported,
        };
    }
    if let Stage::Bits(count, _) = stage {
        teller.fault(format!("rest {count}\n"))?;
    }
    Ok(teller.lines.finish()?)
}

fn main() -> Result<(), Fault> {
    match &env::args().collect::<Vec<_>>()[1..] {
        [command, plan, script] if command == "replay" => replay(plan, script),
        [command, file, filters @ ..] if command == "lines" => lines(file, filters),
        _ => Err("wanted: replay PLAN SCRIPT, or lines FILE [FILTER..]".into()),
    }
}
