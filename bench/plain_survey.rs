//! The survey of logs of words in plain Rust, without proofs: what `a429 survey --csv LOG..` does. bench/survey compares
//! the two. It reads lines `TIME NAME HEX` in microseconds, with comments, and no other form of a log.

use std::collections::BTreeMap;
use std::fs;
use std::io::{self, BufWriter, Write};

#[derive(Clone, Copy, Default)]
struct Figures {
    words: u64,
    even: u64,
    least: u64,
    greatest: u64,
    first: u64,
    last: u64,
    last_word: u32,
}

impl Figures {
    fn note(&mut self, time: u64, raw: u32) {
        if self.words == 0 {
            self.first = time;
        } else {
            let interval = time - self.last;
            self.least = if self.words == 1 { interval } else { self.least.min(interval) };
            self.greatest = self.greatest.max(interval);
        }
        self.words += 1;
        self.even += u64::from(raw.count_ones() % 2 == 0);
        self.last = time;
        self.last_word = raw;
    }
}

fn tenths(number: u128) -> String {
    format!("{}.{}", number / 10, number % 10)
}

fn row(out: &mut impl Write, name: &str, label: &str, load: &str, f: &Figures) -> io::Result<()> {
    let span = u128::from(f.last - f.first);
    let (least, mean, greatest) = if f.words > 1 {
        (f.least.to_string(), tenths(10 * span / u128::from(f.words - 1)), f.greatest.to_string())
    } else {
        Default::default()
    };
    writeln!(
        out,
        "{name},{label},{},{},{least},{mean},{greatest},{},{},{:08x},{load}",
        f.words, f.even, f.first, f.last, f.last_word
    )
}

struct Name {
    name: String,
    all: Figures,
    each: Vec<Figures>,
}

fn main() -> io::Result<()> {
    let mut names: Vec<Name> = Vec::new();
    let mut last = 0;
    for file in std::env::args().skip(1) {
        let bytes = fs::read(file)?;
        for line in bytes.split(|byte| *byte == b'\n') {
            if line.is_empty() || line[0] == b'#' {
                continue;
            }
            let mut fields = line.split(|byte| *byte == b' ');
            let time = fields.next().unwrap().iter().fold(0u64, |time, digit| time * 10 + u64::from(digit - b'0'));
            let name = fields.next().unwrap();
            let raw = fields.next().unwrap().iter().fold(0u32, |raw, digit| {
                raw << 4 | (*digit as char).to_digit(16).unwrap()
            });
            if names.get(last).is_none_or(|known| known.name.as_bytes() != name) {
                last = match names.iter().position(|known| known.name.as_bytes() == name) {
                    Some(place) => place,
                    None => {
                        let name = String::from_utf8(name.to_vec()).unwrap();
                        names.push(Name { name, all: Figures::default(), each: vec![Figures::default(); 1024] });
                        names.len() - 1
                    }
                };
            }
            let place = usize::from((raw as u8).reverse_bits()) * 4 + (raw as usize >> 8 & 3);
            names[last].all.note(time, raw);
            names[last].each[place].note(time, raw);
        }
    }
    let sorted: BTreeMap<&str, &Name> = names.iter().map(|name| (name.name.as_str(), name)).collect();
    let mut out = BufWriter::new(io::stdout());
    writeln!(out, "name,label,sdi,words,even,least_us,mean_us,greatest_us,first_us,last_us,last_word,load")?;
    for (name, known) in sorted {
        for (place, figures) in known.each.iter().enumerate() {
            if figures.words > 0 {
                row(&mut out, name, &format!("{:03o},{}", place / 4, place % 4), "", figures)?;
            }
        }
        let room = 100_000 * u128::from(known.all.last - known.all.first);
        let load = match room {
            0 => String::new(),
            _ => tenths((36_000_000_000 * u128::from(known.all.words - 1)).div_ceil(room)),
        };
        row(&mut out, name, ",", &load, &known.all)?;
    }
    out.flush()
}
