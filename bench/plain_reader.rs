//! A plain Rust reader of tables (docs/FORMATS.md, docs/REFUSALS.md), to measure against.
//!
//!     rustc -O -o plain_reader bench/plain_reader.rs
//!     plain_reader COUNT
//!
//! reads resources.txt and tasks.txt in the current folder once, reads the table COUNT times from those
//! bytes, and prints `reads COUNT rows N`.

use std::hint::black_box;
use std::{env, fs, io, process};

const MOST_BYTES: usize = 32_768;
const MOST_NAME_BYTES: usize = 32;
const MOST_RESOURCES: usize = 32;
const MOST_TASKS: usize = 64;
const MOST_TICKS: u32 = 10_000_000;
const MOST_DIGITS: usize = 8;

#[derive(Debug)]
pub struct Task {
    pub name: Vec<u8>,
    pub before: u32,
    pub critical: u32,
    pub after: u32,
    pub period: u32,
    pub resource: Option<usize>,
}

#[derive(Debug, Default)]
pub struct Table {
    /// Decoded names, in the order of their lines.
    pub resources: Vec<Vec<u8>>,
    /// By rank.
    pub tasks: Vec<Task>,
}

#[derive(Debug, Clone, Copy, PartialEq, Eq)]
pub enum Text {
    Resources,
    Tasks,
}

#[derive(Debug, Clone, Copy, PartialEq, Eq)]
pub enum Fault {
    LongText,
    Line,
    Figure,
    Name { field: usize, byte: usize },
    Twice,
    Unknown,
    Full,
    Unmatched,
    Overfull,
}

impl Fault {
    pub fn number(self) -> u64 {
        match self {
            Fault::LongText => 1,
            Fault::Line => 2,
            Fault::Figure => 3,
            Fault::Name { .. } => 4,
            Fault::Twice => 5,
            Fault::Unknown => 6,
            Fault::Full => 7,
            Fault::Unmatched => 8,
            Fault::Overfull => 9,
        }
    }
}

#[derive(Debug)]
pub struct Refusal {
    pub fault: Fault,
    pub text: Text,
    /// From 1; 0 for a text that is too long.
    pub line: usize,
}

/// The lines of a text, without their LFs.
pub fn lines(text: &[u8]) -> impl Iterator<Item = &[u8]> {
    text.split_inclusive(|&byte| byte == b'\n').map(|line| line.strip_suffix(b"\n").unwrap_or(line))
}

/// The fields of a line that is in form: `N` of them, the first being `word`.
fn fields<'a, const N: usize>(line: &'a [u8], word: &[u8]) -> Result<[&'a [u8]; N], Fault> {
    let mut fields: [&[u8]; N] = [&[]; N];
    let mut count = 0;
    for field in line.split(|&byte| byte == b' ') {
        if count == N || field.is_empty() || !field.iter().all(|byte| (33..=126).contains(byte)) {
            return Err(Fault::Line);
        }
        fields[count] = field;
        count += 1;
    }
    if count != N || fields[0] != word {
        return Err(Fault::Line);
    }
    Ok(fields)
}

fn decode(written: &[u8], field: usize) -> Result<Vec<u8>, Fault> {
    if written == b"-" {
        return Err(Fault::Name { field, byte: 1 });
    }
    let mut name = Vec::with_capacity(written.len().min(MOST_NAME_BYTES));
    let mut rest = written;
    while !rest.is_empty() {
        let fault = Fault::Name { field, byte: written.len() - rest.len() + 1 };
        if name.len() == MOST_NAME_BYTES {
            return Err(fault);
        }
        let (byte, tail) = match rest {
            [b'&', b'a', b'm', b'p', b';', tail @ ..] => (b'&', tail),
            [b'&', b'l', b't', b';', tail @ ..] => (b'<', tail),
            [b'&', b'g', b't', b';', tail @ ..] => (b'>', tail),
            [b'&', b'a', b'p', b'o', b's', b';', tail @ ..] => (b'\'', tail),
            [b'&', b'q', b'u', b'o', b't', b';', tail @ ..] => (b'"', tail),
            [b'&', ..] | [] => return Err(fault),
            [byte, tail @ ..] => (*byte, tail),
        };
        name.push(byte);
        rest = tail;
    }
    Ok(name)
}

fn figure(written: &[u8], least: u32) -> Result<u32, Fault> {
    let needless_zero = written.len() > 1 && written[0] == b'0';
    if written.is_empty() || written.len() > MOST_DIGITS || needless_zero || !written.iter().all(u8::is_ascii_digit) {
        return Err(Fault::Figure);
    }
    let value = written.iter().fold(0, |value, digit| value * 10 + u32::from(digit - b'0'));
    if (least..=MOST_TICKS).contains(&value) { Ok(value) } else { Err(Fault::Figure) }
}

impl Table {
    fn read_resource(&mut self, line: &[u8]) -> Result<(), Fault> {
        let [_, name] = fields(line, b"resource")?;
        let name = decode(name, 2)?;
        if self.resources.len() == MOST_RESOURCES {
            return Err(Fault::Full);
        }
        if self.resources.contains(&name) {
            return Err(Fault::Twice);
        }
        self.resources.push(name);
        Ok(())
    }

    fn read_task(&mut self, line: &[u8]) -> Result<(), Fault> {
        let [_, name, before, critical, after, period, resource] = fields(line, b"task")?;
        let name = decode(name, 2)?;
        let before = figure(before, 0)?;
        let critical = figure(critical, 0)?;
        let after = figure(after, 0)?;
        let period = figure(period, 1)?;
        let wanted = if resource == b"-" { None } else { Some(decode(resource, 7)?) };
        if self.tasks.len() == MOST_TASKS {
            return Err(Fault::Full);
        }
        if self.tasks.iter().any(|task| task.name == name) {
            return Err(Fault::Twice);
        }
        let resource = match wanted {
            None => None,
            Some(wanted) => Some(self.resources.iter().position(|name| *name == wanted).ok_or(Fault::Unknown)?),
        };
        if resource.is_some() != (critical > 0) {
            return Err(Fault::Unmatched);
        }
        if !(1..=period).contains(&(before + critical + after)) {
            return Err(Fault::Overfull);
        }
        self.tasks.push(Task { name, before, critical, after, period, resource });
        Ok(())
    }
}

pub fn read(resources: &[u8], tasks: &[u8]) -> Result<Table, Refusal> {
    for (text, bytes) in [(Text::Resources, resources), (Text::Tasks, tasks)] {
        if bytes.len() > MOST_BYTES {
            return Err(Refusal { fault: Fault::LongText, text, line: 0 });
        }
    }
    let mut table = Table::default();
    for (line, number) in lines(resources).zip(1..) {
        table.read_resource(line).map_err(|fault| Refusal { fault, text: Text::Resources, line: number })?;
    }
    for (line, number) in lines(tasks).zip(1..) {
        table.read_task(line).map_err(|fault| Refusal { fault, text: Text::Tasks, line: number })?;
    }
    table.tasks.sort_by_key(|task| task.period); // stable
    Ok(table)
}

fn content(path: &str) -> Vec<u8> {
    match fs::read(path) {
        Ok(bytes) => bytes,
        Err(error) if error.kind() == io::ErrorKind::NotFound => Vec::new(),
        Err(error) => {
            eprintln!("{path}: {error}");
            process::exit(1);
        }
    }
}

#[allow(dead_code)]
fn main() {
    let arguments: Vec<String> = env::args().skip(1).collect();
    let count: u64 = match arguments.as_slice() {
        [count] => count.parse().ok(),
        _ => None,
    }
    .unwrap_or_else(|| {
        eprintln!("usage: plain_reader COUNT");
        process::exit(2);
    });
    let resources = content("resources.txt");
    let tasks = content("tasks.txt");
    let mut rows = 0;
    for _ in 0..count {
        let answer = black_box(read(black_box(&resources), black_box(&tasks)));
        rows += match &answer {
            Ok(table) => (table.resources.len() + table.tasks.len()) as u64,
            Err(refusal) => refusal.fault.number(),
        };
    }
    println!("reads {count} rows {rows}");
}
