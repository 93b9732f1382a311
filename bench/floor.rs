//! The plain side of bench/one-table: plain Rust that does the same work, with only std.
use std::io::{BufWriter, Write};
use std::{env, fs, io, process};

fn words(text: &str) -> Vec<String> {
    text.replace('(', " ( ")
        .replace(')', " ) ")
        .replace(';', " ; ")
        .split_whitespace()
        .map(str::to_ascii_uppercase)
        .collect()
}

/// The bytes of one record's fields, one after another, and where each field ends. The buffers are reused for each
/// record.
#[derive(Default)]
struct Record {
    bytes: Vec<u8>,
    ends: Vec<usize>,
}

impl Record {
    fn field(&self, place: usize) -> &[u8] {
        let start = if place == 0 { 0 } else { self.ends[place - 1] };
        &self.bytes[start..self.ends[place]]
    }

    /// Reads the next record. Returns the text after it.
    fn read<'a>(&mut self, rest: &'a [u8]) -> Option<&'a [u8]> {
        if rest.is_empty() {
            return None;
        }
        self.bytes.clear();
        self.ends.clear();
        let (mut at, mut start, mut quoted) = (0, true, false);
        while at < rest.len() {
            let byte = rest[at];
            at += 1;
            match byte {
                b'"' if start => quoted = true,
                b'"' if quoted && rest.get(at) == Some(&b'"') => {
                    self.bytes.push(b'"');
                    at += 1;
                }
                b'"' if quoted => quoted = false,
                b',' if !quoted => {
                    self.ends.push(self.bytes.len());
                    start = true;
                    continue;
                }
                b'\r' | b'\n' if !quoted => {
                    if byte == b'\r' && rest.get(at) == Some(&b'\n') {
                        at += 1;
                    }
                    break;
                }
                _ => self.bytes.push(byte),
            }
            start = false;
        }
        self.ends.push(self.bytes.len());
        Some(&rest[at..])
    }
}

fn cells(name: &str, bytes: &[u8]) -> Option<Vec<i64>> {
    std::str::from_utf8(bytes).ok()?;
    let mut record = Record::default();
    let mut rest = record.read(bytes)?;
    let width = record.ends.len();
    let place = (0..width).find(|&i| record.field(i).eq_ignore_ascii_case(name.as_bytes()))?;
    let mut cells = Vec::new();
    while let Some(after) = record.read(rest) {
        if record.ends.len() != width {
            return None;
        }
        cells.push(std::str::from_utf8(record.field(place)).ok()?.parse().ok()?);
        rest = after;
    }
    Some(cells)
}

fn main() -> io::Result<()> {
    let args: Vec<String> = env::args().collect();
    let schema = words(&fs::read_to_string(&args[2])?);
    let query = words(&fs::read_to_string(&args[3])?);
    let (table, column) = (&schema[2], &schema[4]);
    if query[1] != *column || query[3] != *table {
        process::exit(13);
    }
    let bytes = fs::read(format!("{}.csv", table.to_ascii_lowercase()))?;
    let Some(cells) = cells(column, &bytes) else {
        process::exit(13);
    };
    drop(bytes);
    eprint!("scan {table} {}\nlevel 1 {table} {}\n", cells.len(), cells.len());
    let mut out = BufWriter::new(io::stdout().lock());
    write!(out, "{column}\r\n")?;
    for cell in cells {
        write!(out, "{cell}\r\n")?;
    }
    out.flush()
}
