//! The plain side of the benchmark of `read_table` of crate csv_tables: plain Rust that makes the same cells, with only
//! std.
//!
//! Build with `rustc -O bench/tables.rs`. It prints for each file its name, how many rows and different texts it has, a
//! checksum of the cells, and the least time of several readings in milliseconds.
use std::collections::HashMap;
use std::fmt::Write;
use std::time::Instant;

const MOST_BYTES: usize = 67_108_864;
const MOST_ROWS: u32 = 4_000_000;
const ROUNDS: u32 = 5;

/// Random bits, and how many texts there were so far.
struct State {
    bits: u64,
    texts: u64,
}

impl State {
    fn turn(&mut self) {
        self.bits ^= self.bits << 13;
        self.bits ^= self.bits >> 7;
        self.bits ^= self.bits << 17;
    }
}

/// A number of 1 to 44 bits; one of four is negative.
fn push_number(file: &mut String, state: &mut State) {
    state.turn();
    let sign = if state.bits % 4 == 0 { "-" } else { "" };
    write!(file, "{sign}{}", state.bits >> (20 + state.bits % 44)).unwrap();
}

/// Appends a new text, and then one of the earlier texts.
fn push_texts(file: &mut String, state: &mut State) {
    let new = state.texts;
    state.texts += 1;
    state.turn();
    write!(file, "text {new},text {}", state.bits % state.texts).unwrap();
}

fn file_of(header: &str, items: u32, push: fn(&mut String, &mut State)) -> String {
    let mut file = String::from(header);
    let mut state = State { bits: 88172645463325252, texts: 0 };
    while file.len() < MOST_BYTES - 256 {
        for item in 0..items {
            if item > 0 {
                file.push(',');
            }
            push(&mut file, &mut state);
        }
        file.push_str("\r\n");
    }
    file
}

/// The fields of one record. Each is a part of the file or, for a quoted field, of `unquoted`.
#[derive(Default)]
struct Record {
    unquoted: Vec<u8>,
    fields: Vec<(bool, usize, usize)>,
}

impl Record {
    fn field<'a>(&'a self, file: &'a [u8], place: usize) -> &'a [u8] {
        let (is_quoted, start, end) = self.fields[place];
        &(if is_quoted { &self.unquoted } else { file })[start..end]
    }

    /// Reads a field that begins with a quote, and gives the place after it.
    fn read_quoted(&mut self, file: &[u8], quote: usize) -> usize {
        let start = self.unquoted.len();
        let mut at = quote + 1;
        let mut inside = true;
        while at < file.len() && (inside || !matches!(file[at], b',' | b'\r' | b'\n')) {
            if inside && file[at] == b'"' {
                inside = file.get(at + 1) == Some(&b'"');
                at += 1;
                if !inside {
                    continue;
                }
            }
            self.unquoted.push(file[at]);
            at += 1;
        }
        self.fields.push((true, start, self.unquoted.len()));
        at
    }

    /// Reads the record at a place, and gives the place after it. Empty lines are passed over.
    fn read(&mut self, file: &[u8], mut at: usize) -> Option<usize> {
        while matches!(file.get(at), Some(b'\r' | b'\n')) {
            at += 1;
        }
        if at == file.len() {
            return None;
        }
        self.unquoted.clear();
        self.fields.clear();
        loop {
            if file.get(at) == Some(&b'"') {
                at = self.read_quoted(file, at);
            } else {
                let start = at;
                while at < file.len() && !matches!(file[at], b',' | b'\r' | b'\n') {
                    at += 1;
                }
                self.fields.push((false, start, at));
            }
            match file.get(at) {
                Some(b',') => at += 1,
                Some(b'\r') if file.get(at + 1) == Some(&b'\n') => return Some(at + 2),
                Some(_) => return Some(at + 1),
                None => return Some(at),
            }
        }
    }
}

/// The type of a column: numbers, or texts of at most this many characters.
#[derive(Clone, Copy)]
enum Kind {
    Int,
    Text(usize),
}

struct Table {
    names: &'static [&'static str],
    kind: Kind,
}

/// The place of the header's field with this name, without regard to case. None if no field or several fields have it.
fn place_of(name: &str, header: &Record, file: &[u8]) -> Option<usize> {
    let mut places = (0..header.fields.len()).filter(|&at| header.field(file, at).eq_ignore_ascii_case(name.as_bytes()));
    let place = places.next()?;
    if places.next().is_none() { Some(place) } else { None }
}

/// The number of a text: texts are numbered in the order in which they first occur.
fn number_of(pool: &mut HashMap<String, u32>, text: &str) -> u32 {
    if let Some(&number) = pool.get(text) {
        return number;
    }
    let number = pool.len() as u32;
    pool.insert(text.to_owned(), number);
    number
}

/// The cell of a field. The file was checked to be UTF-8, so each field is a text.
fn cell_of(pool: &mut HashMap<String, u32>, kind: Kind, field: &[u8]) -> Option<u64> {
    let text = unsafe { std::str::from_utf8_unchecked(field) };
    match kind {
        Kind::Int => text.parse::<i64>().ok().map(|number| number as u64),
        Kind::Text(most) if text.chars().count() > most => None,
        Kind::Text(_) => Some(number_of(pool, text) as u64),
    }
}

/// The columns of a table from its file, and how many rows they have.
fn read_table(table: &Table, file: &[u8], pool: &mut HashMap<String, u32>) -> Option<(Vec<Vec<u64>>, u32)> {
    std::str::from_utf8(file).ok()?;
    let mut record = Record::default();
    let mut at = record.read(file, 0)?;
    let width = record.fields.len();
    let places = table.names.iter().map(|name| place_of(name, &record, file)).collect::<Option<Vec<_>>>()?;
    let mut columns = vec![Vec::new(); places.len()];
    let mut rows = 0;
    while let Some(next) = record.read(file, at) {
        if rows == MOST_ROWS || record.fields.len() != width {
            return None;
        }
        for (column, &place) in columns.iter_mut().zip(&places) {
            column.push(cell_of(pool, table.kind, record.field(file, place))?);
        }
        rows += 1;
        at = next;
    }
    Some((columns, rows))
}

fn measure(name: &str, table: &Table, file: &str) {
    let mut found = (0, 0, 0u64);
    let mut least = u128::MAX;
    for _ in 0..ROUNDS {
        let mut pool = HashMap::new();
        let start = Instant::now();
        let (columns, rows) = read_table(table, file.as_bytes(), &mut pool).unwrap();
        least = least.min(start.elapsed().as_nanos());
        let cells = columns.iter().flatten();
        found = (rows, pool.len(), cells.fold(0, |sum, &cell| sum.wrapping_mul(31).wrapping_add(cell)));
    }
    let (rows, texts, sum) = found;
    println!("{name} {rows} {texts} {sum} {}", least / 1_000_000);
}

fn main() {
    let numbers = Table { names: &["A", "B", "C", "D", "E", "F", "G", "H"], kind: Kind::Int };
    measure("numbers", &numbers, &file_of("A,B,C,D,E,F,G,H\r\n", 8, push_number));
    let texts = Table { names: &["A", "B", "C", "D"], kind: Kind::Text(40) };
    measure("texts", &texts, &file_of("A,B,C,D\r\n", 2, push_texts));
}
