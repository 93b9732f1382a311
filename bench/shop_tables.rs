//! How plain Rust reads the shop's tables and compresses degree lists: a part of shop.rs and stats_commands.rs. Files are read by records,
//! as RFC 4180 has them; UTF-8, numbers and keys are checked.
use std::{fs, process};

fn refused(cause: &str) -> ! {
    eprintln!("error {cause}");
    process::exit(1)
}

/// The records of a text: fields are separated by commas and may be quoted, and a record ends at a line end or the text's end.
struct Records<'a> {
    bytes: &'a [u8],
    at: usize,
}

impl Records<'_> {
    /// Takes the next record into one buffer with the ends of its fields, or returns that there is none. Empty lines
    /// are skipped.
    fn next(&mut self, text: &mut Vec<u8>, ends: &mut Vec<usize>) -> bool {
        text.clear();
        ends.clear();
        while self.at < self.bytes.len() && matches!(self.bytes[self.at], b'\r' | b'\n') {
            self.at += 1;
        }
        if self.at == self.bytes.len() {
            return false;
        }
        loop {
            let quoted = self.bytes.get(self.at) == Some(&b'"');
            if quoted {
                self.quoted(text);
            }
            let start = self.at;
            while self.at < self.bytes.len() && !matches!(self.bytes[self.at], b',' | b'\r' | b'\n') {
                self.at += 1;
            }
            text.extend_from_slice(&self.bytes[start..self.at]);
            ends.push(text.len());
            if self.bytes.get(self.at) != Some(&b',') {
                return true;
            }
            self.at += 1;
        }
    }

    fn quoted(&mut self, text: &mut Vec<u8>) {
        self.at += 1;
        while let Some(byte) = self.bytes.get(self.at) {
            self.at += 1;
            if *byte == b'"' {
                if self.bytes.get(self.at) != Some(&b'"') {
                    return;
                }
                self.at += 1;
            }
            text.push(*byte);
        }
    }
}

fn number(field: &[u8]) -> Option<i64> {
    std::str::from_utf8(field).ok()?.parse().ok()
}

/// The columns of a table file, by the names of its header.
pub fn table(path: &str, names: &[&str]) -> Vec<Vec<i64>> {
    let bytes = fs::read(path).unwrap_or_else(|_| refused("table-missing"));
    if std::str::from_utf8(&bytes).is_err() {
        refused("table-utf8");
    }
    let mut records = Records { bytes: &bytes, at: 0 };
    let (mut text, mut ends) = (Vec::new(), Vec::new());
    if !records.next(&mut text, &mut ends) {
        refused("table-header");
    }
    let width = ends.len();
    let header: Vec<Vec<u8>> = (0..width).map(|i| text[if i == 0 { 0 } else { ends[i - 1] }..ends[i]].to_ascii_uppercase()).collect();
    let places: Vec<usize> = names
        .iter()
        .map(|name| header.iter().position(|field| field == name.as_bytes()).unwrap_or_else(|| refused("table-header")))
        .collect();
    let mut columns = vec![Vec::new(); names.len()];
    while records.next(&mut text, &mut ends) {
        if ends.len() != width {
            refused("table-width");
        }
        for (column, place) in columns.iter_mut().zip(&places) {
            let start = if *place == 0 { 0 } else { ends[place - 1] };
            column.push(number(&text[start..ends[*place]]).unwrap_or_else(|| refused("table-field")));
        }
    }
    columns
}

/// Refuses a key column in which a value is repeated.
pub fn check_key(column: &[i64]) {
    if column.windows(2).all(|pair| pair[0] < pair[1]) {
        return;
    }
    let mut sorted = column.to_vec();
    sorted.sort_unstable();
    if sorted.windows(2).any(|pair| pair[0] == pair[1]) {
        refused("table-key");
    }
}

/// How often each number occurs. Numbers in a short range are counted in an array over the range, other numbers by a sort.
fn counts(numbers: &[i64]) -> Vec<u64> {
    let (Some(least), Some(greatest)) = (numbers.iter().min(), numbers.iter().max()) else {
        return Vec::new();
    };
    let beyond = greatest.abs_diff(*least) as usize;
    if beyond < 2 * numbers.len() {
        let mut tallies = vec![0u32; beyond + 1];
        for number in numbers {
            tallies[number.abs_diff(*least) as usize] += 1;
        }
        return tallies.iter().filter(|tally| **tally > 0).map(|tally| u64::from(*tally)).collect();
    }
    let mut sorted = numbers.to_vec();
    sorted.sort_unstable();
    sorted.chunk_by(|a, b| a == b).map(|run| run.len() as u64).collect()
}

pub fn falling(keys: &[i64]) -> Vec<u64> {
    let mut list = counts(keys);
    let greatest = list.iter().max().copied().unwrap_or(0) as usize;
    if greatest < 2 * list.len() {
        let mut tallies = vec![0u32; greatest + 1];
        for count in &list {
            tallies[*count as usize] += 1;
        }
        list.clear();
        for (count, tally) in tallies.iter().enumerate().rev() {
            list.extend(std::iter::repeat_n(count as u64, *tally as usize));
        }
    } else {
        list.sort_unstable();
        list.reverse();
    }
    list
}

/// Runs of equal elements.
pub type Pieces = Vec<(u128, u64)>;

fn push_run(pieces: &mut Pieces, value: u64, count: u64) {
    match pieces.last_mut() {
        Some(last) if last.0 == u128::from(value) => last.1 += count,
        _ => pieces.push((u128::from(value), count)),
    }
}

/// The degree list compressed at accuracy 1. It has few runs, the same sum, and running sums that aren't lower.
pub fn compress(falling: &[u64]) -> Pieces {
    let mut pieces = Pieces::new();
    let mut head = falling.first().copied().unwrap_or(0);
    let (mut value, mut count, mut rows, mut covered) = (head, 0u64, 0u64, 0u64);
    for &degree in falling {
        if 2 * degree < head {
            head = degree;
        }
        rows += degree;
        if covered < rows {
            if value != head {
                if count > 0 {
                    push_run(&mut pieces, value, count);
                }
                (value, count) = (head, 0);
            }
            count += 1;
            covered += head;
        }
    }
    if count > 1 {
        push_run(&mut pieces, value, count - 1);
    }
    if count > 0 && value > covered - rows {
        push_run(&mut pieces, value - (covered - rows), 1);
    }
    pieces
}
