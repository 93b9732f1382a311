//! The plain side of bench/stats-commands for `stats` and `plan --stats`. It makes all lists of the pairs of columns
//! that the shop's query needs, and writes their file. With the name of such a file as argument, it reads the file and
//! prints how many runs its lists have. Build with `rustc -O bench/stats_commands.rs`.
mod shop_tables;
mod stats_text;

use shop_tables::{Pieces, check_key, compress, falling, table};
use stats_text::{TableStats, read_stats};
use std::fmt::Write;
use std::io::Write as _;
use std::{env, fs, io};

/// The tables in the order of the schema: name, columns, the place of the first column that mustn't repeat, and the
/// pairs that the query needs (a filter column and a joined column).
const TABLES: [(&str, &[&str], Option<usize>, &[(usize, usize)]); 4] = [
    ("product", &["ID", "KIND"], Some(0), &[(1, 0)]),
    ("item", &["ORDER_ID", "PRODUCT"], None, &[(0, 0), (1, 1)]),
    ("orders", &["ID", "CUSTOMER", "DAYNO"], Some(0), &[(2, 0), (2, 1)]),
    ("customer", &["ID", "REGION"], Some(0), &[(1, 0)]),
];
const NODES: [usize; 6] = [1, 2, 4, 8, 16, 32];

/// The rows of one value: the part of the rows, sorted by value, that has this value.
struct Group {
    first: u32,
    start: u32,
    count: u32,
}

/// A filter column in the order of its values.
struct InOrder {
    places: Vec<u32>,
    frequent: Vec<Group>,
    others: Vec<Group>,
    cuts: Vec<i64>,
    starts: Vec<u32>,
}

/// The row numbers sorted by value: by counting if the values are in a short range, else by a sort.
fn places_of(column: &[i64]) -> Vec<u32> {
    let (Some(least), Some(greatest)) = (column.iter().min(), column.iter().max()) else {
        return Vec::new();
    };
    let beyond = greatest.abs_diff(*least) as usize;
    let mut places: Vec<u32> = (0..column.len() as u32).collect();
    if beyond >= 2 * column.len() {
        places.sort_unstable_by_key(|place| (column[*place as usize], *place));
        return places;
    }
    let mut next = vec![0u32; beyond + 2];
    for value in column {
        next[value.abs_diff(*least) as usize + 1] += 1;
    }
    for i in 1..next.len() {
        next[i] += next[i - 1];
    }
    for (place, value) in column.iter().enumerate() {
        let at = &mut next[value.abs_diff(*least) as usize];
        places[*at as usize] = place as u32;
        *at += 1;
    }
    places
}

fn in_order(column: &[i64]) -> InOrder {
    let places = places_of(column);
    let value = |place: &u32| column[*place as usize];
    let mut frequent = Vec::new();
    let mut start = 0;
    for group in places.chunk_by(|a, b| value(a) == value(b)) {
        frequent.push(Group { first: group[0], start, count: group.len() as u32 });
        start += group.len() as u32;
    }
    frequent.sort_unstable_by_key(|group| (u32::MAX - group.count, group.first));
    let others = frequent.split_off(frequent.len().min(32));
    let count = places.len();
    let cuts: Vec<i64> = if count == 0 { Vec::new() } else { (0..32).map(|leaf| value(&places[count * leaf / 32])).collect() };
    let starts = (0..33)
        .map(|leaf| match leaf {
            0 => 0,
            32 => count as u32,
            _ => cuts.get(leaf).map_or(0, |cut| places.partition_point(|place| value(place) < *cut) as u32),
        })
        .collect();
    InOrder { places, frequent, others, cuts, starts }
}

impl InOrder {
    fn keys(&self, joined: &[i64], start: u32, end: u32) -> Vec<i64> {
        self.places[start as usize..end as usize].iter().map(|place| joined[*place as usize]).collect()
    }

    fn list(&self, joined: &[i64], start: u32, end: u32) -> Pieces {
        compress(&falling(&self.keys(joined, start, end)))
    }

    /// One list that dominates the keys of any value that isn't frequent.
    fn rest(&self, joined: &[i64]) -> Pieces {
        let mut maxima: Vec<u64> = Vec::new();
        for group in &self.others {
            for (i, degree) in falling(&self.keys(joined, group.start, group.start + group.count)).into_iter().enumerate() {
                match maxima.get_mut(i) {
                    Some(greatest) => *greatest = degree.max(*greatest),
                    None => maxima.push(degree),
                }
            }
        }
        let mut left = self.others.first().map_or(0, |group| u64::from(group.count));
        let mut cut = Vec::new();
        for degree in maxima {
            cut.push(degree.min(left));
            left -= degree.min(left);
            if left == 0 {
                break;
            }
        }
        compress(&cut)
    }
}

fn hex(text: &mut String, name: &str) {
    text.push('x');
    for byte in name.bytes() {
        write!(text, "{byte:02x}").unwrap();
    }
}

fn push_list(text: &mut String, list: &Pieces) {
    text.push(' ');
    if list.is_empty() {
        text.push('-');
    }
    for (i, (value, count)) in list.iter().enumerate() {
        if i > 0 {
            text.push(' ');
        }
        write!(text, "{value}*{count}").unwrap();
    }
    text.push('\n');
}

fn push_pair(text: &mut String, filter: &[i64], sorted: &InOrder, joined: &[i64]) {
    text.push_str("whole");
    push_list(text, &compress(&falling(joined)));
    for group in &sorted.frequent {
        write!(text, "frequent {}", filter[group.first as usize]).unwrap();
        push_list(text, &sorted.list(joined, group.start, group.start + group.count));
    }
    text.push_str("rest");
    push_list(text, &sorted.rest(joined));
    for cut in &sorted.cuts {
        writeln!(text, "cut {cut}").unwrap();
    }
    if sorted.cuts.is_empty() {
        return;
    }
    for size in NODES {
        for node in 0..32 / size {
            text.push_str("node");
            push_list(text, &sorted.list(joined, sorted.starts[size * node], sorted.starts[size * (node + 1)]));
        }
    }
}

fn file_text() -> String {
    let mut text = String::from("safebound-stats 1 1\n");
    for (name, columns, key, pairs) in TABLES {
        let read = table(&format!("{name}.csv"), columns);
        if let Some(key) = key {
            check_key(&read[key]);
        }
        text.push_str("table ");
        hex(&mut text, &name.to_ascii_uppercase());
        writeln!(text, " {}", read[0].len()).unwrap();
        let mut sorted: Option<(usize, InOrder)> = None;
        for (filter, joined) in pairs {
            text.push_str("pair ");
            hex(&mut text, columns[*filter]);
            text.push(' ');
            hex(&mut text, columns[*joined]);
            text.push('\n');
            if sorted.as_ref().is_none_or(|last| last.0 != *filter) {
                sorted = Some((*filter, in_order(&read[*filter])));
            }
            if let Some((_, column)) = &sorted {
                push_pair(&mut text, &read[*filter], column, &read[*joined]);
            }
        }
    }
    text + "end\n"
}

fn runs_of(section: &TableStats) -> usize {
    let of_pair = |pair: &stats_text::Pair| {
        let frequent: usize = pair.frequent.iter().map(|found| found.1.len()).sum();
        let nodes: usize = pair.nodes.iter().map(Vec::len).sum();
        pair.whole.len() + frequent + pair.rest.len() + nodes
    };
    section.pairs.iter().map(of_pair).sum()
}

fn main() -> io::Result<()> {
    let Some(path) = env::args().nth(1) else {
        return io::stdout().write_all(file_text().as_bytes());
    };
    let word = |name: &str| {
        let mut word = String::new();
        hex(&mut word, name);
        word.into_bytes()
    };
    let tables: Vec<Vec<u8>> = TABLES.iter().map(|table| word(&table.0.to_ascii_uppercase())).collect();
    let columns: Vec<Vec<Vec<u8>>> = TABLES.iter().map(|table| table.1.iter().map(|name| word(name)).collect()).collect();
    match read_stats(&fs::read(path)?, &tables, &columns) {
        Ok(file) => println!("{} {}", file.accuracy, file.tables.iter().map(runs_of).sum::<usize>()),
        Err(line) => println!("error stats syntax {line}"),
    }
    Ok(())
}
