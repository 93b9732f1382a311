//! The plain side of the benchmarks of `gather` of crate column_stats and the calls of crate cond_stats: the same steps
//! in plain Rust. Build with `rustc -O bench/stats.rs`. It writes to standard output a line for each case (its name and
//! the runs of its lists), and to standard error the least nanoseconds of each part.
use std::collections::HashMap;
use std::hash::{BuildHasherDefault, Hasher};
use std::time::Instant;

const ROWS: u32 = 1_000_000;
const ROUNDS: u32 = 3;

/// A run of equal elements.
#[derive(Clone, Copy)]
struct Piece {
    value: u128,
    count: u64,
}

type Pieces = Vec<Piece>;

/// A fast hash of one number.
#[derive(Default)]
struct NumberHasher(u64);

impl Hasher for NumberHasher {
    fn finish(&self) -> u64 {
        self.0
    }

    fn write(&mut self, bytes: &[u8]) {
        for byte in bytes {
            self.write_u64(u64::from(*byte));
        }
    }

    fn write_u64(&mut self, number: u64) {
        self.0 = (self.0 ^ number).wrapping_mul(0x9e37_79b9_7f4a_7c15).rotate_left(32);
    }
}

fn falling(keys: &[u64]) -> Vec<u64> {
    let mut sorted = keys.to_vec();
    sorted.sort_unstable();
    let mut list: Vec<u64> = sorted.chunk_by(|a, b| a == b).map(|run| run.len() as u64).collect();
    list.sort_unstable();
    list.reverse();
    list
}

fn push_run(pieces: &mut Pieces, value: u64, count: u64) {
    let value = u128::from(value);
    match pieces.last_mut() {
        Some(last) if last.value == value => last.count += count,
        _ => pieces.push(Piece { value, count }),
    }
}

fn compress(falling: &[u64], accuracy: u64) -> Pieces {
    let mut pieces = Pieces::new();
    let mut head = falling.first().copied().unwrap_or(0);
    let (mut value, mut count, mut rows, mut covered) = (head, 0u64, 0u64, 0u64);
    for &degree in falling {
        if (accuracy + 1) * degree < accuracy * head {
            head = degree;
        }
        rows += degree;
        if covered < rows {
            if value == head {
                count += 1;
            } else {
                if count > 0 {
                    push_run(&mut pieces, value, count);
                }
                (value, count) = (head, 1);
            }
            covered += head;
        }
    }
    if count > 0 {
        if count > 1 {
            push_run(&mut pieces, value, count - 1);
        }
        let last = value - (covered - rows);
        if last > 0 {
            push_run(&mut pieces, last, 1);
        }
    }
    pieces
}

fn whole_list(joined: &[u64], accuracy: u64) -> Pieces {
    compress(&falling(joined), accuracy)
}

/// The rows of one value: the part of the rows, sorted by value, that has this value.
#[derive(Clone, Copy)]
struct Group {
    first: u32,
    start: u32,
    count: u32,
}

struct FilterColumn<'a> {
    cells: &'a [u64],
    places: Vec<u32>,
    groups: Vec<Group>,
    starts: Vec<u32>,
}

/// The kind of a column's values, which cells represent.
enum Kind<'a> {
    Int,
    Text(&'a [String]),
}

fn numbers_of(kind: &Kind, cells: &[u64]) -> Vec<(u64, u32)> {
    match kind {
        Kind::Int => cells.iter().enumerate().map(|(i, cell)| (cell ^ (1 << 63), i as u32)).collect(),
        Kind::Text(texts) => {
            let mut seen: HashMap<u64, u64, BuildHasherDefault<NumberHasher>> = HashMap::default();
            let mut different = Vec::new();
            for cell in cells {
                seen.entry(*cell).or_insert_with(|| {
                    different.push(*cell);
                    0
                });
            }
            different.sort_unstable_by(|a, b| texts[*a as usize].cmp(&texts[*b as usize]));
            for (rank, cell) in different.iter().enumerate() {
                seen.insert(*cell, rank as u64);
            }
            cells.iter().enumerate().map(|(i, cell)| (seen[cell], i as u32)).collect()
        }
    }
}

impl<'a> FilterColumn<'a> {
    fn new(kind: &Kind, cells: &'a [u64]) -> FilterColumn<'a> {
        let mut rows = numbers_of(kind, cells);
        rows.sort_unstable();
        let numbers: Vec<u64> = rows.iter().map(|row| row.0).collect();
        let places: Vec<u32> = rows.iter().map(|row| row.1).collect();
        let mut groups = Vec::new();
        let mut start = 0;
        for (i, number) in numbers.iter().enumerate() {
            if i + 1 == numbers.len() || numbers[i + 1] != *number {
                groups.push(Group { first: places[start], start: start as u32, count: (i + 1 - start) as u32 });
                start = i + 1;
            }
        }
        groups.sort_unstable_by_key(|group| (u32::MAX - group.count, group.first));
        let n = places.len();
        // The cuts are made because the proved side makes them too; no list of this program needs them.
        let cuts: Vec<u64> = if n == 0 { Vec::new() } else { (0..32).map(|i| cells[places[n * i / 32] as usize]).collect() };
        std::hint::black_box(&cuts);
        let starts = (0..33)
            .map(|leaf| match leaf {
                0 => 0,
                32 => n as u32,
                _ if n == 0 => 0,
                _ => {
                    let cut = numbers[n * leaf / 32];
                    numbers.partition_point(|number| *number < cut) as u32
                }
            })
            .collect();
        FilterColumn { cells, places, groups, starts }
    }

    fn keys_at(&self, joined: &[u64], from: u32, to: u32) -> Vec<u64> {
        self.places[from as usize..to as usize].iter().map(|place| joined[*place as usize]).collect()
    }

    fn list_of_group(&self, joined: &[u64], group: Group, accuracy: u64) -> Pieces {
        whole_list(&self.keys_at(joined, group.start, group.start + group.count), accuracy)
    }

    fn list_of_value(&self, joined: &[u64], cell: u64, accuracy: u64) -> Pieces {
        let frequent = &self.groups[..self.groups.len().min(32)];
        match frequent.iter().find(|group| self.cells[group.first as usize] == cell) {
            Some(group) => self.list_of_group(joined, *group, accuracy),
            None => self.rest(joined, accuracy),
        }
    }

    fn rest(&self, joined: &[u64], accuracy: u64) -> Pieces {
        let mut maxima: Vec<u64> = Vec::new();
        let mut most = 0;
        for group in &self.groups[self.groups.len().min(32)..] {
            let degrees = falling(&self.keys_at(joined, group.start, group.start + group.count));
            for (i, degree) in degrees.iter().enumerate() {
                match maxima.get_mut(i) {
                    Some(greatest) => *greatest = (*greatest).max(*degree),
                    None => maxima.push(*degree),
                }
            }
            most = most.max(u64::from(group.count));
        }
        let mut left = most;
        let mut list = Vec::new();
        for degree in maxima {
            let taken = left.min(degree);
            if taken == 0 {
                break;
            }
            list.push(taken);
            left -= taken;
        }
        compress(&list, accuracy)
    }

    fn list_of_node(&self, joined: &[u64], size: usize, leaf: usize, accuracy: u64) -> Pieces {
        let first = leaf / size * size;
        whole_list(&self.keys_at(joined, self.starts[first], self.starts[first + size]), accuracy)
    }

    fn list_of_range(&self, joined: &[u64], low: usize, high: usize, accuracy: u64) -> Pieces {
        let size = [1, 2, 4, 8, 16].iter().copied().find(|size| low / size == high / size).unwrap_or(32);
        self.list_of_node(joined, size, low, accuracy)
    }
}

/// All lists of a pair of columns.
fn gather(kind: &Kind, filter: &[u64], joined: &[u64], accuracy: u64) -> usize {
    let column = FilterColumn::new(kind, filter);
    let mut runs = whole_list(joined, accuracy).len();
    for group in &column.groups[..column.groups.len().min(32)] {
        runs += column.list_of_group(joined, *group, accuracy).len();
    }
    runs += column.rest(joined, accuracy).len();
    for size in [1, 2, 4, 8, 16, 32] {
        for i in 0..32 / size {
            runs += column.list_of_node(joined, size, size * i, accuracy).len();
        }
    }
    runs
}

/// The list of one value, that of the middle row, and of one range, the leaves 8 to 15.
fn on_demand(kind: &Kind, filter: &[u64], joined: &[u64], accuracy: u64) -> usize {
    let column = FilterColumn::new(kind, filter);
    let value = column.list_of_value(joined, filter[filter.len() / 2], accuracy);
    let range = column.list_of_range(joined, 8, 15, accuracy);
    value.len() + range.len()
}

fn random(state: &mut u64) -> u64 {
    *state ^= *state << 13;
    *state ^= *state >> 7;
    *state ^= *state << 17;
    *state
}

/// A number below 2^k, where each k from 0 to 21 is about equally likely. Numbers are then as unequally frequent as
/// words of a text.
fn unequal(bits: u64) -> u64 {
    (bits & 0xffff_ffff) >> (32 - (bits >> 58) % 22)
}

fn measured(name: &str, call: impl Fn() -> usize) {
    let mut least = u128::MAX;
    let mut runs = 0;
    for _ in 0..ROUNDS {
        let start = Instant::now();
        runs = call();
        least = least.min(start.elapsed().as_nanos());
    }
    println!("{name} {runs}");
    eprintln!("{least}");
}

fn main() {
    let texts: Vec<String> = (0..1000u64).map(|i| format!("text {}", i * 7919 % 1000)).collect();
    for name in ["ten", "different", "texts"] {
        let mut state = 88172645463325252;
        let mut filter = Vec::new();
        let mut joined = Vec::new();
        for _ in 0..ROWS {
            let bits = random(&mut state);
            filter.push(match name {
                "ten" => bits % 10,
                "different" => bits,
                _ => bits % 1000,
            });
            joined.push(unequal(random(&mut state)));
        }
        let kind = if name == "texts" { Kind::Text(&texts) } else { Kind::Int };
        measured(&format!("{name}-gather"), || gather(&kind, &filter, &joined, 1));
        measured(&format!("{name}-demand"), || on_demand(&kind, &filter, &joined, 1));
    }
}
