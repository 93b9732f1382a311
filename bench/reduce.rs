// The plain side of the benchmark of reduced scans: the same tables, the same layout and the same steps, in Rust without contracts.
//
// bench/reduce builds and runs it beside the proved program.
//
// It prints for the chain and for three cycles how many rows remain, the sum of their row numbers, and the nanoseconds
// of scans and reduction together (the least of three rounds).
use std::hint::black_box;
use std::time::Instant;

const ODD: u64 = 0x9E37_79B9_7F4A_7C15;
const NONE: u32 = u32::MAX;
const ROUNDS: usize = 3;

struct Side {
    entry: usize,
    column: usize,
}

struct Query {
    // For each entry its columns.
    tables: Vec<Vec<Vec<u64>>>,
    equalities: Vec<(Side, Side)>,
}

// Values in the order in which they first occur, found by a hash table with open addressing.
struct Values {
    places: Vec<u32>,
    pairs: Vec<(u32, u64)>,
}

impl Values {
    fn new() -> Values {
        Values {
            places: vec![NONE; 8],
            pairs: Vec::new(),
        }
    }

    fn place(places: &[u32], pairs: &[(u32, u64)], pair: (u32, u64)) -> usize {
        let word = (u64::from(pair.0) ^ pair.1).wrapping_mul(ODD);
        let mut at = (word ^ (word >> 32)) as usize & (places.len() - 1);
        while places[at] != NONE && pairs[places[at] as usize] != pair {
            at = (at + 1) & (places.len() - 1);
        }
        at
    }

    fn number(&mut self, pair: (u32, u64)) -> u32 {
        let at = Values::place(&self.places, &self.pairs, pair);
        if self.places[at] != NONE {
            return self.places[at];
        }
        let number = self.pairs.len() as u32;
        self.places[at] = number;
        self.pairs.push(pair);
        if self.pairs.len() * 4 > self.places.len() * 3 {
            self.grow();
        }
        number
    }

    fn grow(&mut self) {
        let mut places = vec![NONE; 2 * self.places.len()];
        for (number, pair) in self.pairs.iter().enumerate() {
            let at = Values::place(&places, &self.pairs, *pair);
            places[at] = number as u32;
        }
        self.places = places;
    }
}

// Values in a short range: a flag for each number of the range, which says whether the number is among the values.
struct Marks {
    least: u64,
    there: Vec<bool>,
}

impl Marks {
    fn of(cells: &[u64], list: &[u32], rows: usize) -> Option<Marks> {
        if list.is_empty() {
            return Some(Marks {
                least: 0,
                there: Vec::new(),
            });
        }
        let mut least = u64::MAX;
        let mut greatest = 0;
        for row in list {
            let cell = cells[*row as usize];
            least = least.min(cell);
            greatest = greatest.max(cell);
        }
        let beyond = greatest - least;
        if beyond >= 64 + 8 * rows as u64 {
            return None;
        }
        let mut there = vec![false; beyond as usize + 1];
        for row in list {
            there[(cells[*row as usize] - least) as usize] = true;
        }
        Some(Marks { least, there })
    }

    fn has(&self, value: u64) -> bool {
        if value < self.least {
            return false;
        }
        let place = (value - self.least) as usize;
        place < self.there.len() && self.there[place]
    }
}

fn sift_side(query: &Query, lists: &mut [Vec<u32>], side: &Side, other: &Side) {
    let (list, partners) = (&lists[side.entry], &lists[other.entry]);
    let rows = list.len() + partners.len();
    let Some(marks) = Marks::of(&query.tables[other.entry][other.column], partners, rows) else {
        return;
    };
    let cells = &query.tables[side.entry][side.column];
    let mut kept = Vec::with_capacity(list.len());
    for row in list {
        if marks.has(cells[*row as usize]) {
            kept.push(*row);
        }
    }
    lists[side.entry] = kept;
}

fn sift_both(query: &Query, lists: &mut [Vec<u32>], left: &Side, right: &Side) {
    sift_side(query, lists, left, right);
    sift_side(query, lists, right, left);
}

fn sifted(query: &Query, scans: &[Vec<u32>]) -> Vec<Vec<u32>> {
    let mut lists = scans.to_vec();
    for (left, right) in &query.equalities {
        sift_both(query, &mut lists, left, right);
    }
    for (left, right) in query.equalities.iter().rev() {
        sift_both(query, &mut lists, left, right);
    }
    lists
}

#[derive(Clone, Copy)]
struct RowAtEquality {
    item: u32,
    gives: u32,
    needs: u32,
}

// Places are counted from 1; 0 means that there is no place.
struct Chains {
    lasts: Vec<u32>,
    befores: Vec<u32>,
}

fn chained(keys: usize, uses: &[RowAtEquality], key: fn(&RowAtEquality) -> u32) -> Chains {
    let mut lasts = vec![0; keys];
    let mut befores = Vec::with_capacity(uses.len());
    for one in uses {
        let last: &mut u32 = &mut lasts[key(one) as usize];
        befores.push(*last);
        *last = befores.len() as u32;
    }
    Chains { lasts, befores }
}

fn add_side(query: &Query, side: &Side, list: &[u32], first: u32, equality: u32, left: bool, values: &mut Values, uses: &mut Vec<RowAtEquality>) {
    let cells = &query.tables[side.entry][side.column];
    for (at, row) in list.iter().enumerate() {
        let class = values.number((equality, cells[*row as usize]));
        let (gives, needs) = if left { (2 * class, 2 * class + 1) } else { (2 * class + 1, 2 * class) };
        uses.push(RowAtEquality {
            item: first + at as u32,
            gives,
            needs,
        });
    }
}

fn marks(items: usize, slots: usize, uses: &[RowAtEquality]) -> Vec<bool> {
    let of_item = chained(items, uses, |u| u.item);
    let needing = chained(slots, uses, |u| u.needs);
    let mut counts = vec![0u32; slots];
    for one in uses {
        counts[one.gives as usize] += 1;
    }
    let mut work: Vec<u32> = Vec::with_capacity(slots);
    for (slot, count) in counts.iter().enumerate() {
        if *count == 0 {
            work.push(slot as u32);
        }
    }
    let mut marks = vec![true; items];
    let mut at = 0;
    while at < work.len() {
        let mut need = needing.lasts[work[at] as usize];
        while need > 0 {
            let item = uses[need as usize - 1].item;
            if marks[item as usize] {
                marks[item as usize] = false;
                let mut give = of_item.lasts[item as usize];
                while give > 0 {
                    let slot = uses[give as usize - 1].gives;
                    counts[slot as usize] -= 1;
                    if counts[slot as usize] == 0 {
                        work.push(slot);
                    }
                    give = of_item.befores[give as usize - 1];
                }
            }
            need = needing.befores[need as usize - 1];
        }
        at += 1;
    }
    marks
}

fn reduced(query: &Query) -> Vec<Vec<u32>> {
    let scans: Vec<Vec<u32>> = query.tables.iter().map(|columns| (0..columns[0].len() as u32).collect()).collect();
    let scans = sifted(query, &scans);
    let mut firsts = vec![0u32];
    for scan in &scans {
        firsts.push(firsts[firsts.len() - 1] + scan.len() as u32);
    }
    let mut values = Values::new();
    let total = query.equalities.iter().map(|(left, right)| scans[left.entry].len() + scans[right.entry].len()).sum();
    let mut uses = Vec::with_capacity(total);
    for (number, (left, right)) in query.equalities.iter().enumerate() {
        let number = number as u32;
        add_side(query, left, &scans[left.entry], firsts[left.entry], number, true, &mut values, &mut uses);
        add_side(query, right, &scans[right.entry], firsts[right.entry], number, false, &mut values, &mut uses);
    }
    let marks = marks(firsts[scans.len()] as usize, 2 * values.pairs.len(), &uses);
    let mut lists = Vec::new();
    for (scan, first) in scans.iter().zip(&firsts) {
        let mut list = Vec::with_capacity(scan.len());
        for (at, row) in scan.iter().enumerate() {
            if marks[*first as usize + at] {
                list.push(*row);
            }
        }
        lists.push(list);
    }
    lists
}

fn column(rows: u64, times: u64) -> Vec<u64> {
    (0..rows).map(|row| row * times).collect()
}

fn later(rows: u64) -> Vec<u64> {
    (0..rows).map(|row| (row + 1).min(rows - 1)).collect()
}

fn side(entry: usize, column: usize) -> Side {
    Side { entry, column }
}

fn chain(rows: u64) -> Query {
    Query {
        tables: vec![vec![column(rows, 1)], vec![column(rows, 1), column(rows, 1)], vec![column(rows, 100)]],
        equalities: vec![(side(0, 0), side(1, 0)), (side(1, 1), side(2, 0))],
    }
}

fn cycle(rows: u64) -> Query {
    Query {
        tables: vec![vec![column(rows, 1), column(rows, 1)], vec![column(rows, 1), later(rows)]],
        equalities: vec![(side(0, 1), side(1, 0)), (side(1, 1), side(0, 0))],
    }
}

fn show(name: &str, query: &Query) {
    let mut least = u128::MAX;
    let mut lists = Vec::new();
    for _ in 0..ROUNDS {
        let start = Instant::now();
        lists = black_box(reduced(black_box(query)));
        least = least.min(start.elapsed().as_nanos());
    }
    let rows: usize = lists.iter().map(|list| list.len()).sum();
    let sum: u64 = lists.iter().flatten().map(|row| u64::from(*row)).sum();
    println!("{name} {rows} {sum}");
    eprintln!("{least}");
}

fn main() {
    show("chain", &chain(1_000_000));
    show("quarter", &cycle(125_000));
    show("half", &cycle(250_000));
    show("whole", &cycle(500_000));
}
