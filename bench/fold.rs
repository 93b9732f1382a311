//! The plain program beside which `set_bound` of crate bound_fold is measured; with any argument, the one for
//! `bounds_of_sets` of crate set_bounds. It takes the same steps over plain vectors.
//!
//! Build with `rustc -O bench/fold.rs`. It prints for each measurement the shape, the numbers of entries, of pieces in
//! each list and of trees, the bound, the nanoseconds of one bound (the least of several), and how many pieces the
//! lists of a tree's nodes have.
use std::collections::HashMap;
use std::mem::take;
use std::time::Instant;

type Place = (u8, u32);
type Edge = (Place, Place);
type Pieces = Vec<(u128, u64)>;

const ROUNDS: u32 = 20;
const PLANS: u32 = 3;

struct Query {
    equalities: Vec<Edge>,
    rows: HashMap<u8, u64>,
    lists: HashMap<Place, Pieces>,
}

#[derive(Clone, Copy)]
enum Kind {
    Entry(u8),
    Class,
}

struct Node {
    kind: Kind,
    via: u32,
    children: Vec<usize>,
}

// ---- lists ----

fn put(list: &mut Pieces, value: u128, count: u64) {
    if value == 0 || count == 0 {
        return;
    }
    match list.last_mut() {
        Some(last) if last.0 == value => last.1 += count,
        _ => list.push((value, count)),
    }
}

// The value at a place in a list, and how many elements from there on are equal to it. `passed` gives the place `count`
// elements further on, within one run.
fn ahead(list: &[(u128, u64)], (at, used): (usize, u64)) -> (u128, u64) {
    list.get(at).map_or((0, u64::MAX), |&(value, count)| (value, count - used))
}

fn passed(list: &[(u128, u64)], (at, used): (usize, u64), count: u64) -> (usize, u64) {
    match list.get(at) {
        None => (at, used),
        Some(piece) if used + count < piece.1 => (at, used + count),
        Some(_) => (at + 1, 0),
    }
}

fn walk(a: &[(u128, u64)], b: &[(u128, u64)], mut each: impl FnMut(u128, u128, u64)) {
    let (mut left, mut right) = ((0, 0), (0, 0));
    while left.0 < a.len() || right.0 < b.len() {
        let (x, m) = ahead(a, left);
        let (y, n) = ahead(b, right);
        let count = m.min(n);
        each(x, y, count);
        left = passed(a, left, count);
        right = passed(b, right, count);
    }
}

fn product(a: &[(u128, u64)], b: &[(u128, u64)]) -> Pieces {
    let mut list = Vec::with_capacity(a.len() + b.len());
    walk(a, b, |x, y, count| put(&mut list, x.saturating_mul(y), count));
    list
}

// The class weight of each row, by its rank in the column.
fn spread((column, class): &(Pieces, Pieces)) -> Pieces {
    let mut list = Vec::with_capacity(class.len());
    walk(column, class, |x, y, count| put(&mut list, y, (x * u128::from(count)) as u64));
    list
}

fn row_weights(children: &[(Pieces, Pieces)], rows: u64) -> Pieces {
    match children.split_first() {
        None => vec![(1, rows)],
        Some((first, others)) => others.iter().fold(spread(first), |weights, child| product(&weights, &spread(child))),
    }
}

fn total(list: &[(u128, u64)]) -> u128 {
    list.iter().fold(0, |sum: u128, &(value, count)| sum.saturating_add(value.saturating_mul(u128::from(count))))
}

// The sum of the next `rows` weights, which may be in several pieces, and the place after these weights.
fn block(weights: &[(u128, u64)], mut place: (usize, u64), rows: u128) -> (u128, (usize, u64)) {
    let (mut sum, mut left) = (0u128, rows);
    while left > 0 && place.0 < weights.len() {
        let (value, count) = ahead(weights, place);
        let count = left.min(u128::from(count)) as u64;
        sum = sum.saturating_add(value.saturating_mul(u128::from(count)));
        place = passed(weights, place, count);
        left -= u128::from(count);
    }
    (sum, place)
}

fn compose(parent: &[(u128, u64)], children: &[(Pieces, Pieces)]) -> Pieces {
    let weights = row_weights(children, total(parent) as u64);
    let mut list = Vec::with_capacity(parent.len() + 2 * weights.len());
    let (mut at, mut row) = ((0, 0), (0, 0));
    while at.0 < parent.len() && row.0 < weights.len() {
        let (rows, blocks) = ahead(parent, at);
        let (value, count) = ahead(&weights, row);
        let whole = u128::from(count) / rows;
        if whole == 0 {
            let (sum, next) = block(&weights, row, rows);
            put(&mut list, sum, 1);
            at = passed(parent, at, 1);
            row = next;
        } else {
            let count = (whole as u64).min(blocks);
            put(&mut list, rows.saturating_mul(value), count);
            at = passed(parent, at, count);
            row = passed(&weights, row, rows as u64 * count);
        }
    }
    list
}

// ---- trees ----

// The equalities that a turn keeps.
fn kept(equalities: &[Edge], turn: usize) -> Vec<Edge> {
    let (before, from) = equalities.split_at(turn);
    let mut names: Vec<u8> = (0..16).collect();
    let mut kept = Vec::new();
    for &(left, right) in from.iter().chain(before) {
        let (new, old) = (names[usize::from(left.0)], names[usize::from(right.0)]);
        if new != old {
            kept.push((left, right));
            names.iter_mut().filter(|name| **name == old).for_each(|name| *name = new);
        }
    }
    kept
}

fn class_in(columns: &[(Place, Place)], place: Place) -> Place {
    columns.iter().find(|column| column.0 == place).map_or(place, |column| column.1)
}

// The columns of the equalities, in the equalities' order, each with the name of its class.
fn classes(edges: &[Edge]) -> Vec<(Place, Place)> {
    let mut columns: Vec<Place> = edges.iter().flat_map(|&(left, right)| [left, right]).collect();
    columns.sort();
    columns.dedup();
    let mut columns: Vec<(Place, Place)> = columns.into_iter().map(|column| (column, column)).collect();
    for &(left, right) in edges {
        let (new, old) = (class_in(&columns, left), class_in(&columns, right));
        columns.iter_mut().filter(|column| column.1 == old).for_each(|column| column.1 = new);
    }
    columns
}

fn add_below(nodes: &mut Vec<Node>, columns: &[(Place, Place)], at: usize, entry: u8, above: Option<u32>) {
    for &((own, column), class) in columns {
        if own != entry || Some(column) == above {
            continue;
        }
        let here = nodes.len();
        nodes[at].children.push(here);
        nodes.push(Node { kind: Kind::Class, via: column, children: Vec::new() });
        for &(member, other) in columns {
            if other == class && member != (own, column) {
                let child = nodes.len();
                nodes[here].children.push(child);
                nodes.push(Node { kind: Kind::Entry(member.0), via: member.1, children: Vec::new() });
                add_below(nodes, columns, child, member.0, Some(member.1));
            }
        }
    }
}

// ---- bounds ----

// The lists of an entry's children. The entry's own list is copied, and the list of the class is moved.
fn children_of(query: &Query, nodes: &[Node], done: &mut [Pieces], entry: u8, i: usize) -> Vec<(Pieces, Pieces)> {
    let child = |&class: &usize| (query.lists[&(entry, nodes[class].via)].clone(), take(&mut done[class]));
    nodes[i].children.iter().map(child).collect()
}

// The product of the lists of the entries below a class, from the last entry to the first.
fn class_list(node: &Node, done: &mut [Pieces]) -> Pieces {
    let (&last, others) = node.children.split_last().unwrap();
    let list = take(&mut done[last]);
    others.iter().rev().fold(list, |list, &child| product(&take(&mut done[child]), &list))
}

// The bound of a tree, and how many pieces the lists of its nodes have.
fn fold(query: &Query, nodes: &[Node]) -> (u128, usize) {
    let mut done: Vec<Pieces> = vec![Vec::new(); nodes.len()];
    let mut held = 0;
    for i in (0..nodes.len()).rev() {
        let list = match nodes[i].kind {
            Kind::Entry(entry) if i > 0 && nodes[i].children.is_empty() => query.lists[&(entry, nodes[i].via)].clone(),
            Kind::Entry(entry) => {
                let children = children_of(query, nodes, &mut done, entry, i);
                if i == 0 {
                    return (total(&row_weights(&children, query.rows[&entry])), held);
                }
                compose(&query.lists[&(entry, nodes[i].via)], &children)
            }
            Kind::Class => class_list(&nodes[i], &mut done),
        };
        held += list.len();
        done[i] = list;
    }
    unreachable!()
}

fn bound(query: &Query) -> (u128, usize) {
    let turns = query.equalities.len().clamp(1, 16);
    let of_turn = |turn| {
        let columns = classes(&kept(&query.equalities, turn));
        let mut nodes = vec![Node { kind: Kind::Entry(0), via: 0, children: Vec::new() }];
        add_below(&mut nodes, &columns, 0, 0, None);
        fold(query, &nodes)
    };
    (0..turns).map(of_turn).min().unwrap()
}

// ---- all sets ----

fn has(set: u16, entry: u8) -> bool {
    set >> entry & 1 == 1
}

fn equalities_of(query: &Query, set: u16) -> Vec<Edge> {
    let within = |&(left, right): &Edge| has(set, left.0) && has(set, right.0);
    query.equalities.iter().copied().filter(within).collect()
}

fn turn_bound(query: &Query, set: u16, equalities: &[Edge], turn: usize) -> u128 {
    let columns = classes(&kept(equalities, turn));
    let (mut done, mut product) = (0u16, 1u128);
    for entry in (0..16).filter(|&entry| has(set, entry)) {
        if has(done, entry) {
            continue;
        }
        let mut nodes = vec![Node { kind: Kind::Entry(entry), via: 0, children: Vec::new() }];
        add_below(&mut nodes, &columns, 0, entry, None);
        for node in &nodes {
            if let Kind::Entry(entry) = node.kind {
                done |= 1 << entry;
            }
        }
        product = product.saturating_mul(fold(query, &nodes).0);
    }
    product
}

// For each entry the entries with which equalities join it, and the entries that are on every cycle. Both are found
// once for all sets.
struct Graph {
    neighbours: [u16; 16],
    on_every_cycle: u16,
}

fn graph_of(query: &Query, all: u16) -> Graph {
    let mut neighbours = [0; 16];
    for &(left, right) in &query.equalities {
        neighbours[usize::from(left.0)] |= 1 << right.0;
        neighbours[usize::from(right.0)] |= 1 << left.0;
    }
    let closes_none_without = |&entry: &u8| is_forest(&equalities_of(query, all & !(1 << entry)));
    let on_every_cycle = (0..16).filter(closes_none_without).fold(0, |found, entry| found | 1 << entry);
    Graph { neighbours, on_every_cycle }
}

// The set's first entry and all entries that equalities connect with it.
fn first_part(graph: &Graph, set: u16) -> u16 {
    let mut part = set & set.wrapping_neg();
    let mut reached = part;
    while reached != 0 {
        let more = graph.neighbours[reached.trailing_zeros() as usize] & set & !part;
        part |= more;
        reached = reached & (reached - 1) | more;
    }
    part
}

// The equalities that a turn keeps, and their columns with the names of classes.
struct Turn {
    edges: Vec<Edge>,
    columns: Vec<(Place, Place)>,
}

fn turn_of(equalities: &[Edge], turn: usize) -> Turn {
    let edges = kept(equalities, turn);
    let columns = classes(&edges);
    Turn { edges, columns }
}

fn are_in_classes(turn: &Turn, edges: &[Edge]) -> bool {
    edges.iter().all(|&(left, right)| class_in(&turn.columns, left) == class_in(&turn.columns, right))
}

fn are_alike(a: &Turn, b: &Turn) -> bool {
    are_in_classes(a, &b.edges) && are_in_classes(b, &a.edges)
}

// The least bound over the turns. If each equality joins columns of one class of turn 0, all turns are alike. Of turns
// that are alike, only the first is folded.
fn cyclic_bound(query: &Query, set: u16, equalities: &[Edge]) -> u128 {
    let mut least = turn_bound(query, set, equalities, 0);
    let first = turn_of(equalities, 0);
    if are_in_classes(&first, equalities) {
        return least;
    }
    let mut folded = vec![first];
    for turn in 1..equalities.len().min(16) {
        let made = turn_of(equalities, turn);
        if !folded.iter().any(|earlier| are_alike(earlier, &made)) {
            least = least.min(turn_bound(query, set, equalities, turn));
            folded.push(made);
        }
    }
    least
}

fn is_forest(equalities: &[Edge]) -> bool {
    kept(equalities, 0).len() == equalities.len()
}

// The bound of a set, from bounds of smaller sets. If the set lacks an entry that is on every cycle, its equalities
// close no cycle.
fn next_bound(query: &Query, graph: &Graph, set: u16, smaller: &[u128]) -> u128 {
    let equalities = equalities_of(query, set);
    if graph.on_every_cycle & !set == 0 && !is_forest(&equalities) {
        return cyclic_bound(query, set, &equalities);
    }
    let part = first_part(graph, set);
    let rest = set & !part;
    if part < set && rest < set {
        return smaller[usize::from(part)].saturating_mul(smaller[usize::from(rest)]);
    }
    turn_bound(query, set, &equalities, 0)
}

fn bounds_of_sets(query: &Query, entries: u8) -> Vec<u128> {
    let graph = graph_of(query, ((1u32 << entries) - 1) as u16);
    let mut bounds = Vec::new();
    for set in 0..1u16 << entries {
        bounds.push(next_bound(query, &graph, set, &bounds));
    }
    bounds
}

// ---- queries ----

fn list_of_column(rows: u64, pieces: u32, column: u32) -> Pieces {
    let mut list = Vec::new();
    let mut left = rows;
    for step in (2..=pieces).rev() {
        let value = u64::from(step) * (u64::from(column) + 1);
        let count = rows / u64::from(pieces) / value;
        left -= value * count;
        put(&mut list, u128::from(value), count);
    }
    put(&mut list, 1, left);
    list
}

fn equality(shape: &str, left: u8, right: u8, entries: u8) -> Option<Edge> {
    let is_next = left + 1 == right;
    match shape {
        "chain" => is_next.then_some(((left, 1), (right, 0))),
        "star" if left == 1 => Some(((1, u32::from(right)), (right, 0))),
        "star" => (left == 0 && right == 1).then_some(((0, 0), (1, 0))),
        "joined_star" if left == 1 => Some(((1, u32::from(right)), (right, 0))),
        "joined_star" => is_next.then_some(((0, 0), (right, 0))),
        "one_class" => (left == 0).then_some(((0, 0), (right, 0))),
        "ring" if left == 0 && right + 1 == entries => Some(((right, 1), (left, 0))),
        "ring" => is_next.then_some(((left, 1), (right, 0))),
        "pairs" => Some(((left, 0), (right, 0))),
        _ => Some(((left, u32::from(right)), (right, u32::from(left)))),
    }
}

fn query_of_shape(shape: &str, entries: u8, pieces: u32) -> Query {
    let rows: HashMap<u8, u64> = (0..entries).map(|entry| (entry, 1_000_000 + 77_777 * u64::from(entry))).collect();
    let pairs = (0..entries).flat_map(|right| (0..right).map(move |left| (left, right)));
    let equalities: Vec<_> = pairs.filter_map(|(left, right)| equality(shape, left, right, entries)).collect();
    let mut lists = HashMap::new();
    for place in equalities.iter().flat_map(|&(left, right)| [left, right]) {
        lists.entry(place).or_insert_with(|| list_of_column(rows[&place.0], pieces, place.1));
    }
    Query { equalities, rows, lists }
}

fn time_sets() {
    for shape in ["chain", "star", "joined_star", "one_class", "ring", "pairs", "pairs_apart"] {
        let query = query_of_shape(shape, 12, 23);
        let (mut least, mut sum) = (u128::MAX, 0);
        for _ in 0..PLANS {
            let start = Instant::now();
            let bounds = std::hint::black_box(bounds_of_sets(std::hint::black_box(&query), 12));
            least = least.min(start.elapsed().as_nanos());
            sum = bounds.iter().fold(0u128, |sum, &bound| sum.wrapping_add(bound));
        }
        println!("{shape} {sum} {least}");
    }
}

fn main() {
    if std::env::args().count() > 1 {
        return time_sets();
    }
    for shape in ["chain", "star", "one_class"] {
        for (entries, pieces) in [(12, 16), (12, 32), (3, 64), (6, 64), (12, 64)] {
            let query = query_of_shape(shape, entries, pieces);
            let mut least = u128::MAX;
            let mut answer = (0, 0);
            for _ in 0..ROUNDS {
                let start = Instant::now();
                answer = std::hint::black_box(bound(std::hint::black_box(&query)));
                least = least.min(start.elapsed().as_nanos());
            }
            let (bound, held) = answer;
            println!("{shape} {entries} {pieces} {} {bound} {least} {held}", query.equalities.len());
        }
    }
}
