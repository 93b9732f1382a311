//! Random queries: the crate gets the same bounds, orders and trees as the C program library/tests/calls.c, which
//! SAFEBOUND_CALLS names. Each query is written for both. The C program gets other numbers of columns than the crate uses.

use safebound::{append, compress, cut, degree_sequence_of_keys, greater, lesser, Bounds, Error, Query, Run};
use std::io::Write;
use std::process::{Command, Stdio};

const QUERIES: u64 = 400;

/// Numbers that look random, from a seed.
struct Pick(u64);

impl Pick {
    /// A number from 0 to `count` - 1.
    fn below(&mut self, count: usize) -> usize {
        self.0 = self.0.wrapping_add(0x9E37_79B9_7F4A_7C15);
        let mixed = (self.0 ^ (self.0 >> 30)).wrapping_mul(0xBF58_476D_1CE4_E5B9);
        let mixed = (mixed ^ (mixed >> 27)).wrapping_mul(0x94D0_49BB_1331_11EB);
        ((mixed ^ (mixed >> 31)) % count as u64) as usize
    }

    /// A list of at least one run, the greatest degree first.
    fn runs(&mut self) -> Vec<Run> {
        let large = self.below(5) == 0;
        let mut degrees: Vec<u64> =
            (0..1 + self.below(5)).map(|_| 1 + self.below(if large { 1 << 30 } else { 9 }) as u64).collect();
        degrees.sort_unstable_by(|one, other| other.cmp(one));
        degrees.into_iter().map(|degree| Run { degree, keys: 1 + self.below(4) as u64 }).collect()
    }
}

fn name(entry: usize) -> String {
    format!("entry {entry}")
}

/// A query for the crate, and the line that asks the C program for its bounds.
fn random_query(pick: &mut Pick) -> (Query, String) {
    let entries = 1 + pick.below(6);
    let most = [30, 30, 30, 30, 1 << 40][pick.below(5)];
    let rows: Vec<u64> = (0..entries).map(|_| pick.below(most) as u64).collect();
    let mut query = Query::new();
    for (entry, &number) in rows.iter().enumerate() {
        query = query.entry(name(entry), number);
    }
    let (mut equalities, mut sides) = (Vec::new(), Vec::new());
    for _ in 0..if entries > 1 { pick.below(entries + 2) } else { 0 } {
        let (left, column) = (pick.below(entries), pick.below(3));
        let (right, other) = ((left + 1 + pick.below(entries - 1)) % entries, pick.below(3));
        query = query.equality((name(left), format!("c{column}")), (name(right), format!("c{other}")));
        equalities.push([left, column + 700, right, other + 700]);
        sides.extend([(left, column), (right, other)]);
    }
    sides.sort_unstable_by_key(|&(entry, column)| (column * 7 + entry * 5) % 11 * 100 + entry * 10 + column);
    sides.dedup();
    let (mut lists, mut runs) = (Vec::new(), Vec::new());
    for (entry, column) in sides {
        let own = pick.runs();
        query = query.list((name(entry), format!("c{column}")), &own);
        lists.push([entry, column + 700, runs.len(), own.len()]);
        runs.extend(own);
    }
    let numbers = |array: &[[usize; 4]]| array.iter().flatten().map(|n| format!(" {n}")).collect::<String>();
    let rows_text: String = rows.iter().map(|n| format!(" {n}")).collect();
    let line = format!(
        "bounds {} {entries}{rows_text} {}{} {}{} {}",
        1 << entries,
        equalities.len(),
        numbers(&equalities),
        lists.len(),
        numbers(&lists),
        list_text(&runs),
    );
    (query, line)
}

/// A list as the C program reads it: its length and its numbers.
fn list_text(runs: &[Run]) -> String {
    let pairs: String = runs.iter().map(|run| format!(" {} {}", run.degree, run.keys)).collect();
    format!("{}{pairs}", runs.len())
}

/// The C program's answer to each line: the status, the detail and the elements.
fn answers_of(program: &str, lines: &[String]) -> Vec<Vec<u64>> {
    let mut child = Command::new(program).stdin(Stdio::piped()).stdout(Stdio::piped()).spawn().expect("the C program");
    let mut stdin = child.stdin.take().expect("its input");
    let text = lines.join("\n") + "\n";
    let writer = std::thread::spawn(move || stdin.write_all(text.as_bytes()));
    let done = child.wait_with_output().expect("its answers");
    writer.join().expect("a writer").expect("all lines");
    assert!(done.status.success());
    let number = |word: &str| word.parse().unwrap_or(u64::MAX);
    let answer = |line: &str| line.split(" requests").next().unwrap_or("").split(' ').map(number).collect();
    String::from_utf8(done.stdout).expect("text").lines().map(answer).collect()
}

/// An answer of this crate as the C program writes it.
fn as_written<T>(answer: Result<Vec<T>, Error>, wide: impl Fn(&T) -> Vec<u64>) -> Vec<u64> {
    match answer {
        Ok(elements) => [0, elements.len() as u64].into_iter().chain(elements.iter().flat_map(wide)).collect(),
        Err(Error::BudgetExceeded { least }) => vec![3, least],
        Err(Error::PastBits) => vec![4, u64::MAX],
        Err(other) => panic!("{other}"),
    }
}

fn order_as_written(bounds: &Bounds, budget: u64) -> Vec<u64> {
    let place = |name: &String| bounds.entries().iter().position(|entry| entry == name).expect("an entry") as u64;
    let levels = bounds.best_order(budget).map(|order| order.entries.iter().map(place).zip(order.levels).collect());
    as_written(levels, |&(entry, level)| vec![entry, level])
}

fn tree_as_written(bounds: &Bounds, budget: u64) -> Vec<u64> {
    as_written(bounds.best_tree(budget).map(|tree| tree.joins), |join| {
        vec![join.left as u64, join.right as u64, join.bound]
    })
}

/// The program that SAFEBOUND_CALLS names. library/test sets it.
fn program() -> Option<String> {
    let named = std::env::var("SAFEBOUND_CALLS").ok();
    if named.is_none() {
        eprintln!("SAFEBOUND_CALLS names no program: nothing is compared with C");
    }
    named
}

#[test]
fn bounds_and_plans() {
    let Some(program) = program() else { return };
    let (mut lines, mut wanted) = (Vec::new(), Vec::new());
    for seed in 0..QUERIES {
        let mut pick = Pick(seed);
        let (query, line) = random_query(&mut pick);
        let bounds = query.bounds().expect("bounds");
        let numbers: Vec<u64> = bounds.sets().map(|(_, bound)| bound.rows().unwrap_or(u64::MAX)).collect();
        let all: String = numbers.iter().map(|n| format!(" {n}")).collect();
        lines.push(line);
        wanted.push([0, numbers.len() as u64].into_iter().chain(numbers.iter().copied()).collect());
        let budget = [1 << 59, 20, 5000][pick.below(3)];
        lines.push(format!("order {budget} 12 {}{all}", numbers.len()));
        wanted.push(order_as_written(&bounds, budget));
        lines.push(format!("tree {budget} 12 {}{all}", numbers.len()));
        wanted.push(tree_as_written(&bounds, budget));
    }
    let answers = answers_of(&program, &lines);
    assert_eq!(answers.len(), lines.len());
    for (line, (answer, expected)) in lines.iter().zip(answers.iter().zip(&wanted)) {
        assert_eq!(answer, expected, "{line}");
    }
    for status in [0, 3, 4] {
        assert!(answers.iter().filter(|answer| answer[0] == status).count() > 10, "status {status} is rare");
    }
}

#[test]
fn lists() {
    let Some(program) = program() else { return };
    let (mut lines, mut wanted) = (Vec::new(), Vec::new());
    let mut want = |line: String, answer: Result<Vec<Run>, Error>| {
        lines.push(line);
        wanted.push(as_written(answer, |run| vec![run.degree, run.keys]));
    };
    for seed in 0..QUERIES {
        let mut pick = Pick(seed);
        let (one, other, accuracy) = (pick.runs(), pick.runs(), [1, 2, 8, 64][pick.below(4)]);
        let spread = 1 + pick.below(40);
        let keys: Vec<u64> = (0..pick.below(300)).map(|_| (pick.below(spread) as u64) << 58).collect();
        let keys_text: String = keys.iter().map(|key| format!(" {key}")).collect();
        want(format!("compress {accuracy} 99 {}", list_text(&one)), compress(&one, accuracy));
        want(format!("append 99 {} {}", list_text(&one), list_text(&other)), append(&one, &other));
        want(format!("lesser 99 {} {}", list_text(&one), list_text(&other)), lesser(&one, &other));
        want(format!("greater 99 {} {}", list_text(&one), list_text(&other)), greater(&one, &other));
        want(format!("cut {spread} 99 {}", list_text(&one)), cut(&one, spread as u64));
        want(format!("degrees 99 {}{keys_text}", keys.len()), degree_sequence_of_keys(&keys));
    }
    assert_eq!(answers_of(&program, &lines), wanted);
}
