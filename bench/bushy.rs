// The plain side of bench/bushy-plan: finds the best join tree of twelve entries, in safe Rust. Like the proved program,
// it fills two tables, indexed by sets of entries, and splits sets in the same ways. Prints the chosen trees, and the
// least nanoseconds of 10 choices.
mod twelve_entries;

use twelve_entries::{all_bounds, least_time};

const COUNT: usize = 12;
const ROUNDS: u32 = 10;

fn without_first(set: usize) -> usize {
    set - (1 << set.trailing_zeros())
}

fn least_weights(bounds: &[u128], joined: impl Fn(u128, u128, u128) -> u128) -> Vec<u128> {
    let mut table = Vec::with_capacity(bounds.len());
    table.push(0);
    for set in 1..bounds.len() {
        let behind = without_first(set);
        let mut least = if behind == 0 { 0 } else { u128::MAX };
        let mut right = behind;
        while right > 0 {
            least = least.min(joined(bounds[set], table[set - right], table[right]));
            right = (right - 1) & behind;
        }
        table.push(least);
    }
    table
}

type Join = (u8, u8, u64);

fn push_joins(bounds: &[u128], sums: &[u128], joined: &impl Fn(u128, u128, u128) -> u128, set: usize, joins: &mut Vec<Join>) -> u8 {
    let behind = without_first(set);
    if behind == 0 {
        return set.trailing_zeros() as u8;
    }
    let mut side = behind;
    while joined(bounds[set], sums[set - side], sums[side]) != sums[set] {
        side = (side - 1) & behind;
    }
    let left = push_joins(bounds, sums, joined, set - side, joins);
    let right = push_joins(bounds, sums, joined, side, joins);
    joins.push((left, right, bounds[set] as u64));
    (COUNT + joins.len() - 1) as u8
}

fn choose(bounds: &[u128]) -> (u128, Vec<Join>) {
    let all = bounds.len() - 1;
    let least = least_weights(bounds, |bound, left, right| bound.max(left).max(right))[all];
    let joined = |bound: u128, left: u128, right: u128| {
        if bound <= least { bound.saturating_add(left).saturating_add(right) } else { u128::MAX }
    };
    let sums = least_weights(bounds, joined);
    let mut joins = Vec::new();
    push_joins(bounds, &sums, &joined, all, &mut joins);
    (least, joins)
}

fn main() {
    for (name, bounds) in all_bounds() {
        let (cost, joins) = choose(&bounds);
        print!("{name} {cost}");
        for (left, right, bound) in joins {
            print!(" {left} {right} {bound}");
        }
        println!();
        eprintln!("{}", least_time(ROUNDS, &bounds, choose));
    }
}
