// The plain side of bench/orders: finds the best order of twelve entries, in safe Rust. Like the proved program, it
// fills two tables, indexed by the set of entries that aren't joined yet. Prints the chosen orders, and the least
// nanoseconds of 50 choices.
mod twelve_entries;

use twelve_entries::{all_bounds, least_time};

const COUNT: u32 = 12;
const ROUNDS: u32 = 50;

fn least_weights(bounds: &[u128], joined: impl Fn(u128, u128) -> u128) -> Vec<u128> {
    let mut table = Vec::with_capacity(bounds.len());
    table.push(0);
    for left in 1..bounds.len() {
        let mut least = u128::MAX;
        for entry in 0..COUNT {
            if left >> entry & 1 == 1 {
                let behind = left - (1 << entry);
                least = least.min(joined(bounds[bounds.len() - 1 - behind], table[behind]));
            }
        }
        table.push(least);
    }
    table
}

fn choose(bounds: &[u128]) -> (Vec<u8>, Vec<u64>) {
    let all = bounds.len() - 1;
    let least = least_weights(bounds, u128::max)[all];
    let joined = |bound: u128, behind: u128| if bound <= least { bound.saturating_add(behind) } else { u128::MAX };
    let sums = least_weights(bounds, joined);
    let (mut order, mut levels, mut left) = (Vec::new(), Vec::new(), all);
    while left > 0 {
        let is_next = |entry: &u32| {
            left >> entry & 1 == 1 && joined(bounds[all - (left - (1 << entry))], sums[left - (1 << entry)]) == sums[left]
        };
        let entry = (0..COUNT).find(is_next).unwrap();
        left -= 1 << entry;
        order.push(entry as u8);
        levels.push(bounds[all - left] as u64);
    }
    (order, levels)
}

fn main() {
    for (name, bounds) in all_bounds() {
        let (order, levels) = choose(&bounds);
        println!("{name} {order:?} {levels:?}");
        eprintln!("{}", least_time(ROUNDS, &bounds, choose));
    }
}
