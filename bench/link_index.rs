// The plain side of the benchmark of link_index: the same layout, the same mix and the same calls, in Rust without contracts.
//
// bench/link-index builds and runs it beside the proved program.
//
// It prints for each list of keys the nanoseconds of `load`, `first` and `after` for all keys (the least of five
// rounds), and the longest walk to a key.
mod key_chains;

use key_chains::{Chains, NONE};
use std::hint::black_box;
use std::time::Instant;

const KEYS: u64 = 4_000_000;
const ROUNDS: usize = 5;

// The largest number of places that a call visits until it returns.
fn longest_walk(chains: &Chains) -> usize {
    let mut longest = 0;
    for head in &chains.heads {
        let (mut at, mut here, mut key) = (*head, 0, None);
        while at != NONE {
            let other = Some(chains.keys[at as usize]);
            here = if other == key { 1 } else { here + 1 };
            key = other;
            longest = longest.max(here);
            at = chains.nexts[at as usize];
        }
    }
    longest
}

fn find_each(chains: &Chains, keys: &[u64]) -> u64 {
    let mut sum = 0u64;
    for key in keys {
        if let Some(place) = chains.first(*key) {
            sum = sum.wrapping_add(place as u64);
        }
    }
    sum
}

fn follow_each(chains: &Chains, keys: &[u64]) -> u64 {
    let mut sum = 0u64;
    for (place, key) in keys.iter().enumerate() {
        if let Some(next) = chains.after(place as u32, *key) {
            sum = sum.wrapping_add(next as u64);
        }
    }
    sum
}

fn main() {
    for (name, step) in [("ascending", 1u64), ("multiples", 65_536), ("equal", 0)] {
        let keys: Vec<u64> = (0..KEYS).map(|i| i.wrapping_mul(step)).collect();
        let mut chains = Chains::reserved(keys.len(), keys.len());
        let mut least = [u128::MAX; 3];
        let mut sums = (0, 0);
        for _ in 0..ROUNDS {
            let start = Instant::now();
            chains.load(black_box(&keys));
            least[0] = least[0].min(start.elapsed().as_nanos());
            let start = Instant::now();
            sums.0 = black_box(find_each(&chains, &keys));
            least[1] = least[1].min(start.elapsed().as_nanos());
            let start = Instant::now();
            sums.1 = black_box(follow_each(&chains, &keys));
            least[2] = least[2].min(start.elapsed().as_nanos());
        }
        println!("{name} {} {}", sums.0, sums.1);
        println!(
            "load {} first {} after {} walk {}",
            least[0],
            least[1],
            least[2],
            longest_walk(&chains)
        );
    }
}
