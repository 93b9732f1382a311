//! The plain side of the benchmark of `falling` of crate degree_lists: a copy, the standard sort, and a walk over the
//! runs. Build with `rustc -O bench/degree_lists.rs`. It prints the time in milliseconds for four million keys, or for
//! the number of keys in its argument: all different, all equal, and about as unequally frequent as words of a text.
use std::time::Instant;

const KEYS: usize = 4_000_000;

fn keys_of(kind: &str, count: usize) -> Vec<u64> {
    let mut state: u64 = 88172645463325252;
    let mut keys = Vec::with_capacity(count);
    for _ in 0..count {
        state ^= state << 13;
        state ^= state >> 7;
        state ^= state << 17;
        keys.push(match kind {
            "different" => state,
            "equal" => 7,
            // A key below 2^k: each k from 0 to 21 is about as likely, so small keys are frequent.
            _ => (state & 0xffff_ffff) >> (32 - (state >> 58) % 22),
        });
    }
    keys
}

fn degree_sequence(keys: &[u64]) -> Vec<u64> {
    let mut sorted = keys.to_vec();
    sorted.sort_unstable();
    let mut list: Vec<u64> = sorted
        .chunk_by(|a, b| a == b)
        .map(|run| run.len() as u64)
        .collect();
    list.sort_unstable();
    list.reverse();
    list
}

fn main() {
    let count = std::env::args().nth(1).map_or(KEYS, |word| word.parse().unwrap());
    for kind in ["different", "equal", "unequal"] {
        let keys = keys_of(kind, count);
        for _ in 0..3 {
            let start = Instant::now();
            let list = degree_sequence(&keys);
            let time = start.elapsed().as_millis();
            println!("{kind}: {} different keys, {time} ms", list.len());
        }
    }
}
