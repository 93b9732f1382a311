// A part of orders.rs and bushy.rs: the bounds of all sets of twelve entries, which decide the choice, and how a choice
// is timed.
use std::hint::black_box;
use std::time::Instant;

pub fn all_bounds() -> Vec<(&'static str, Vec<u128>)> {
    [("equal", 0, 1), ("ascending", 1, 1_000_000), ("mixed", 2_654_435_761u64, 1_000_003)]
        .iter()
        .map(|(name, step, limit)| (*name, (0..4096u64).map(|set| (set.wrapping_mul(*step) % limit) as u128).collect()))
        .collect()
}

/// The least nanoseconds of a choice.
pub fn least_time<T>(rounds: u32, bounds: &[u128], choose: impl Fn(&[u128]) -> T) -> u128 {
    let mut least = u128::MAX;
    for _ in 0..rounds {
        let start = Instant::now();
        let chosen = choose(black_box(bounds));
        black_box(chosen);
        least = least.min(start.elapsed().as_nanos());
    }
    least
}
