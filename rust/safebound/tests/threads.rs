//! Several threads that run at the same time get the results that a single thread gets.

use safebound::{degree_sequence_of_keys, Error, Order, Query, Run, Tree};
use std::thread;

const THREADS: u64 = 4;

fn planned(rows: u64) -> Result<(Vec<Run>, Order, Tree), Error> {
    let keys: Vec<u64> = (0..3000).map(|at| at * at % (rows + 7)).collect();
    let list = degree_sequence_of_keys(&keys)?;
    let mut query = Query::new();
    for entry in ["a", "b", "c", "d"] {
        query = query.entry(entry, rows).list((entry, "x"), &list);
    }
    for (left, right) in [("a", "b"), ("b", "c"), ("c", "d")] {
        query = query.equality((left, "x"), (right, "x"));
    }
    let bounds = query.bounds()?;
    Ok((list, bounds.best_order(1 << 59)?, bounds.best_tree(1 << 59)?))
}

#[test]
fn at_once() {
    let alone: Vec<_> = (1..60).map(planned).collect();
    assert!(alone.iter().all(Result::is_ok));
    thread::scope(|scope| {
        for _ in 0..THREADS {
            scope.spawn(|| assert_eq!((1..60).map(planned).collect::<Vec<_>>(), alone));
        }
    });
}

/// Values that are made on one thread may be used on others.
#[test]
fn shared() {
    fn is_shared<T: Send + Sync>() {}
    is_shared::<Query>();
    is_shared::<safebound::Bounds>();
    is_shared::<Error>();
}
