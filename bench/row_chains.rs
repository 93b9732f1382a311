//! How plain Rust finds the rows of a key: a part of demo.rs and shop.rs.

const NONE: u32 = u32::MAX;

/// Chains of the rows of one key: the first row of each bucket, and the next of each row.
pub struct Chains {
    first: Vec<u32>,
    next: Vec<u32>,
}

impl Chains {
    pub fn new(keys: &[i64]) -> Chains {
        let mut first = vec![NONE; keys.len().max(1)];
        let mut next = vec![NONE; keys.len()];
        for (row, key) in keys.iter().enumerate().rev() {
            let bucket = *key as usize % first.len();
            next[row] = first[bucket];
            first[bucket] = row as u32;
        }
        Chains { first, next }
    }

    pub fn rows<'a>(&'a self, keys: &'a [i64], key: i64) -> impl Iterator<Item = u32> + 'a {
        let mut at = self.first[key as usize % self.first.len()];
        std::iter::from_fn(move || {
            while at != NONE {
                let row = at;
                at = self.next[row as usize];
                if keys[row as usize] == key {
                    return Some(row);
                }
            }
            None
        })
    }
}
