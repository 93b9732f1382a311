// Chains of equal keys, with the layout and the hash of link_index, in Rust without contracts: a part of joins.rs and
// link_index.rs.

pub const NONE: u32 = u32::MAX;
pub const ODD: u64 = 0x9E37_79B9_7F4A_7C15;

pub struct Chains {
    pub heads: Vec<u32>,
    pub nexts: Vec<u32>,
    pub keys: Vec<u64>,
}

fn bucket(buckets: usize, key: u64) -> usize {
    let once = key.wrapping_mul(ODD);
    let mixed = (once ^ (once >> 32)).wrapping_mul(ODD);
    (((mixed >> 32) * buckets as u64) >> 32) as usize
}

impl Chains {
    pub fn reserved(rows: usize, buckets: usize) -> Chains {
        Chains {
            heads: vec![NONE; buckets],
            nexts: Vec::with_capacity(rows),
            keys: Vec::with_capacity(rows),
        }
    }

    pub fn load(&mut self, keys: &[u64]) {
        if !self.keys.is_empty() {
            self.heads.fill(NONE);
        }
        self.keys.clear();
        self.keys.extend_from_slice(keys);
        self.nexts.clear();
        self.nexts.resize(keys.len(), NONE);
        for (place, key) in keys.iter().enumerate().rev() {
            let bucket = bucket(self.heads.len(), *key);
            self.nexts[place] = self.heads[bucket];
            self.heads[bucket] = place as u32;
        }
    }

    fn later(&self, place: u32, key: u64) -> Option<u32> {
        let mut at = self.nexts[place as usize];
        while at != NONE && self.keys[at as usize] != key {
            at = self.nexts[at as usize];
        }
        if at == NONE { None } else { Some(at) }
    }

    pub fn first(&self, key: u64) -> Option<u32> {
        if self.heads.is_empty() {
            return None;
        }
        let head = self.heads[bucket(self.heads.len(), key)];
        if head == NONE {
            None
        } else if self.keys[head as usize] == key {
            Some(head)
        } else {
            self.later(head, key)
        }
    }

    pub fn after(&self, place: u32, key: u64) -> Option<u32> {
        self.later(place, key)
    }
}
