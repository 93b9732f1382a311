//! The plain side of the benchmark of `read_stats` of crate stats_reading: plain Rust, with only std, that reads the
//! same file and checks the same rules.
//!
//! Build with `rustc -O bench/stats_file.rs`. It prints how many bytes and pairs the file has, and the least time of
//! several readings in milliseconds.
mod stats_text;

use stats_text::read_stats;
use std::fmt::Write;
use std::time::Instant;

const MOST_BYTES: usize = 67_108_864;
const MOST_PAIR: usize = 4096;
const ROUNDS: u32 = 5;

fn push_pair(text: &mut String, filter: &str, joined: &str) {
    write!(text, "pair {filter} {joined}\nwhole 9*3 7*5 5*8 3*20 1*200\n").unwrap();
    for i in 0..32 {
        writeln!(text, "frequent 1{i:02} 5*2 3*4 1*9").unwrap();
    }
    text.push_str("rest 4*3 1*20\n");
    for i in 0..32 {
        writeln!(text, "cut 1{i:02}").unwrap();
    }
    for _ in 0..63 {
        text.push_str("node 7*2 5*4 1*30\n");
    }
}

fn file_text(tables: &[String], columns: &[String], bytes: usize) -> String {
    let has_room = |text: &String| bytes.saturating_sub(text.len()) > MOST_PAIR;
    let mut text = String::from("safebound-stats 1 1\n");
    for table in tables {
        if !has_room(&text) {
            break;
        }
        writeln!(text, "table {table} 362").unwrap();
        for filter in columns {
            for joined in columns {
                if has_room(&text) {
                    push_pair(&mut text, filter, joined);
                }
            }
        }
    }
    text.push_str("end\n");
    text
}

fn main() {
    let names = |letter: &str| -> Vec<String> { (0..64).map(|i| format!("x{letter}3{}3{}", i / 10, i % 10)).collect() };
    let (tables, columns) = (names("54"), names("43"));
    let text = file_text(&tables, &columns, MOST_BYTES);
    let words = |names: &[String]| -> Vec<Vec<u8>> { names.iter().map(|name| name.as_bytes().to_vec()).collect() };
    let (tables, columns) = (words(&tables), vec![words(&columns); tables.len()]);
    let (mut least, mut pairs) = (u128::MAX, 0);
    for _ in 0..ROUNDS {
        let start = Instant::now();
        let Ok(file) = read_stats(text.as_bytes(), &tables, &columns) else { panic!("refused") };
        least = least.min(start.elapsed().as_millis());
        pairs = file.tables.iter().map(|table| table.pairs.len()).sum();
        assert!(file.accuracy == 1);
    }
    println!("{} {pairs} {least}", text.len());
}
