//! The program over files in memory: texts that don't fit into the first room, refusals, words and names of any bytes.
#![cfg(feature = "command")]

use safebound::{Command, Output};
use std::path::Path;

const SCHEMA: &str = "CREATE TABLE R (X INTEGER NOT NULL); CREATE TABLE S (X INTEGER NOT NULL)";
const QUERY: &str = "SELECT R.X FROM R, S WHERE R.X = S.X";

fn join<'a>(words: &'a [&'a str], r: &'a str, s: &'a str) -> Output {
    let command = Command::new(words.iter().copied()).file("schema.sql", SCHEMA).file("query.sql", QUERY);
    command.file("r.csv", r).file("s.csv", s).run().expect("memory")
}

fn text(bytes: &[u8]) -> &str {
    std::str::from_utf8(bytes).expect("a text")
}

/// 600 rows with one value on both sides: 360,000 rows of 3 bytes, more than the first rooms.
#[test]
fn a_text_that_is_larger_than_the_first_room() {
    let table = format!("X\n{}", "7\n".repeat(600));
    let output = join(&["run", "schema.sql", "query.sql"], &table, &table);
    assert_eq!((output.status, output.out.len()), (0, 3 + 3 * 360_000));
    assert_eq!(text(&output.out), format!("X\r\n{}", "7\r\n".repeat(360_000)));
    assert_eq!(text(&output.notes), "scan R 600\nscan S 600\nlevel 1 R 600\nlevel 2 S 360000\n");
}

#[test]
fn a_line_that_is_larger_than_the_first_room() {
    let name = "s".repeat(100_000);
    let output = Command::new(["plan", &name, "q"]).run().expect("memory");
    assert_eq!((output.status, text(&output.notes)), (3, format!("error read {name}\n").as_str()));
}

#[test]
fn refusals() {
    for (words, status, notes) in [
        (&["plan", "schema.sql"][..], 2, "error usage\n"),
        (&[], 2, "error usage\n"),
        (&["plan", "other.sql", "query.sql"], 3, "error read other.sql\n"),
        (&["plan", "query.sql", "query.sql"], 4, "error schema syntax 0\n"),
        (&["plan", "schema.sql", "schema.sql"], 5, "error query syntax 0\n"),
        (&["plan", "schema.sql", "query.sql"], 6, "error table r.csv header X\n"),
    ] {
        let output = join(words, "Y\n1\n", "X\n1\n");
        assert_eq!((output.status, text(&output.notes), output.out.len()), (status, notes, 0));
    }
}

#[test]
fn words_and_names_of_any_bytes() {
    let words: [&[u8]; 3] = [b"plan", b"\xff", b"query.sql"];
    let output = Command::new(words).file(&b"\xff"[..], SCHEMA).run().expect("memory");
    assert_eq!(output, Output { status: 15, out: vec![], notes: vec![] });
    let output = Command::new(["plan", "é", ""]).file("é", SCHEMA).file("", QUERY).file("", "").run().expect("memory");
    assert_eq!((output.status, text(&output.notes)), (3, "error read r.csv\n"));
}

#[test]
fn exits_are_those_of_the_header() {
    let header = Path::new(env!("CARGO_MANIFEST_DIR")).join("../../include/safebound_command.h");
    let text = std::fs::read_to_string(header).expect("the header");
    let lines: Vec<_> =
        text.lines().filter(|line| line.starts_with("    SAFEBOUND_EXIT_") && line.contains(" = ")).collect();
    assert_eq!(lines.len(), safebound_sys::EXITS.len());
    for (line, (name, number)) in lines.iter().zip(safebound_sys::EXITS) {
        assert_eq!(line.trim().split([',', ' ']).take(3).collect::<Vec<_>>(), [*name, "=", &number.to_string()]);
    }
}
