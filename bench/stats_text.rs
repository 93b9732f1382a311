//! How plain Rust reads a statistics file: a part of stats_file.rs and stats_commands.rs. It checks the same rules as
//! `read_stats` of crate stats_reading, for columns that all have numbers.

#[derive(Clone, Copy, PartialEq)]
pub struct Piece {
    pub value: u128,
    pub count: u64,
}

pub type List = Vec<Piece>;

pub struct Pair {
    pub filter: u32,
    pub joined: u32,
    pub whole: List,
    pub frequent: Vec<(i64, List)>,
    pub rest: List,
    pub cuts: Vec<i64>,
    pub nodes: Vec<List>,
}

pub struct TableStats {
    pub table: u32,
    pub rows: u32,
    pub pairs: Vec<Pair>,
}

#[derive(PartialEq)]
enum Stage {
    Start,
    Tables,
    Pairs,
    Whole,
    Frequent,
    Cuts,
    Nodes,
    Done,
}

/// The part of the file that was read so far.
pub struct Draft {
    stage: Stage,
    pub accuracy: u64,
    pub tables: Vec<TableStats>,
    pair: Option<Pair>,
    same_filter: Option<usize>,
    same_joined: Option<usize>,
}

fn number(word: &[u8], most: u64) -> Option<u64> {
    if word.is_empty() || (word[0] == b'0' && word.len() > 1) {
        return None;
    }
    let mut value: u64 = 0;
    for digit in word {
        if !digit.is_ascii_digit() {
            return None;
        }
        value = value.checked_mul(10)?.checked_add(u64::from(digit - b'0'))?;
        if value > most {
            return None;
        }
    }
    Some(value)
}

fn signed(word: &[u8]) -> Option<i64> {
    match word {
        [b'-', digits @ ..] => match number(digits, 1 << 63)? {
            0 => None,
            size => Some((size as i64).wrapping_neg()),
        },
        _ => Some(number(word, i64::MAX as u64)? as i64),
    }
}

fn list(word: &[u8], rows: u32) -> Option<List> {
    let mut pieces = List::new();
    if word == b"-" {
        return Some(pieces);
    }
    let (mut below, mut left) = (u64::from(rows) + 1, u64::from(rows));
    for run in word.split(|byte| *byte == b' ') {
        let star = run.iter().position(|byte| *byte == b'*')?;
        let (value, count) = (number(&run[..star], left)?, number(&run[star + 1..], left)?);
        if value == 0 || count == 0 || value >= below || value * count > left {
            return None;
        }
        pieces.push(Piece { value: u128::from(value), count });
        left -= value * count;
        below = value;
    }
    Some(pieces)
}

fn total(list: &List) -> u128 {
    list.iter().map(|piece| piece.value * u128::from(piece.count)).sum()
}

fn place(word: &[u8], names: &[Vec<u8>]) -> Option<u32> {
    names.iter().position(|name| name == word).map(|i| i as u32)
}

fn two(words: &[u8]) -> Option<(&[u8], &[u8])> {
    let blank = words.iter().position(|byte| *byte == b' ')?;
    Some((&words[..blank], &words[blank + 1..]))
}

impl Draft {
    fn end_pair(&mut self) -> Option<()> {
        let Some(pair) = self.pair.take() else { return Some(()) };
        let section = self.tables.last_mut()?;
        if section.rows > 0 && (pair.cuts.len() != 32 || pair.nodes.len() != 63) {
            return None;
        }
        section.pairs.push(pair);
        Some(())
    }

    fn take_table(&mut self, words: &[u8], names: &[Vec<u8>]) -> Option<()> {
        self.end_pair()?;
        let (name, rows) = two(words)?;
        let table = place(name, names)?;
        let rows = number(rows, 4_000_000)? as u32;
        if self.tables.last().is_some_and(|last| last.table >= table) {
            return None;
        }
        self.tables.push(TableStats { table, rows, pairs: Vec::new() });
        self.stage = Stage::Pairs;
        Some(())
    }

    fn take_pair(&mut self, words: &[u8], columns: &[Vec<Vec<u8>>]) -> Option<()> {
        self.end_pair()?;
        let (filter, joined) = two(words)?;
        let TableStats { table, pairs, .. } = self.tables.last()?;
        let names = &columns[*table as usize];
        let (filter, joined) = (place(filter, names)?, place(joined, names)?);
        if pairs.last().is_some_and(|last| (last.filter, last.joined) >= (filter, joined)) {
            return None;
        }
        // Pairs are in ascending order, so if any pair has this filter column, the last pair has it.
        self.same_filter = pairs.len().checked_sub(1).filter(|last| pairs[*last].filter == filter);
        self.same_joined = pairs.iter().position(|pair| pair.joined == joined);
        self.pair = Some(Pair {
            filter,
            joined,
            whole: List::new(),
            frequent: Vec::new(),
            rest: List::new(),
            cuts: Vec::new(),
            nodes: Vec::new(),
        });
        self.stage = Stage::Whole;
        Some(())
    }

    fn take_list(&mut self, kind: u8, word: &[u8]) -> Option<()> {
        let section = self.tables.last()?;
        let pair = self.pair.as_mut()?;
        let list = list(word, section.rows)?;
        match kind {
            b'w' => {
                if total(&list) != u128::from(section.rows) {
                    return None;
                }
                if self.same_joined.is_some_and(|i| section.pairs[i].whole != list) {
                    return None;
                }
                pair.whole = list;
                self.stage = Stage::Frequent;
            }
            b'r' => {
                if let Some(same_filter) = self.same_filter.map(|i| &section.pairs[i]) {
                    if same_filter.frequent.len() != pair.frequent.len() || total(&same_filter.rest) != total(&list) {
                        return None;
                    }
                }
                pair.rest = list;
                self.stage = Stage::Cuts;
            }
            _ => {
                let at = pair.nodes.len();
                if section.rows == 0 || pair.cuts.len() != 32 || at >= 63 {
                    return None;
                }
                if self.same_filter.is_some_and(|i| total(&section.pairs[i].nodes[at]) != total(&list)) {
                    return None;
                }
                pair.nodes.push(list);
                self.stage = Stage::Nodes;
            }
        }
        Some(())
    }

    fn take_frequent(&mut self, words: &[u8]) -> Option<()> {
        let section = self.tables.last()?;
        let pair = self.pair.as_mut()?;
        let (value, word) = two(words)?;
        let (value, list) = (signed(value)?, list(word, section.rows)?);
        let at = pair.frequent.len();
        if at >= 32 || pair.frequent.iter().any(|earlier| earlier.0 == value) {
            return None;
        }
        if let Some(same_filter) = self.same_filter.map(|i| &section.pairs[i].frequent) {
            if at >= same_filter.len() || same_filter[at].0 != value || total(&same_filter[at].1) != total(&list) {
                return None;
            }
        }
        pair.frequent.push((value, list));
        Some(())
    }

    fn take_cut(&mut self, word: &[u8]) -> Option<()> {
        let section = self.tables.last()?;
        let pair = self.pair.as_mut()?;
        let value = signed(word)?;
        let at = pair.cuts.len();
        if section.rows == 0 || at >= 32 || pair.cuts.last().is_some_and(|last| *last > value) {
            return None;
        }
        if self.same_filter.is_some_and(|i| section.pairs[i].cuts[at] != value) {
            return None;
        }
        pair.cuts.push(value);
        Some(())
    }

    fn take(&mut self, line: &[u8], tables: &[Vec<u8>], columns: &[Vec<Vec<u8>>]) -> Option<()> {
        use Stage::*;
        let ends = matches!(self.stage, Tables | Pairs | Cuts | Nodes);
        if let Some(word) = line.strip_prefix(b"node ") {
            return if matches!(self.stage, Cuts | Nodes) { self.take_list(b'n', word) } else { None };
        }
        if let Some(words) = line.strip_prefix(b"frequent ") {
            return if self.stage == Frequent { self.take_frequent(words) } else { None };
        }
        if let Some(word) = line.strip_prefix(b"cut ") {
            return if self.stage == Cuts { self.take_cut(word) } else { None };
        }
        if let Some(word) = line.strip_prefix(b"whole ") {
            return if self.stage == Whole { self.take_list(b'w', word) } else { None };
        }
        if let Some(word) = line.strip_prefix(b"rest ") {
            return if self.stage == Frequent { self.take_list(b'r', word) } else { None };
        }
        if let Some(words) = line.strip_prefix(b"pair ") {
            return if ends && self.stage != Tables { self.take_pair(words, columns) } else { None };
        }
        if let Some(words) = line.strip_prefix(b"table ") {
            return if ends { self.take_table(words, tables) } else { None };
        }
        if let Some(word) = line.strip_prefix(b"safebound-stats 1 ") {
            self.accuracy = number(word, 64).filter(|k| *k > 0 && self.stage == Start)?;
            self.stage = Tables;
            return Some(());
        }
        if line == b"end" && ends {
            self.end_pair()?;
            self.stage = Done;
            return Some(());
        }
        None
    }
}

/// The file, or the number of the line that is refused. Names of tables and columns are given as the file spells them.
pub fn read_stats(bytes: &[u8], tables: &[Vec<u8>], columns: &[Vec<Vec<u8>>]) -> Result<Draft, u32> {
    let mut draft = Draft { stage: Stage::Start, accuracy: 0, tables: Vec::new(), pair: None, same_filter: None, same_joined: None };
    let mut line = 1;
    let mut rest = bytes;
    while let Some(end) = rest.iter().position(|byte| *byte == b'\n') {
        draft.take(&rest[..end], tables, columns).ok_or(line)?;
        rest = &rest[end + 1..];
        line += 1;
    }
    if rest.is_empty() && draft.stage == Stage::Done { Ok(draft) } else { Err(line) }
}
