//! The query of examples/films, planned from lists.
//!
//!     SELECT .. FROM PERSON P, CAST_INFO CI, TITLE T, MOVIE_COMPANY MC, COMPANY C
//!     WHERE CI.PERSON = P.ID AND CI.TITLE = T.ID AND MC.TITLE = T.ID AND MC.COMPANY = C.ID
//!       AND CI.PART = 'director' AND C.COUNTRY = 'NO'
//!
//! A planner has its own access to the values of a column. This program reads them from the files of that folder:
//!
//!     cargo run --manifest-path rust/Cargo.toml --example films -- examples/films

use safebound::{compress, degree_sequence, Bounds, Error, Query};
use std::{env, fs, io};

/// The entries, each with its file and, if there is one, the condition on it: a column and its value.
type Condition = Option<(&'static str, &'static str)>;
const ENTRIES: [(&str, &str, Condition); 5] = [
    ("P", "person.csv", None),
    ("CI", "cast_info.csv", Some(("PART", "director"))),
    ("T", "title.csv", None),
    ("MC", "movie_company.csv", None),
    ("C", "company.csv", Some(("COUNTRY", "NO"))),
];

type Column = (&'static str, &'static str);
const EQUALITIES: [(Column, Column); 4] = [
    (("CI", "PERSON"), ("P", "ID")),
    (("CI", "TITLE"), ("T", "ID")),
    (("MC", "TITLE"), ("T", "ID")),
    (("MC", "COMPANY"), ("C", "ID")),
];

/// A table file. The fields of these files have no quotes.
struct Table {
    header: Vec<String>,
    rows: Vec<Vec<String>>,
}

impl Table {
    fn read(path: &str) -> io::Result<Table> {
        let text = fs::read_to_string(path)?;
        let mut lines = text
            .lines()
            .map(|line| line.split(',').map(str::to_owned).collect());
        Ok(Table {
            header: lines.next().unwrap_or_default(),
            rows: lines.collect(),
        })
    }

    fn values<'a>(&'a self, column: &str) -> impl Iterator<Item = &'a str> {
        let at = self
            .header
            .iter()
            .position(|name| name == column)
            .expect("a column of the file");
        self.rows.iter().map(move |row| row[at].as_str())
    }

    /// The rows in which a column has this value.
    fn filtered(self, column: &str, value: &str) -> Table {
        let pass: Vec<bool> = self.values(column).map(|found| found == value).collect();
        let rows = self
            .rows
            .into_iter()
            .zip(pass)
            .filter(|(_, passes)| *passes)
            .map(|(row, _)| row)
            .collect();
        Table {
            header: self.header,
            rows,
        }
    }
}

/// The query: the number of rows of each entry, and lists with few runs.
fn query_over(folder: &str) -> Result<Query, Box<dyn std::error::Error>> {
    let mut query = Query::new();
    let mut joined: Vec<Column> = EQUALITIES
        .iter()
        .flat_map(|&(left, right)| [left, right])
        .collect();
    joined.sort_unstable();
    joined.dedup();
    for (entry, file, condition) in ENTRIES {
        let mut table = Table::read(&format!("{folder}/{file}"))?;
        if let Some((column, value)) = condition {
            table = table.filtered(column, value);
        }
        query = query.entry(entry, table.rows.len() as u64);
        for &(of, column) in joined.iter().filter(|(of, _)| *of == entry) {
            query = query.list(
                (of, column),
                &compress(&degree_sequence(table.values(column))?, 1)?,
            );
        }
    }
    for (left, right) in EQUALITIES {
        query = query.equality(left, right);
    }
    Ok(query)
}

fn print_order(bounds: &Bounds, budget: u64) -> Result<(), Error> {
    let order = match bounds.best_order(budget) {
        Err(Error::BudgetExceeded { least }) => {
            println!("no order within {budget} rows: {least} would do");
            return Ok(());
        }
        answer => answer?,
    };
    println!("best order");
    for (entry, level) in order.entries.iter().zip(&order.levels) {
        println!("  {entry} {level}");
    }
    Ok(())
}

fn print_tree(bounds: &Bounds, budget: u64) -> Result<(), Error> {
    let tree = bounds.best_tree(budget)?;
    let joins = (0..tree.joins.len()).map(|i| format!("join {i}"));
    let names: Vec<String> = tree.entries.iter().cloned().chain(joins).collect();
    println!("best tree");
    for (i, join) in tree.joins.iter().enumerate() {
        println!(
            "  join {i}: {} {} {}",
            names[join.left], names[join.right], join.bound
        );
    }
    Ok(())
}

fn main() -> Result<(), Box<dyn std::error::Error>> {
    let folder = env::args()
        .nth(1)
        .unwrap_or_else(|| "examples/films".into());
    let bounds = query_over(&folder)?.bounds()?;
    println!(
        "all five joined: at most {} rows",
        bounds.of(ENTRIES.map(|(entry, _, _)| entry))?
    );
    print_order(&bounds, 1_000_000)?;
    print_tree(&bounds, 1_000_000)?;
    print_order(&bounds, 1000)?;
    Ok(())
}
