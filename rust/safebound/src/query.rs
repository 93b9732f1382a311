//! Queries, given by what is known of their rows.

use crate::bounds::{Bound, Bounds};
use crate::calls::{self, Numbers, Refusal};
use crate::errors::{Column, Error, WrongEquality, WrongList};
use crate::lists::Run;
use crate::plans::{Order, Tree};
use safebound_sys as sys;
use std::collections::HashMap;

/// The number of an entry that the query doesn't have. The library refuses this number, if its earlier checks find no fault.
const NO_ENTRY: u32 = u32::MAX;

/// A query of up to sixteen entries, by what is known of their rows: the entries with their row bounds, the equalities, and a
/// list for each column that an equality names.
///
/// Other conditions aren't given. A condition on one entry may lower its row bound and its lists; leaving out a condition makes
/// no bound too low. If a value isn't valid, [`bounds`](Query::bounds) returns an error.
///
/// Each method that adds a part takes the query and gives it back, so that a query is made in one expression. In a loop write
/// `query = query.entry(..)`.
///
/// ```
/// use safebound::{Error, Query, Run};
///
/// let query = Query::new()
///     .entry("r", 6)
///     .entry("s", 5)
///     .equality(("r", "x"), ("s", "x"))
///     .list(("r", "x"), &[(3, 2)].map(Run::from))
///     .list(("s", "x"), &[(2, 2), (1, 1)].map(Run::from));
/// assert_eq!(query.best_order(12)?.entries, ["s", "r"]);
/// assert_eq!(query.best_tree(11), Err(Error::BudgetExceeded { least: 12 }));
/// # Ok::<(), Error>(())
/// ```
#[derive(Clone, Debug, Default, PartialEq, Eq, Hash)]
pub struct Query {
    entries: Vec<(String, u64)>,
    equalities: Vec<(Column, Column)>,
    lists: Vec<(Column, Option<Vec<Run>>)>,
}

impl Query {
    /// A query without entries.
    pub fn new() -> Query {
        Query::default()
    }

    /// Adds an entry, and how many rows it has at most: 0 to 2^48. A table that is joined with itself is two entries.
    ///
    /// The row bound must not be an estimate, since each bound rests on it. The table's number of rows is always valid.
    pub fn entry(mut self, name: impl Into<String>, row_bound: u64) -> Query {
        self.entries.push((name.into(), row_bound));
        self
    }

    /// Adds an equality between columns of two different entries. A query has at most 256 equalities.
    pub fn equality(mut self, left: impl Into<Column>, right: impl Into<Column>) -> Query {
        self.equalities.push((left.into(), right.into()));
        self
    }

    /// The list of a column: runs that dominate its values, as [`degree_sequence`](crate::degree_sequence),
    /// [`compress`](crate::compress) and [`append`](crate::append) give them.
    ///
    /// If the list sums to less than the entry's row bound, the other rows are taken for rows without a value, which join with
    /// nothing. If it sums to more, it is cut there, so the list of a whole table serves for some of its rows. A list
    /// without runs is refused unless the row bound is 0, since the caller may have forgotten to fill it. For a column in
    /// which no row has a value there is [`no_values`](Query::no_values).
    pub fn list(mut self, column: impl Into<Column>, runs: &[Run]) -> Query {
        self.lists.push((column.into(), Some(runs.to_vec())));
        self
    }

    /// Says that no row has a value in this column, in place of the column's list.
    pub fn no_values(mut self, column: impl Into<Column>) -> Query {
        self.lists.push((column.into(), None));
        self
    }

    /// The bounds of all sets of entries.
    ///
    /// # Errors
    ///
    /// If a value isn't valid, `BadEntries`, `RepeatedEntry`, `BadRows`, `BadEqualities`, `BadEquality`, `BadList`, `BadRun` or
    /// `MissingList`. [`Error::OutOfMemory`].
    pub fn bounds(&self) -> Result<Bounds, Error> {
        let names = self.names()?;
        let numbers = calls::bounds(&self.numbers()).map_err(|refusal| self.error(refusal))?;
        Ok(Bounds::new(names, numbers))
    }

    /// The bounds of all sets of entries, if the work is within a limit. The work is counted before it begins. Each set is
    /// bounded in as many turns as it has equalities, but in at least one and at most 16. The work of a turn is 1 plus the
    /// number of runs in the two lists of each of the set's equalities.
    ///
    /// # Errors
    ///
    /// [`Error::WorkExceeded`], and the errors of `bounds`.
    pub fn bounds_within(&self, limit: u64) -> Result<Bounds, Error> {
        let names = self.names()?;
        let numbers = calls::bounds_within(&self.numbers(), limit).map_err(|refusal| self.error(refusal))?;
        Ok(Bounds::new(names, numbers))
    }

    /// The bound of one set of entries: the same as [`bounds`](Query::bounds) has for it, but no other set is bounded. A name
    /// may be repeated.
    ///
    /// # Errors
    ///
    /// [`Error::UnknownEntry`], and the errors of `bounds`.
    pub fn bound_of<'a>(&self, names: impl IntoIterator<Item = &'a str>) -> Result<Bound, Error> {
        let entries = self.names()?;
        let mut set = 0;
        for name in names {
            let place = entries.iter().position(|entry| entry == name);
            let place = place.ok_or_else(|| Error::UnknownEntry { entry: name.into() })?;
            set |= 1u64.checked_shl(place as u32).unwrap_or(0);
        }
        let number = calls::set_bound(&self.numbers(), set).map_err(|refusal| self.error(refusal))?;
        Ok(Bound::of_number(number))
    }

    /// The names of the entries, each once.
    fn names(&self) -> Result<Vec<String>, Error> {
        let names: Vec<String> = self.entries.iter().map(|(name, _)| name.clone()).collect();
        for (at, name) in names.iter().enumerate() {
            if names[..at].contains(name) {
                return Err(Error::RepeatedEntry { entry: name.clone() });
            }
        }
        Ok(names)
    }

    /// The best left-deep order: [`Bounds::best_order`]. If you want a tree too, call [`bounds`](Query::bounds) once for both.
    ///
    /// # Errors
    ///
    /// As `bounds` and [`Bounds::best_order`].
    pub fn best_order(&self, budget: u64) -> Result<Order, Error> {
        self.bounds()?.best_order(budget)
    }

    /// The best join tree of any shape: [`Bounds::best_tree`].
    ///
    /// # Errors
    ///
    /// As `bounds` and [`Bounds::best_tree`].
    pub fn best_tree(&self, budget: u64) -> Result<Tree, Error> {
        self.bounds()?.best_tree(budget)
    }

    /// The query as the library takes it.
    fn numbers(&self) -> Numbers {
        let mut names = Names { entries: &self.entries, columns: HashMap::new() };
        let mut made = Numbers { rows: self.entries.iter().map(|(_, rows)| *rows).collect(), ..Numbers::default() };
        for (left, right) in &self.equalities {
            made.equalities.push(sys::safebound_equality {
                left_entry: names.entry(left),
                left_column: names.column(left),
                right_entry: names.entry(right),
                right_column: names.column(right),
            });
        }
        for (column, runs) in &self.lists {
            let own = runs.as_deref().unwrap_or(&[]);
            let first =
                if self.has_no_values(column, runs) { sys::SAFEBOUND_NO_VALUES } else { made.runs.len() as u64 };
            made.lists.push(sys::safebound_list {
                entry: names.entry(column),
                column: names.column(column),
                first,
                length: own.len() as u64,
            });
            made.runs.extend_from_slice(own);
        }
        made
    }

    /// Whether no row has a value in a column. In an entry without rows, a list without runs says so too.
    fn has_no_values(&self, column: &Column, runs: &Option<Vec<Run>>) -> bool {
        let is_empty = |entry: &(String, u64)| entry.0 == column.entry && entry.1 == 0;
        match runs {
            None => true,
            Some(runs) => runs.is_empty() && self.entries.iter().any(is_empty),
        }
    }

    /// The error for a refusal, with the names of this query.
    fn error(&self, refusal: Refusal) -> Error {
        let at = refusal.detail as usize;
        match refusal.status {
            sys::SAFEBOUND_BAD_ROWS => {
                let (entry, rows) = self.entries[at].clone();
                Error::BadRows { entry, rows }
            }
            sys::SAFEBOUND_BAD_EQUALITY => self.bad_equality(at),
            sys::SAFEBOUND_MISSING_LIST => self.missing_list(at),
            sys::SAFEBOUND_BAD_LIST => self.bad_list(at),
            sys::SAFEBOUND_BAD_RUN => self.bad_run(at),
            _ => Error::from_refusal(refusal),
        }
    }

    fn bad_equality(&self, place: usize) -> Error {
        let (left, right) = self.equalities[place].clone();
        let why = if left.entry == right.entry && self.has(&left.entry) {
            WrongEquality::OneEntry
        } else {
            WrongEquality::UnknownEntry
        };
        Error::BadEquality { place, left, right, why }
    }

    fn missing_list(&self, place: usize) -> Error {
        let (left, right) = &self.equalities[place];
        let has_list = self.lists.iter().any(|(column, _)| column == left);
        Error::MissingList { place, column: if has_list { right } else { left }.clone() }
    }

    fn bad_list(&self, at: usize) -> Error {
        let (column, runs) = &self.lists[at];
        let why = if !self.has(&column.entry) {
            WrongList::UnknownEntry
        } else if runs.as_ref().is_some_and(Vec::is_empty) && !self.has_no_values(column, runs) {
            WrongList::NoRuns
        } else {
            WrongList::Repeated
        };
        Error::BadList { column: column.clone(), why }
    }

    fn has(&self, entry: &str) -> bool {
        self.entries.iter().any(|(name, _)| name == entry)
    }

    /// The error for a run, by its number among the runs of all lists: it names the list and the number there.
    fn bad_run(&self, mut place: usize) -> Error {
        for (column, runs) in &self.lists {
            let own = runs.as_deref().unwrap_or(&[]);
            if place < own.len() {
                return Error::bad_run(own, place, Some(column.clone()));
            }
            place -= own.len();
        }
        Error::OtherVersion { status: sys::SAFEBOUND_BAD_RUN }
    }
}

/// Numbers for names. Columns are numbered through the whole query, so those of one entry have different numbers.
struct Names<'a> {
    entries: &'a [(String, u64)],
    columns: HashMap<&'a Column, u32>,
}

impl<'a> Names<'a> {
    fn entry(&self, column: &Column) -> u32 {
        self.entries.iter().position(|(name, _)| *name == column.entry).map_or(NO_ENTRY, |at| at as u32)
    }

    fn column(&mut self, column: &'a Column) -> u32 {
        let next = self.columns.len() as u32;
        *self.columns.entry(column).or_insert(next)
    }
}
