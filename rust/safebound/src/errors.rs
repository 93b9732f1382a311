//! Errors. They name the entries and columns of a query, not their numbers.

use crate::calls::Refusal;
use crate::lists::Run;
use safebound_sys as sys;
use std::fmt;

/// A column of an entry, both by name: `("film", "id").into()`.
#[derive(Clone, Debug, PartialEq, Eq, Hash, PartialOrd, Ord)]
pub struct Column {
    /// The entry's name.
    pub entry: String,
    /// A name that tells the columns of one entry apart.
    pub name: String,
}

impl<E: Into<String>, N: Into<String>> From<(E, N)> for Column {
    fn from((entry, name): (E, N)) -> Column {
        Column { entry: entry.into(), name: name.into() }
    }
}

impl fmt::Display for Column {
    fn fmt(&self, f: &mut fmt::Formatter<'_>) -> fmt::Result {
        write!(f, "{}.{}", self.entry, self.name)
    }
}

/// What is wrong with the first wrong run of a list.
#[non_exhaustive]
#[derive(Clone, Copy, Debug, PartialEq, Eq, Hash)]
pub enum WrongRun {
    /// Its degree is 0.
    NoDegree,
    /// Its number of keys is 0.
    NoKeys,
    /// Its degree is above that of the run before it.
    Rises {
        /// The degree of the run before it.
        before: u64,
        /// Its own degree.
        degree: u64,
    },
    /// The degrees up to this run sum to more than 2^48 rows.
    PastRows,
}

impl WrongRun {
    fn of(runs: &[Run], place: usize) -> WrongRun {
        let Run { degree, keys } = runs[place];
        match place.checked_sub(1).map(|at| runs[at].degree) {
            _ if degree == 0 => WrongRun::NoDegree,
            _ if keys == 0 => WrongRun::NoKeys,
            Some(before) if degree > before => WrongRun::Rises { before, degree },
            _ => WrongRun::PastRows,
        }
    }

    fn write(self, f: &mut fmt::Formatter<'_>, head: &str, place: usize) -> fmt::Result {
        match self {
            WrongRun::NoDegree => write!(f, "{head}run {place} has degree 0"),
            WrongRun::NoKeys => write!(f, "{head}run {place} has no keys"),
            WrongRun::Rises { before, degree } => {
                write!(f, "{head}the list rises at run {place}: degree {degree} after {before}")
            }
            WrongRun::PastRows => write!(f, "{head}at run {place} the list sums to more than 2^48 rows"),
        }
    }
}

/// What is wrong with a query's list.
#[non_exhaustive]
#[derive(Clone, Copy, Debug, PartialEq, Eq, Hash)]
pub enum WrongList {
    /// The query doesn't have its entry.
    UnknownEntry,
    /// It has no runs.
    NoRuns,
    /// Its column has another list already.
    Repeated,
}

/// What is wrong with an equality.
#[non_exhaustive]
#[derive(Clone, Copy, Debug, PartialEq, Eq, Hash)]
pub enum WrongEquality {
    /// The query doesn't have one of its entries.
    UnknownEntry,
    /// Both sides are of one entry.
    OneEntry,
}

/// Why there is no result. After each error nothing has changed.
#[non_exhaustive]
#[derive(Clone, Debug, PartialEq, Eq, Hash)]
pub enum Error {
    /// The best plan exceeds the budget.
    BudgetExceeded {
        /// The least budget that would do, in rows. It may be above 2^59, the greatest budget that is accepted.
        least: u64,
    },
    /// The work exceeds the limit.
    WorkExceeded {
        /// The least limit that would do.
        least: u64,
    },
    /// Each plan has a part without a bound, or a number has more than 64 bits.
    PastBits,
    /// There was too little memory in the library, or for its result. If Rust's own collections have too little memory, for
    /// example for the names of a query, the program ends as usual.
    OutOfMemory,

    /// There are more than 2^48 keys.
    BadKeys {
        /// How many.
        count: u64,
    },
    /// The accuracy isn't from 1 to 64.
    BadAccuracy {
        /// What it is.
        accuracy: u64,
    },
    /// A run's degree or number of keys is 0, its degree is above the one before it, or the sum so far is above 2^48.
    BadRun {
        /// The run's number in its list, from 0.
        place: usize,
        /// The column whose list it is; `None` outside of a query.
        column: Option<Column>,
        /// What is wrong with it.
        why: WrongRun,
    },
    /// As [`BadRun`](Error::BadRun), in the second of two lists.
    BadOtherRun {
        /// The run's number in the second list, from 0.
        place: usize,
        /// What is wrong with it.
        why: WrongRun,
    },
    /// The result of two lists has more than 2^48 rows.
    BadSum {
        /// How many rows the result has.
        sum: u64,
    },
    /// A query has no entry, or more than sixteen.
    BadEntries {
        /// How many.
        count: usize,
    },
    /// Two entries of a query have the same name.
    RepeatedEntry {
        /// That name.
        entry: String,
    },
    /// A set names an entry that the query doesn't have.
    UnknownEntry {
        /// That name.
        entry: String,
    },
    /// An entry's row bound is above 2^48.
    BadRows {
        /// The entry's name.
        entry: String,
        /// What it is.
        rows: u64,
    },
    /// A query has more than 256 equalities.
    BadEqualities {
        /// How many.
        count: usize,
    },
    /// An equality names an entry that isn't there, or one entry on both sides.
    BadEquality {
        /// The equality's number, from 0.
        place: usize,
        /// Its left side.
        left: Column,
        /// Its right side.
        right: Column,
        /// What is wrong with it.
        why: WrongEquality,
    },
    /// A list is of an entry that isn't there, has no runs, or is the second of its column.
    BadList {
        /// The list's column.
        column: Column,
        /// What is wrong with it.
        why: WrongList,
    },
    /// A column that an equality names has no list.
    MissingList {
        /// The equality's number, from 0.
        place: usize,
        /// The column without a list. If both sides have none, it is the left one.
        column: Column,
    },
    /// The budget is above 2^59.
    BadBudget {
        /// What it is.
        budget: u64,
    },
    /// The order or the tree isn't a plan over these bounds. Other bounds made it, or it was changed since it was made.
    BadPlan,
    /// The library returned a status that this crate doesn't know, so the library has another version.
    OtherVersion {
        /// The status that it returned.
        status: u32,
    },
}

impl Error {
    /// A run that is refused in the list of a query's column, or in a list outside of a query.
    pub(crate) fn bad_run(runs: &[Run], place: usize, column: Option<Column>) -> Error {
        Error::BadRun { place, column, why: WrongRun::of(runs, place) }
    }

    /// What a refusal of one or two lists says.
    pub(crate) fn of_lists(refusal: Refusal, runs: &[Run], others: &[Run]) -> Error {
        let place = refusal.detail as usize;
        match refusal.status {
            sys::SAFEBOUND_BAD_RUN => Error::bad_run(runs, place, None),
            sys::SAFEBOUND_BAD_OTHER_RUN => Error::BadOtherRun { place, why: WrongRun::of(others, place) },
            _ => Error::from_refusal(refusal),
        }
    }

    /// What a refusal says, if its place needs no names and no runs.
    pub(crate) fn from_refusal(Refusal { status, detail }: Refusal) -> Error {
        let place = detail as usize;
        match status {
            sys::SAFEBOUND_BUDGET => Error::BudgetExceeded { least: detail },
            sys::SAFEBOUND_WORK => Error::WorkExceeded { least: detail },
            sys::SAFEBOUND_PAST_BITS => Error::PastBits,
            sys::SAFEBOUND_NO_MEMORY => Error::OutOfMemory,
            sys::SAFEBOUND_BAD_KEYS => Error::BadKeys { count: detail },
            sys::SAFEBOUND_BAD_ACCURACY => Error::BadAccuracy { accuracy: detail },
            sys::SAFEBOUND_BAD_SUM => Error::BadSum { sum: detail },
            sys::SAFEBOUND_BAD_ENTRIES => Error::BadEntries { count: place },
            sys::SAFEBOUND_BAD_EQUALITIES => Error::BadEqualities { count: place },
            sys::SAFEBOUND_BAD_BUDGET => Error::BadBudget { budget: detail },
            sys::SAFEBOUND_BAD_LEVELS
            | sys::SAFEBOUND_BAD_LEVEL
            | sys::SAFEBOUND_BAD_JOINS
            | sys::SAFEBOUND_BAD_JOIN => Error::BadPlan,
            _ => Error::OtherVersion { status },
        }
    }
}

impl fmt::Display for Error {
    fn fmt(&self, f: &mut fmt::Formatter<'_>) -> fmt::Result {
        match self {
            Error::BudgetExceeded { least } => {
                write!(f, "the best plan has a part of at most {least} rows, which is the least budget that would do")
            }
            Error::WorkExceeded { least } => write!(f, "the work is {least}, which is the least limit that would do"),
            Error::PastBits => write!(f, "each plan has a part without a bound"),
            Error::OutOfMemory => write!(f, "memory was wanting"),
            Error::BadKeys { count } => write!(f, "{count} keys are more than 2^48"),
            Error::BadAccuracy { accuracy } => write!(f, "an accuracy is from 1 to 64, not {accuracy}"),
            Error::BadRun { place, column: None, why } => why.write(f, "", *place),
            Error::BadRun { place, column: Some(column), why } => why.write(f, &format!("{column}: "), *place),
            Error::BadOtherRun { place, why } => why.write(f, "second list: ", *place),
            Error::BadSum { sum } => write!(f, "what both lists make has {sum} rows, more than 2^48"),
            Error::BadEntries { count } => write!(
                f,
                "a query has 1 to {} entries, or 1 to {} for the bytes of its plan, not {count}",
                sys::SAFEBOUND_MOST_ENTRIES,
                sys::SAFEBOUND_ENGINE_ENTRIES
            ),
            Error::RepeatedEntry { entry } => write!(f, "entry {entry} comes twice"),
            Error::UnknownEntry { entry } => write!(f, "there is no entry {entry}"),
            Error::BadRows { entry, rows } => {
                write!(f, "the row bound of entry {entry} is {rows}, which is above 2^48")
            }
            Error::BadEqualities { count } => write!(f, "a query has at most 256 equalities, not {count}"),
            Error::BadEquality { place, left, right, why } => {
                let wrong = match why {
                    WrongEquality::UnknownEntry => "names an entry that isn't there",
                    WrongEquality::OneEntry => "has one entry on both sides",
                };
                write!(f, "equality {place}, {left} = {right}, {wrong}")
            }
            Error::BadList { column, why: WrongList::UnknownEntry } => {
                write!(f, "there is a list of {column}, and no entry {}", column.entry)
            }
            Error::BadList { column, why: WrongList::NoRuns } => write!(f, "the list of {column} has no runs"),
            Error::BadList { column, why: WrongList::Repeated } => write!(f, "{column} has two lists"),
            Error::MissingList { place, column } => write!(f, "{column} of equality {place} has no list"),
            Error::BadBudget { budget } => write!(f, "a budget is from 0 to 2^59, not {budget}"),
            Error::BadPlan => write!(f, "the plan isn't one of these bounds"),
            Error::OtherVersion { status } => {
                write!(f, "the library answers {status}: it is of another version than this crate")
            }
        }
    }
}

impl std::error::Error for Error {}
