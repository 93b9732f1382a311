//! Row bounds of joins that are never too low, and the best plans by them.
//!
//! SafeBound's library for Rust. You say of a query how many rows each entry has at most, and how often the values of each
//! joined column repeat:
//!
//! ```
//! use safebound::{degree_sequence, Bound, Query};
//!
//! let query = Query::new()
//!     .entry("r", 6)
//!     .entry("s", 5)
//!     .equality(("r", "x"), ("s", "x"))
//!     .list(("r", "x"), &degree_sequence([1, 1, 1, 2, 2, 3])?)
//!     .list(("s", "x"), &degree_sequence([1, 1, 4, 5, 6])?);
//! let bounds = query.bounds()?;
//! assert_eq!(bounds.of(["r", "s"])?, Bound::Rows(9));
//! assert_eq!(bounds.best_order(1_000_000)?.levels, [5, 9]);
//! # Ok::<(), safebound::Error>(())
//! ```
//!
//! With the feature `command` there is also the whole program over files in memory, `Command`: plans, rows and audits of a
//! query in SQL over tables in CSV.
//!
//! The bounds are proved; this crate around them is tested. No call keeps anything, so any number of threads may call at
//! once. Numbers of rows have 64 bits.

#![deny(unsafe_code)]

mod bounds;
mod calls;
#[cfg(feature = "command")]
mod command;
mod errors;
mod joins;
mod lists;
mod plans;
mod query;

pub use bounds::{Bound, Bounds};
pub use calls::version;
#[cfg(feature = "command")]
pub use command::{Command, Output};
pub use errors::{Column, Error, WrongEquality, WrongList, WrongRun};
pub use joins::{joined_rows, JoinKind};
pub use lists::{append, compress, cut, degree_sequence, degree_sequence_of_keys, greater, lesser};
pub use lists::{ByIterator, ByRows, ColumnValues, Run};
pub use plans::{Join, Order, Shape, Tree};
pub use query::Query;
