//! The declarations of SafeBound's header. The header, safebound.h, says what each call does, and lists its ranges and
//! statuses. The crate `safebound` has the same calls without `unsafe`.
//!
//! # Safety
//!
//! For each call: a pointer is aligned and not null, even if its length is 0, and points to as many elements as its length
//! or its room says. What is written overlaps nothing else that the call gets, and no other thread changes what it reads.

#![no_std]
#![allow(non_camel_case_types)]

use core::ffi::{c_char, c_void};

#[cfg(feature = "command")]
mod command;
#[cfg(feature = "command")]
pub use command::*;

// Limits. tools/limits takes their numbers from the crate limits.
/// The most entries of a query, for bounds and plans.
pub const SAFEBOUND_MOST_ENTRIES: usize = 16;
/// The most entries of a plan whose bytes in SafeBound's own engine can be computed.
pub const SAFEBOUND_ENGINE_ENTRIES: usize = 12;
/// The most equalities of a query.
pub const SAFEBOUND_MOST_EQUALITIES: usize = 256;
/// In how many turns a set is bounded, at most.
pub const SAFEBOUND_MOST_TURNS: usize = 16;
/// The greatest accuracy.
pub const SAFEBOUND_MOST_ACCURACY: u64 = 64;
/// The most rows of an entry, keys of a column, and rows of a list.
pub const SAFEBOUND_MOST_ROWS: u64 = 1 << 48;
/// The greatest budget, in rows.
pub const SAFEBOUND_MOST_BUDGET: u64 = 1 << 59;
/// No bound is known. It also stands for every bound that 64 bits don't hold.
pub const SAFEBOUND_NO_BOUND: u64 = u64::MAX;
/// The `first` of a column's list if no row has a value in the column.
pub const SAFEBOUND_NO_VALUES: u64 = u64::MAX;

/// The result of a call. It says what number the call writes to `*detail`.
pub type safebound_status = u32;

macro_rules! statuses {
    ($($name:ident = $number:literal, $meaning:literal;)*) => {
        $(#[doc = $meaning] pub const $name: safebound_status = $number;)*
        /// Each status by name, for tests that compare them with the header.
        pub const STATUSES: &[(&str, safebound_status)] = &[$((stringify!($name), $number)),*];
    };
}

statuses! {
    SAFEBOUND_OK = 0, "`detail` is how many elements were written, or the number that the call is asked for.";
    SAFEBOUND_ROOM = 1, "The room is too small; `detail` is what is needed.";
    SAFEBOUND_NO_MEMORY = 2, "There was too little memory.";
    SAFEBOUND_BUDGET = 3, "The best plan passes the budget; `detail` is the least budget that would do.";
    SAFEBOUND_PAST_BITS = 4, "Each plan has a part without a bound, or the number has more than 64 bits.";
    SAFEBOUND_WORK = 5, "The work passes the limit; `detail` is the limit that would do.";
    SAFEBOUND_BAD_KEYS = 16, "`detail` is the number of keys.";
    SAFEBOUND_BAD_ACCURACY = 17, "`detail` is the accuracy.";
    SAFEBOUND_BAD_RUN = 18, "`detail` is an element of `runs`.";
    SAFEBOUND_BAD_OTHER_RUN = 19, "`detail` is an element of `others`.";
    SAFEBOUND_BAD_SUM = 20, "`detail` is the sum of what two lists make.";
    SAFEBOUND_BAD_ENTRIES = 21, "`detail` is the number of entries.";
    SAFEBOUND_BAD_ROWS = 22, "`detail` is an element of `rows`.";
    SAFEBOUND_BAD_EQUALITIES = 23, "`detail` is the number of equalities.";
    SAFEBOUND_BAD_EQUALITY = 24, "`detail` is an element of `equalities`.";
    SAFEBOUND_BAD_LIST = 25, "`detail` is an element of `lists`.";
    SAFEBOUND_MISSING_LIST = 26, "`detail` is an element of `equalities`, of which a column has no list.";
    SAFEBOUND_BAD_BOUNDS = 27, "`detail` is the number of bounds.";
    SAFEBOUND_BAD_BUDGET = 28, "`detail` is the budget.";
    SAFEBOUND_BAD_LEVELS = 29, "`detail` is the number of levels.";
    SAFEBOUND_BAD_LEVEL = 30, "`detail` is an element of `levels`.";
    SAFEBOUND_BAD_JOINS = 31, "`detail` is the number of joins.";
    SAFEBOUND_BAD_JOIN = 32, "`detail` is an element of `joins`.";
    SAFEBOUND_BAD_SET = 33, "`detail` is the set.";
    SAFEBOUND_BAD_JOIN_KIND = 34, "`detail` is the kind of a join.";
}

/// The left outer join, of [`safebound_joined_rows`].
pub const SAFEBOUND_LEFT_JOIN: u64 = 1;
/// The right outer join.
pub const SAFEBOUND_RIGHT_JOIN: u64 = 2;
/// The full outer join.
pub const SAFEBOUND_FULL_JOIN: u64 = 3;
/// The rows of the left side that are joined.
pub const SAFEBOUND_SEMI_JOIN: u64 = 4;
/// The rows of the left side that are not joined.
pub const SAFEBOUND_ANTI_JOIN: u64 = 5;

/// `keys` different keys, each of which occurs in `degree` rows.
#[repr(C)]
#[derive(Clone, Copy, Debug, Default, PartialEq, Eq, Hash)]
pub struct safebound_run {
    /// In how many rows each key stands.
    pub degree: u64,
    /// How many keys there are.
    pub keys: u64,
}

/// An equality between columns of two different entries.
#[repr(C)]
#[derive(Clone, Copy, Debug, Default, PartialEq, Eq, Hash)]
pub struct safebound_equality {
    /// The number of the left entry, from 0.
    pub left_entry: u32,
    /// Any number that tells the columns of the left entry apart.
    pub left_column: u32,
    /// The number of the right entry, from 0.
    pub right_entry: u32,
    /// Any number that tells the columns of the right entry apart.
    pub right_column: u32,
}

/// The list of an entry's column: `length` elements of the call's `runs`, from the element `first` on.
#[repr(C)]
#[derive(Clone, Copy, Debug, Default, PartialEq, Eq, Hash)]
pub struct safebound_list {
    /// The number of the entry, from 0.
    pub entry: u32,
    /// The column's number, as in the equalities.
    pub column: u32,
    /// Its first element of `runs`, or `SAFEBOUND_NO_VALUES`.
    pub first: u64,
    /// How many runs it has: at least 1, or 0 if no row has a value.
    pub length: u64,
}

/// One level of an order.
#[repr(C)]
#[derive(Clone, Copy, Debug, Default, PartialEq, Eq, Hash)]
pub struct safebound_level {
    /// The entry that is joined there.
    pub entry: u64,
    /// The bound of all entries up to it, in rows.
    pub bound: u64,
}

/// A node of a join tree.
#[repr(C)]
#[derive(Clone, Copy, Debug, Default, PartialEq, Eq, Hash)]
pub struct safebound_join {
    /// A node that it joins.
    pub left: u64,
    /// The other one.
    pub right: u64,
    /// Its bound in rows.
    pub bound: u64,
}

/// The result of a request for memory (safebound_memory.h): `at` is only read if `given` is true.
#[repr(C)]
#[derive(Clone, Copy, Debug)]
pub struct rattle_memory {
    /// Whether there was memory.
    pub given: bool,
    /// Where it is.
    pub at: *mut c_void,
}

extern "C" {
    /// The degree sequence of a column.
    pub fn safebound_degrees(
        keys: *const u64,
        keys_length: usize,
        into: *mut safebound_run,
        room: usize,
        detail: *mut u64,
    ) -> safebound_status;

    /// Few runs that dominate a list.
    pub fn safebound_compress(
        runs: *const safebound_run,
        runs_length: usize,
        accuracy: u64,
        into: *mut safebound_run,
        room: usize,
        detail: *mut u64,
    ) -> safebound_status;

    /// The rank-wise sum of two lists.
    pub fn safebound_append(
        runs: *const safebound_run,
        runs_length: usize,
        others: *const safebound_run,
        others_length: usize,
        into: *mut safebound_run,
        room: usize,
        detail: *mut u64,
    ) -> safebound_status;

    /// The lesser of two lists.
    pub fn safebound_lesser(
        runs: *const safebound_run,
        runs_length: usize,
        others: *const safebound_run,
        others_length: usize,
        into: *mut safebound_run,
        room: usize,
        detail: *mut u64,
    ) -> safebound_status;

    /// The greater of two lists, rank by rank.
    pub fn safebound_greater(
        runs: *const safebound_run,
        runs_length: usize,
        others: *const safebound_run,
        others_length: usize,
        into: *mut safebound_run,
        room: usize,
        detail: *mut u64,
    ) -> safebound_status;

    /// A list that is cut at a number of rows.
    pub fn safebound_cut(
        runs: *const safebound_run,
        runs_length: usize,
        rows: u64,
        into: *mut safebound_run,
        room: usize,
        detail: *mut u64,
    ) -> safebound_status;

    /// The bounds of all sets of entries, in rows.
    pub fn safebound_bounds(
        rows: *const u64,
        entries: usize,
        equalities: *const safebound_equality,
        equalities_length: usize,
        lists: *const safebound_list,
        lists_length: usize,
        runs: *const safebound_run,
        runs_length: usize,
        into: *mut u64,
        room: usize,
        detail: *mut u64,
    ) -> safebound_status;

    /// The bounds of all sets of entries, if the work is within a limit.
    pub fn safebound_bounds_within(
        rows: *const u64,
        entries: usize,
        equalities: *const safebound_equality,
        equalities_length: usize,
        lists: *const safebound_list,
        lists_length: usize,
        runs: *const safebound_run,
        runs_length: usize,
        limit: u64,
        into: *mut u64,
        room: usize,
        detail: *mut u64,
    ) -> safebound_status;

    /// The bound of one set of entries.
    pub fn safebound_set_bound(
        rows: *const u64,
        entries: usize,
        equalities: *const safebound_equality,
        equalities_length: usize,
        lists: *const safebound_list,
        lists_length: usize,
        runs: *const safebound_run,
        runs_length: usize,
        set: u64,
        detail: *mut u64,
    ) -> safebound_status;

    /// How many rows an outer join, a semi-join or an anti-join has at most.
    pub fn safebound_joined_rows(kind: u64, inner: u64, left: u64, right: u64, detail: *mut u64) -> safebound_status;

    /// The best left-deep order over bounds of all sets.
    pub fn safebound_order(
        bounds: *const u64,
        bounds_length: usize,
        budget: u64,
        into: *mut safebound_level,
        room: usize,
        detail: *mut u64,
    ) -> safebound_status;

    /// The best join tree of any shape over bounds of all sets.
    pub fn safebound_tree(
        bounds: *const u64,
        bounds_length: usize,
        budget: u64,
        into: *mut safebound_join,
        room: usize,
        detail: *mut u64,
    ) -> safebound_status;

    /// How many bytes the buffers of SafeBound's own engine take for an order.
    pub fn safebound_memory(
        rows: *const u64,
        entries: usize,
        levels: *const safebound_level,
        levels_length: usize,
        detail: *mut u64,
    ) -> safebound_status;

    /// How many bytes these buffers take for a join tree.
    pub fn safebound_tree_memory(
        rows: *const u64,
        entries: usize,
        joins: *const safebound_join,
        joins_length: usize,
        detail: *mut u64,
    ) -> safebound_status;

    /// The library's version as text, with a 0 at its end.
    pub fn safebound_version(into: *mut c_char, room: usize, detail: *mut u64) -> safebound_status;

    /// The text of a status.
    pub fn safebound_status_text(status: safebound_status) -> *const c_char;
}
