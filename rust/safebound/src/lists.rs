//! Lists of a column: how often its values repeat, as runs.

use crate::calls;
use crate::errors::Error;
use std::collections::{HashMap, VecDeque};
use std::hash::Hash;

/// `keys` different values of a column, each of which occurs in `degree` rows.
///
/// A list of runs says how often the values of a column repeat, the most frequent first: (5, 1), (2, 3) is one value in five
/// rows and three values in two rows each. A list is valid if each number is at least 1, no degree is above the one before
/// it, and all degrees sum to at most 2^48.
#[repr(C)]
#[derive(Clone, Copy, Debug, Default, PartialEq, Eq, Hash, PartialOrd, Ord)]
pub struct Run {
    /// In how many rows each key occurs.
    pub degree: u64,
    /// How many keys there are.
    pub keys: u64,
}

impl From<(u64, u64)> for Run {
    /// A degree and a number of keys.
    fn from((degree, keys): (u64, u64)) -> Run {
        Run { degree, keys }
    }
}

/// What has one value for each row of a column: an iterator, a `Vec`, a slice, an array or a `VecDeque`.
///
/// A set isn't a column, and neither is a map. Each has a value once, however many rows have it, so the list would be too low.
///
/// ```compile_fail,E0277
/// safebound::degree_sequence(std::collections::HashSet::from([1, 2]));
/// ```
///
/// ```compile_fail,E0277
/// safebound::degree_sequence(std::collections::BTreeMap::from([(1, "a"), (2, "b")]));
/// ```
///
/// `Way` tells the implementations apart. It is inferred.
#[diagnostic::on_unimplemented(
    message = "`{Self}` is no column: a column has one value for each row",
    note = "iterators, `Vec`s, slices, arrays and `VecDeque`s are columns; sets and maps have each value once"
)]
pub trait ColumnValues<Way>: IntoIterator {}

/// The way of iterators.
#[derive(Debug)]
pub enum ByIterator {}

/// The way of collections with one element for each row.
#[derive(Debug)]
pub enum ByRows {}

impl<I: Iterator> ColumnValues<ByIterator> for I {}
impl<V> ColumnValues<ByRows> for Vec<V> {}
impl<V> ColumnValues<ByRows> for &Vec<V> {}
impl<V> ColumnValues<ByRows> for &[V] {}
impl<V, const N: usize> ColumnValues<ByRows> for [V; N] {}
impl<V, const N: usize> ColumnValues<ByRows> for &[V; N] {}
impl<V> ColumnValues<ByRows> for VecDeque<V> {}
impl<V> ColumnValues<ByRows> for &VecDeque<V> {}

/// The degree sequence of a column: how many rows have each of its values.
///
/// `values` are the column's values, one for each row that has one, in any order. Rows without a value (NULL) are left out:
/// for a column of `Option`s give `column.iter().flatten()`. Floats aren't `Eq`: give the bits of each float, with the same
/// bits for both zeros and for all NaNs.
///
/// The runs have different degrees, which sum to the number of values. [`ColumnValues`] says what is a column.
///
/// ```
/// use safebound::{degree_sequence, Run};
///
/// let country = [Some("NO"), None, Some("FR"), Some("NO")];
/// let runs = degree_sequence(country.iter().flatten())?;
/// assert_eq!(runs, [Run { degree: 2, keys: 1 }, Run { degree: 1, keys: 1 }]);
/// # Ok::<(), safebound::Error>(())
/// ```
///
/// # Errors
///
/// [`Error::BadKeys`] for more than 2^48 values, [`Error::OutOfMemory`].
pub fn degree_sequence<V: Hash + Eq, Way>(values: impl ColumnValues<Way, Item = V>) -> Result<Vec<Run>, Error> {
    let mut numbers = HashMap::new();
    let mut keys: Vec<u64> = Vec::new();
    for value in values {
        let next = numbers.len() as u64;
        keys.push(*numbers.entry(value).or_insert(next));
    }
    degree_sequence_of_keys(&keys)
}

/// The degree sequence of a column whose values are numbers already: any 64 bits are a key. The column isn't copied.
///
/// ```
/// let runs = safebound::degree_sequence_of_keys(&[8, 8, 8, 8, 8, 2, 2, 2, 5])?;
/// assert_eq!(runs, [(5, 1), (3, 1), (1, 1)].map(safebound::Run::from));
/// # Ok::<(), safebound::Error>(())
/// ```
///
/// # Errors
///
/// As [`degree_sequence`].
pub fn degree_sequence_of_keys(keys: &[u64]) -> Result<Vec<Run>, Error> {
    // n different degrees sum to at least n (n + 1) / 2.
    let room = (2.0 * keys.len() as f64).sqrt() as usize;
    calls::degrees(keys, room).map_err(Error::from_refusal)
}

/// A few runs that dominate a list. Bounds over them are valid, and are computed faster.
///
/// The runs sum to as many rows as the list. At `accuracy` K, from 1 to 64, each degree is at most (K + 1) / K times the list's
/// degree at the same rank. There are at most K times as many runs as the first degree has binary digits, and one more.
///
/// ```
/// use safebound::{compress, Run};
///
/// let few = compress(&[(5, 1), (4, 1), (3, 1), (1, 1)].map(Run::from), 1)?;
/// assert_eq!(few, [(5, 2), (3, 1)].map(Run::from));
/// # Ok::<(), safebound::Error>(())
/// ```
///
/// # Errors
///
/// [`Error::BadAccuracy`], [`Error::BadRun`], [`Error::OutOfMemory`].
pub fn compress(runs: &[Run], accuracy: u64) -> Result<Vec<Run>, Error> {
    calls::compress(runs, accuracy).map_err(|refusal| Error::of_lists(refusal, runs, &[]))
}

/// The rank-wise sum of two lists. From a list of a column's old rows and one of rows that came later, it makes a list of all
/// these rows, whichever values repeat.
///
/// From a list of the rows that satisfy condition A and a list of those that satisfy condition B, it makes a list of those that
/// satisfy A OR B.
///
/// ```
/// use safebound::{append, Run};
///
/// let both = append(&[(3, 1), (1, 2)].map(Run::from), &[(2, 2)].map(Run::from))?;
/// assert_eq!(both, [(5, 1), (3, 1), (1, 1)].map(Run::from));
/// # Ok::<(), safebound::Error>(())
/// ```
///
/// # Errors
///
/// [`Error::BadRun`] for a run of the first list, [`Error::BadOtherRun`] for one of the second, [`Error::BadSum`] if both
/// together have more than 2^48 rows, [`Error::OutOfMemory`].
pub fn append(runs: &[Run], others: &[Run]) -> Result<Vec<Run>, Error> {
    calls::append(runs, others).map_err(|refusal| Error::of_lists(refusal, runs, others))
}

/// The lesser of two lists. From a list of the rows that satisfy condition A and a list of those that satisfy condition B, it
/// makes a list of those that satisfy A AND B.
///
/// The sum of its first r degrees is the lesser of the sums of the two lists' first r degrees. (The lesser degree at each rank
/// would be too low.)
///
/// ```
/// use safebound::{lesser, Run};
///
/// let both = lesser(&[(3, 2)].map(Run::from), &[(4, 1), (1, 2)].map(Run::from))?;
/// assert_eq!(both, [(3, 1), (2, 1), (1, 1)].map(Run::from));
/// # Ok::<(), safebound::Error>(())
/// ```
///
/// # Errors
///
/// [`Error::BadRun`] for a run of the first list, [`Error::BadOtherRun`] for one of the second, [`Error::OutOfMemory`].
pub fn lesser(runs: &[Run], others: &[Run]) -> Result<Vec<Run>, Error> {
    calls::lesser(runs, others).map_err(|refusal| Error::of_lists(refusal, runs, others))
}

/// A list for the rows of any one of two values, from a list of the rows of each value.
///
/// It has the greater degree at each rank. For the rows of both values together take [`append`].
///
/// ```
/// use safebound::{greater, Run};
///
/// let any = greater(&[(3, 1), (1, 1)].map(Run::from), &[(2, 2), (1, 1)].map(Run::from))?;
/// assert_eq!(any, [(3, 1), (2, 1), (1, 1)].map(Run::from));
/// # Ok::<(), safebound::Error>(())
/// ```
///
/// # Errors
///
/// [`Error::BadRun`] for a run of the first list, [`Error::BadOtherRun`] for one of the second, [`Error::BadSum`] if the
/// greater degrees sum to more than 2^48 rows, [`Error::OutOfMemory`].
pub fn greater(runs: &[Run], others: &[Run]) -> Result<Vec<Run>, Error> {
    calls::greater(runs, others).map_err(|refusal| Error::of_lists(refusal, runs, others))
}

/// A list that is cut at a number of rows. It dominates any rows that the list dominates, if there are at most that many.
/// It has the list's degrees while their sum is within that number, and then one degree for the rest of the number.
///
/// ```
/// use safebound::{cut, Run};
///
/// let few = cut(&[(5, 1), (4, 1)].map(Run::from), 7)?;
/// assert_eq!(few, [(5, 1), (2, 1)].map(Run::from));
/// # Ok::<(), safebound::Error>(())
/// ```
///
/// # Errors
///
/// [`Error::BadRun`], [`Error::OutOfMemory`].
pub fn cut(runs: &[Run], rows: u64) -> Result<Vec<Run>, Error> {
    calls::cut(runs, rows).map_err(|refusal| Error::of_lists(refusal, runs, &[]))
}
