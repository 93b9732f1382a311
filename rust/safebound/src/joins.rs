//! Rows of outer joins, semi-joins and anti-joins.

use crate::bounds::Bound;
use crate::calls;
use crate::errors::Error;
use safebound_sys as sys;

/// How two sides are joined, other than by an inner join.
#[derive(Clone, Copy, Debug, PartialEq, Eq, Hash)]
pub enum JoinKind {
    /// The left outer join.
    Left,
    /// The right outer join.
    Right,
    /// The full outer join.
    Full,
    /// The rows of the left side that have a match, as EXISTS keeps them.
    Semi,
    /// The rows of the left side that have no match, as NOT EXISTS keeps them.
    Anti,
}

impl JoinKind {
    fn number(self) -> u64 {
        match self {
            JoinKind::Left => sys::SAFEBOUND_LEFT_JOIN,
            JoinKind::Right => sys::SAFEBOUND_RIGHT_JOIN,
            JoinKind::Full => sys::SAFEBOUND_FULL_JOIN,
            JoinKind::Semi => sys::SAFEBOUND_SEMI_JOIN,
            JoinKind::Anti => sys::SAFEBOUND_ANTI_JOIN,
        }
    }
}

/// How many rows an outer join, a semi-join or an anti-join has at most. For an outer join that is `inner` plus the bound of
/// each side of which the join keeps every row. For a semi-join it is the lesser of `inner` and `left`, and for an anti-join
/// `left`.
///
/// `inner` is a bound of the inner join of both sides by the same condition. `left` and `right` are bounds of all rows of the
/// sides. A condition in ON that names only one side mustn't lower them: an outer join and an anti-join keep rows that fail
/// it.
///
/// ```
/// use safebound::{joined_rows, Bound, JoinKind};
///
/// let rows = joined_rows(JoinKind::Left, Bound::Rows(12), Bound::Rows(6), Bound::Rows(5))?;
/// assert_eq!(rows, Bound::Rows(18));
/// # Ok::<(), safebound::Error>(())
/// ```
///
/// # Errors
///
/// Only [`Error::OtherVersion`].
pub fn joined_rows(kind: JoinKind, inner: Bound, left: Bound, right: Bound) -> Result<Bound, Error> {
    let rows = calls::joined_rows(kind.number(), inner.number(), left.number(), right.number());
    rows.map(Bound::of_number).map_err(Error::from_refusal)
}
