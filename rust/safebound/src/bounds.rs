//! Bounds of sets of entries.

use crate::calls;
use crate::errors::Error;
use crate::plans::{Join, Order, Tree};
use safebound_sys as sys;
use std::fmt;
use std::sync::Arc;

/// A bound of a number of rows. There is no bound if 64 bits don't hold the number. "No bound" is the greatest value, so
/// `bound <= Bound::Rows(n)` is true only if at most n rows are promised.
#[derive(Clone, Copy, Debug, PartialEq, Eq, Hash, PartialOrd, Ord)]
pub enum Bound {
    /// At most this many rows.
    Rows(u64),
    /// Nothing is known.
    NoBound,
}

impl Bound {
    /// The number of rows, if there is a bound.
    pub fn rows(self) -> Option<u64> {
        match self {
            Bound::Rows(rows) => Some(rows),
            Bound::NoBound => None,
        }
    }

    pub(crate) fn number(self) -> u64 {
        self.rows().unwrap_or(sys::SAFEBOUND_NO_BOUND)
    }

    pub(crate) fn of_number(number: u64) -> Bound {
        if number == sys::SAFEBOUND_NO_BOUND {
            return Bound::NoBound;
        }
        Bound::Rows(number)
    }
}

impl fmt::Display for Bound {
    fn fmt(&self, f: &mut fmt::Formatter<'_>) -> fmt::Result {
        match self {
            Bound::Rows(rows) => write!(f, "{rows}"),
            Bound::NoBound => write!(f, "no bound"),
        }
    }
}

/// What `Bounds` are made of: the names of the entries, and a number for each set. Plans over these bounds share it.
#[derive(Debug, PartialEq, Eq, Hash)]
pub(crate) struct SetBounds {
    entries: Vec<String>,
    numbers: Vec<u64>,
}

impl SetBounds {
    /// The row bound of each entry.
    pub(crate) fn rows(&self) -> Vec<u64> {
        (0..self.entries.len()).map(|entry| self.numbers[1 << entry]).collect()
    }

    fn place(&self, name: &str) -> Option<usize> {
        self.entries.iter().position(|entry| entry == name)
    }
}

/// The bounds of all sets of a query's entries. A choice has one row of each entry of a set. At most as many choices as the
/// bound satisfy all equalities between these entries.
#[derive(Clone, Debug, PartialEq, Eq, Hash)]
pub struct Bounds(Arc<SetBounds>);

impl Bounds {
    pub(crate) fn new(entries: Vec<String>, numbers: Vec<u64>) -> Bounds {
        Bounds(Arc::new(SetBounds { entries, numbers }))
    }

    /// The names of the entries, in the query's order.
    pub fn entries(&self) -> &[String] {
        &self.0.entries
    }

    /// The bound of a set of entries, which are given by name. A name may be repeated.
    ///
    /// ```
    /// # let query = safebound::Query::new().entry("film", 3).entry("person", 4);
    /// let bound = query.bounds()?.of(["film", "person"])?;
    /// assert_eq!(bound.rows(), Some(12));
    /// # Ok::<(), safebound::Error>(())
    /// ```
    ///
    /// # Errors
    ///
    /// [`Error::UnknownEntry`].
    pub fn of<'a>(&self, names: impl IntoIterator<Item = &'a str>) -> Result<Bound, Error> {
        let mut set = 0;
        for name in names {
            set |= 1 << self.0.place(name).ok_or_else(|| Error::UnknownEntry { entry: name.into() })?;
        }
        Ok(self.of_set(set))
    }

    /// The bound of a set, given as the number whose bit i is 1 if entry i is in the set. The empty set has bound 1.
    ///
    /// A search for a join order calls this for each set that it looks at. The call only reads a stored number.
    ///
    /// ```
    /// # use safebound::{Bound, Query};
    /// # let query = Query::new().entry("film", 3).entry("person", 4);
    /// # let (left, right, guess) = (1, 2, 50);
    /// let bounds = query.bounds()?; // once for a query
    /// let rows = bounds.of_set(left | right).min(Bound::Rows(guess)); // for each join that is tried
    /// # assert_eq!(rows, Bound::Rows(12));
    /// # Ok::<(), safebound::Error>(())
    /// ```
    ///
    /// # Panics
    ///
    /// If a bit is set that belongs to no entry.
    pub fn of_set(&self, set: usize) -> Bound {
        Bound::of_number(self.0.numbers[set])
    }

    /// All sets with their bounds, from the empty one on.
    pub fn sets(&self) -> impl ExactSizeIterator<Item = (usize, Bound)> + '_ {
        self.0.numbers.iter().enumerate().map(|(set, &number)| (set, Bound::of_number(number)))
    }

    /// The best left-deep order: its greatest level is least. Among such orders it has the least sum of levels, and then it is
    /// the first by the numbers of its entries.
    ///
    /// `budget` is the greatest bound that a level may have, from 0 to 2^59.
    ///
    /// # Errors
    ///
    /// [`Error::BudgetExceeded`] with the least budget that would do; [`Error::PastBits`] if each order has a level without
    /// a bound; [`Error::BadBudget`], [`Error::OutOfMemory`].
    pub fn best_order(&self, budget: u64) -> Result<Order, Error> {
        let levels = calls::order(&self.0.numbers, budget).map_err(Error::from_refusal)?;
        Ok(Order {
            entries: levels.iter().map(|level| self.entries()[level.entry as usize].clone()).collect(),
            levels: levels.iter().map(|level| level.bound).collect(),
            bounds: self.0.clone(),
        })
    }

    /// The best join tree of any shape: the greatest bound of its joins is least, and among such trees the sum of their
    /// bounds. safebound.h says how further ties are decided.
    ///
    /// `budget` is the greatest bound that a join may have, from 0 to 2^59.
    ///
    /// # Errors
    ///
    /// As [`best_order`](Bounds::best_order).
    pub fn best_tree(&self, budget: u64) -> Result<Tree, Error> {
        let joins = calls::tree(&self.0.numbers, budget).map_err(Error::from_refusal)?;
        let join = |node: &sys::safebound_join| Join {
            left: node.left as usize,
            right: node.right as usize,
            bound: node.bound,
        };
        let joins = joins.iter().map(join).collect();
        Ok(Tree { entries: self.entries().to_vec(), joins, bounds: self.0.clone() })
    }

    /// How many bytes the buffers of SafeBound's own engine take for an order of these entries. The number is the sum, over
    /// all buffers and lists of buffers, of capacity times the size of an element. It is the same on every machine.
    ///
    /// ```
    /// # use safebound::Query;
    /// # let query = Query::new().entry("r", 6).entry("s", 5);
    /// let bounds = query.bounds()?;
    /// let order = bounds.best_order(1_000_000)?;
    /// assert!(bounds.memory_of_order(&order)? > 0);
    /// # Ok::<(), safebound::Error>(())
    /// ```
    ///
    /// # Errors
    ///
    /// [`Error::BadPlan`] if other bounds made the order, or if its entries or levels were changed; [`Error::PastBits`] if the
    /// number has more than 64 bits.
    pub fn memory_of_order(&self, order: &Order) -> Result<u64, Error> {
        let levels = self.levels(order).ok_or(Error::BadPlan)?;
        calls::memory(&self.0.rows(), &levels).map_err(Error::from_refusal)
    }

    /// How many bytes these buffers take for a join tree of these entries.
    ///
    /// # Errors
    ///
    /// As [`memory_of_order`](Bounds::memory_of_order).
    pub fn memory_of_tree(&self, tree: &Tree) -> Result<u64, Error> {
        let joins = self.joins(tree).ok_or(Error::BadPlan)?;
        calls::tree_memory(&self.0.rows(), &joins).map_err(Error::from_refusal)
    }

    /// The levels of an order, if these bounds made it and it wasn't changed.
    fn levels(&self, order: &Order) -> Option<Vec<sys::safebound_level>> {
        let mut set = 0;
        let mut level = |(name, &bound): (&String, &u64)| {
            let entry = self.0.place(name)?;
            let is_new = set >> entry & 1 == 0;
            set |= 1 << entry;
            (is_new && bound == self.0.numbers[set]).then_some(sys::safebound_level { entry: entry as u64, bound })
        };
        let is_unchanged =
            order.bounds == self.0 && [order.entries.len(), order.levels.len()] == [self.entries().len(); 2];
        let levels = order.entries.iter().zip(&order.levels).map(&mut level).collect::<Option<Vec<_>>>()?;
        is_unchanged.then_some(levels)
    }

    /// The joins of a tree, if these bounds made it and it wasn't changed.
    fn joins(&self, tree: &Tree) -> Option<Vec<sys::safebound_join>> {
        let mut sets: Vec<usize> = (0..self.entries().len()).map(|entry| 1 << entry).collect();
        let mut node = |&Join { left, right, bound }: &Join| {
            let (one, other) = (*sets.get(left)?, *sets.get(right)?);
            sets.push(one | other);
            let is_valid = one & other == 0 && bound == self.0.numbers[one | other];
            is_valid.then_some(sys::safebound_join { left: left as u64, right: right as u64, bound })
        };
        let joins = tree.joins.iter().map(&mut node).collect::<Option<Vec<_>>>()?;
        let is_unchanged =
            tree.bounds == self.0 && tree.entries == self.entries() && sets.last() == Some(&(self.0.numbers.len() - 1));
        is_unchanged.then_some(joins)
    }
}
