//! The best plans over bounds.

use crate::bounds::SetBounds;
use std::fmt;
use std::sync::Arc;

/// A left-deep order: `levels[k]` is the bound of the first k + 1 of `entries`, in rows. The order knows the bounds over which it
/// is a plan.
#[derive(Clone, PartialEq, Eq, Hash)]
pub struct Order {
    /// The entries in the order in which they are joined.
    pub entries: Vec<String>,
    /// For each entry, the bound of this entry and all before it.
    pub levels: Vec<u64>,
    /// The bounds over which it is a plan.
    pub(crate) bounds: Arc<SetBounds>,
}

impl Order {
    /// The greatest level: the least budget for this order.
    pub fn cost(&self) -> u64 {
        self.levels.iter().copied().max().unwrap_or(0)
    }
}

/// A node of a tree: the numbers of the two nodes that it joins, and its bound in rows.
#[derive(Clone, Copy, Debug, PartialEq, Eq, Hash)]
pub struct Join {
    /// A node that it joins.
    pub left: usize,
    /// The other one.
    pub right: usize,
    /// The bound of all entries below it, in rows.
    pub bound: u64,
}

/// A join tree over n entries. The nodes 0 to n - 1 are `entries`, and node n + i is `joins[i]`. Each join comes after the
/// joins below it, and the last join is the root. The tree knows the bounds over which it is a plan.
#[derive(Clone, PartialEq, Eq, Hash)]
pub struct Tree {
    /// The entries in the query's order.
    pub entries: Vec<String>,
    /// The joins, one fewer than entries.
    pub joins: Vec<Join>,
    /// The bounds over which it is a plan.
    pub(crate) bounds: Arc<SetBounds>,
}

impl Tree {
    /// The greatest bound of its joins, or the bound of its only entry: the least budget for this tree.
    ///
    /// ```
    /// # let query = safebound::Query::new().entry("a", 9).entry("b", 2);
    /// assert_eq!(query.best_tree(1_000_000)?.cost(), 18);
    /// # Ok::<(), safebound::Error>(())
    /// ```
    pub fn cost(&self) -> u64 {
        self.joins.iter().map(|join| join.bound).max().unwrap_or_else(|| self.bounds.rows()[0])
    }

    /// The tree from its root.
    ///
    /// ```
    /// # let query = safebound::Query::new().entry("a", 9).entry("b", 2).entry("c", 3);
    /// assert_eq!(query.best_tree(1_000_000)?.shape().to_string(), "(a, (b, c))");
    /// # Ok::<(), safebound::Error>(())
    /// ```
    pub fn shape(&self) -> Shape<'_> {
        self.shape_of(self.entries.len() + self.joins.len() - 1)
    }

    fn shape_of(&self, node: usize) -> Shape<'_> {
        match self.entries.get(node) {
            Some(entry) => Shape::Entry(entry),
            None => {
                let join = self.joins[node - self.entries.len()];
                Shape::Join(Box::new(self.shape_of(join.left)), Box::new(self.shape_of(join.right)))
            }
        }
    }
}

/// An entry, or the join of two shapes.
#[derive(Clone, Debug, PartialEq, Eq, Hash)]
pub enum Shape<'a> {
    /// A leaf: an entry's name.
    Entry(&'a str),
    /// The two shapes that are joined, left and right.
    Join(Box<Shape<'a>>, Box<Shape<'a>>),
}

impl fmt::Display for Shape<'_> {
    fn fmt(&self, f: &mut fmt::Formatter<'_>) -> fmt::Result {
        match self {
            Shape::Entry(name) => write!(f, "{name}"),
            Shape::Join(left, right) => write!(f, "({left}, {right})"),
        }
    }
}

impl fmt::Debug for Order {
    fn fmt(&self, f: &mut fmt::Formatter<'_>) -> fmt::Result {
        f.debug_struct("Order").field("entries", &self.entries).field("levels", &self.levels).finish_non_exhaustive()
    }
}

impl fmt::Debug for Tree {
    fn fmt(&self, f: &mut fmt::Formatter<'_>) -> fmt::Result {
        f.debug_struct("Tree").field("entries", &self.entries).field("joins", &self.joins).finish_non_exhaustive()
    }
}
