//! The header's examples, its statuses, and what a query's names may be.

use safebound::{
    append, compress, cut, degree_sequence, degree_sequence_of_keys, greater, joined_rows, lesser, Bound, Error, Join,
    JoinKind, Query, Run,
};
use std::collections::VecDeque;
use std::path::Path;

fn runs<const N: usize>(pairs: [(u64, u64); N]) -> Vec<Run> {
    pairs.map(Run::from).to_vec()
}

/// Entries 0 to n - 1 with these rows and no equalities, so that the bound of each set is a product.
fn products(rows: &[u64]) -> Query {
    let mut query = Query::new();
    for (at, &number) in rows.iter().enumerate() {
        query = query.entry(at.to_string(), number);
    }
    query
}

#[test]
fn lists() -> Result<(), Error> {
    assert_eq!(degree_sequence_of_keys(&[8, 8, 8, 8, 8, 2, 2, 2, 5])?, runs([(5, 1), (3, 1), (1, 1)]));
    assert_eq!(compress(&runs([(5, 1), (4, 1), (3, 1), (1, 1)]), 1)?, runs([(5, 2), (3, 1)]));
    assert_eq!(append(&runs([(3, 1), (1, 2)]), &runs([(2, 2)]))?, runs([(5, 1), (3, 1), (1, 1)]));
    assert_eq!(lesser(&runs([(3, 2)]), &runs([(4, 1), (1, 2)]))?, runs([(3, 1), (2, 1), (1, 1)]));
    assert_eq!(greater(&runs([(3, 1), (1, 1)]), &runs([(2, 2), (1, 1)]))?, runs([(3, 1), (2, 1), (1, 1)]));
    assert_eq!(cut(&runs([(5, 1), (4, 1)]), 7)?, runs([(5, 1), (2, 1)]));
    assert_eq!(cut(&runs([(5, 1), (4, 1)]), 0)?, []);
    assert_eq!(degree_sequence_of_keys(&[])?, []);
    assert_eq!(compress(&[], 1)?, []);
    assert_eq!(append(&[], &[])?, []);
    Ok(())
}

#[test]
fn joined_tables() -> Result<(), Error> {
    let [inner, left, right] = [12, 6, 5].map(Bound::Rows);
    for (kind, most) in
        [(JoinKind::Left, 18), (JoinKind::Right, 17), (JoinKind::Full, 23), (JoinKind::Semi, 6), (JoinKind::Anti, 6)]
    {
        assert_eq!(joined_rows(kind, inner, left, right)?, Bound::Rows(most));
    }
    assert_eq!(joined_rows(JoinKind::Full, Bound::NoBound, left, right)?, Bound::NoBound);
    assert_eq!(joined_rows(JoinKind::Semi, Bound::NoBound, left, right)?, left);
    Ok(())
}

#[test]
fn values_of_any_kind() -> Result<(), Error> {
    assert_eq!(degree_sequence(["a", "b", "a"])?, runs([(2, 1), (1, 1)]));
    assert_eq!(degree_sequence([None, Some((1, 'x')), Some((1, 'x'))].iter().flatten())?, runs([(2, 1)]));
    assert_eq!(degree_sequence(Vec::<String>::new())?, []);
    let keys: Vec<u64> = (0..200).flat_map(|key| vec![key << 40; key as usize % 20]).collect();
    assert_eq!(degree_sequence(keys.iter().map(u64::to_string))?, degree_sequence_of_keys(&keys)?);
    assert_eq!(degree_sequence_of_keys(&keys)?.len(), 19);
    Ok(())
}

/// Whatever has one value for each row is a column. A set or a map isn't one: see `ColumnValues`.
#[test]
fn columns_of_any_kind() -> Result<(), Error> {
    let (list, wanted) = (vec![8, 8, 2], runs([(2, 1), (1, 1)]));
    let (queue, array) = (VecDeque::from(list.clone()), ["8", "8", "2"].map(String::from));
    assert_eq!(degree_sequence(&list)?, wanted);
    assert_eq!(degree_sequence(list.as_slice())?, wanted);
    assert_eq!(degree_sequence(&array)?, degree_sequence(array)?);
    assert_eq!(degree_sequence(&queue)?, wanted);
    assert_eq!(degree_sequence(queue)?, wanted);
    let mut rows: Box<dyn Iterator<Item = i32>> = Box::new(list.into_iter());
    assert_eq!(rows.next(), Some(8));
    assert_eq!(degree_sequence(&mut rows)?, runs([(1, 2)]));
    Ok(())
}

#[test]
fn two_entries() -> Result<(), Error> {
    let query = Query::new()
        .entry("r", 6)
        .entry("s", 5)
        .equality(("r", "x"), ("s", "x"))
        .list(("r", "x"), &runs([(3, 2)]))
        .list(("s", "x"), &runs([(2, 2), (1, 1)]));
    let bounds = query.bounds()?;
    assert_eq!(bounds.sets().map(|(_, bound)| bound.rows()).collect::<Vec<_>>(), [1, 6, 5, 12].map(Some));
    assert_eq!(bounds.of(["s", "r", "s"])?, Bound::Rows(12));
    assert_eq!(bounds.of([])?, Bound::Rows(1));
    assert_eq!(bounds.of(["r", "t"]), Err(Error::UnknownEntry { entry: "t".into() }));
    assert_eq!(bounds.entries(), ["r", "s"]);
    Ok(())
}

/// Rows 2, 3 and 5: the order begins with the least, and the tree joins 0 with 1 first.
#[test]
fn plans() -> Result<(), Error> {
    let query = products(&[2, 3, 5]);
    let order = query.best_order(30)?;
    assert_eq!(
        (order.entries.as_slice(), order.levels.as_slice()),
        (["0", "1", "2"].map(String::from).as_slice(), [2, 6, 30].as_slice())
    );
    assert_eq!(order.cost(), 30);
    let tree = query.best_tree(30)?;
    assert_eq!(tree.joins, [Join { left: 0, right: 1, bound: 6 }, Join { left: 3, right: 2, bound: 30 }]);
    assert_eq!((tree.shape().to_string().as_str(), tree.cost()), ("((0, 1), 2)", 30));
    let alone = products(&[7]);
    assert_eq!(alone.best_order(7)?.levels, [7]);
    let tree = alone.best_tree(7)?;
    assert_eq!((tree.shape().to_string().as_str(), tree.cost()), ("0", 7));
    assert_eq!(tree.joins, []);
    Ok(())
}

/// A triangle: three equalities that close a cycle.
#[test]
fn a_cycle() -> Result<(), Error> {
    let mut query = Query::new();
    for entry in ["r", "s", "t"] {
        query = query.entry(entry, 3);
        for column in ["x", "y"] {
            query = query.list((entry, column), &runs([(2, 1), (1, 1)]));
        }
    }
    for (left, right) in [(("r", "x"), ("s", "x")), (("s", "y"), ("t", "x")), (("t", "y"), ("r", "y"))] {
        query = query.equality(left, right);
    }
    let bounds = query.bounds()?;
    assert_eq!(bounds.sets().map(|(_, bound)| bound.rows()).collect::<Vec<_>>(), [1, 3, 3, 5, 3, 5, 5, 9].map(Some));
    assert_eq!(bounds.best_tree(9)?.shape().to_string(), "(r, (s, t))");
    Ok(())
}

#[test]
fn no_bound_is_above_each_number() -> Result<(), Error> {
    let large = products(&[1 << 40, 1 << 40]);
    assert_eq!(large.bounds()?.of_set(3), Bound::NoBound);
    assert!(Bound::NoBound > Bound::Rows(u64::MAX));
    assert_eq!((large.best_order(1 << 59), large.best_tree(1 << 59)), (Err(Error::PastBits), Err(Error::PastBits)));
    Ok(())
}

/// An empty table has lists without runs. In a column with the list (1, 1) one row has a value, and at most this row is joined.
#[test]
fn no_rows_and_no_values() -> Result<(), Error> {
    for (rows, list, joined) in [(0, vec![], 0), (6, runs([(1, 1)]), 2)] {
        let query = Query::new().entry("r", rows).entry("s", 5).equality(("r", "x"), ("s", "x"));
        let query = query.list(("r", "x"), &list).list(("s", "x"), &runs([(2, 2), (1, 1)]));
        assert_eq!(query.bounds()?.of(["r", "s"])?, Bound::Rows(joined));
    }
    let query = Query::new().entry("r", 6).entry("s", 5).equality(("r", "x"), ("s", "x"));
    let query = query.no_values(("r", "x")).list(("s", "x"), &runs([(2, 2), (1, 1)]));
    assert_eq!((query.bound_of(["r"])?, query.bound_of(["r", "s"])?), (Bound::Rows(6), Bound::Rows(0)));
    Ok(())
}

/// The header's examples of one set, and of a limit.
#[test]
fn one_set_and_a_limit() -> Result<(), Error> {
    let query = Query::new().entry("r", 6).entry("s", 5).equality(("r", "x"), ("s", "x"));
    let query = query.list(("r", "x"), &runs([(3, 2)])).list(("s", "x"), &runs([(2, 2), (1, 1)]));
    assert_eq!(query.bound_of(["r", "s"])?, Bound::Rows(12));
    assert_eq!(query.bound_of([])?, Bound::Rows(1));
    assert_eq!(query.bound_of(["t"]), Err(Error::UnknownEntry { entry: "t".into() }));
    assert_eq!(query.bounds_within(6), Err(Error::WorkExceeded { least: 7 }));
    assert_eq!(query.bounds_within(7)?, query.bounds()?);
    Ok(())
}

#[test]
fn version_is_this_one() -> Result<(), Error> {
    assert_eq!(safebound::version()?, env!("CARGO_PKG_VERSION"));
    Ok(())
}

#[test]
fn numbers_are_those_of_the_header() {
    let header = Path::new(env!("CARGO_MANIFEST_DIR")).join("../../include/safebound.h");
    let text = std::fs::read_to_string(header).expect("the header");
    let kinds = [
        ("SAFEBOUND_LEFT_JOIN", safebound_sys::SAFEBOUND_LEFT_JOIN),
        ("SAFEBOUND_RIGHT_JOIN", safebound_sys::SAFEBOUND_RIGHT_JOIN),
        ("SAFEBOUND_FULL_JOIN", safebound_sys::SAFEBOUND_FULL_JOIN),
        ("SAFEBOUND_SEMI_JOIN", safebound_sys::SAFEBOUND_SEMI_JOIN),
        ("SAFEBOUND_ANTI_JOIN", safebound_sys::SAFEBOUND_ANTI_JOIN),
    ];
    for (name, number) in safebound_sys::STATUSES {
        assert!(text.contains(&format!("    {name} = {number}")), "{name}");
    }
    for (name, number) in kinds {
        assert!(text.contains(&format!("    {name} = {number}")), "{name}");
    }
    assert_eq!(
        text.lines().filter(|line| line.starts_with("    SAFEBOUND_") && line.contains(" = ")).count(),
        safebound_sys::STATUSES.len() + kinds.len()
    );
}
