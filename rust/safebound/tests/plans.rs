//! Plans belong to the bounds that made them. Other bounds refuse to compute the memory of such a plan. The same bounds refuse
//! it for a plan that was changed.

use safebound::{Bounds, Error, Query, Run};

fn pair(rows: [(&'static str, u64); 2]) -> Query {
    rows.into_iter().fold(Query::new(), |query, (entry, rows)| query.entry(entry, rows))
}

fn joined(rows: [(&'static str, u64); 2], degree: u64) -> Query {
    let query = pair(rows).equality(("r", "x"), ("s", "x"));
    query.list(("r", "x"), &[Run { degree, keys: 2 }]).list(("s", "x"), &[(2, 2), (1, 1)].map(Run::from))
}

/// The memory of an order and of a tree.
type Memories = (Result<u64, Error>, Result<u64, Error>);

/// The memory of both plans over the bounds `plans`, computed by the bounds `of`.
fn memory(of: &Bounds, plans: &Bounds) -> Result<Memories, Error> {
    let (order, tree) = (plans.best_order(1 << 59)?, plans.best_tree(1 << 59)?);
    Ok((of.memory_of_order(&order), of.memory_of_tree(&tree)))
}

/// The other plans take other numbers of bytes, though their entries, their positions and even their levels are the same.
#[test]
fn of_other_bounds() -> Result<(), Error> {
    let own = joined([("r", 6), ("s", 5)], 3).bounds()?;
    assert_eq!(memory(&own, &own)?, (Ok(531), Ok(507)));
    assert_eq!(memory(&own, &joined([("r", 6), ("s", 5)], 3).bounds()?)?, (Ok(531), Ok(507)));
    let others = [
        joined([("r", 60), ("s", 5)], 3),
        joined([("s", 5), ("r", 6)], 3),
        joined([("r", 6), ("s", 5)], 2),
        pair([("a", 6), ("b", 5)]),
        pair([("r", 5), ("s", 6)]),
        pair([("r", 6), ("s", 5)]).entry("t", 1),
    ];
    for other in others {
        assert_eq!(memory(&own, &other.bounds()?)?, (Err(Error::BadPlan), Err(Error::BadPlan)), "{other:?}");
    }
    // Rows of 6 and 5, and of 5 and 6: the same join of 30.
    let (one, other) = (pair([("r", 6), ("s", 5)]).bounds()?, pair([("r", 5), ("s", 6)]).bounds()?);
    assert_eq!(one.best_tree(30)?.joins, other.best_tree(30)?.joins);
    assert_eq!(memory(&one, &other)?, (Err(Error::BadPlan), Err(Error::BadPlan)));
    Ok(())
}

#[test]
fn changed_by_hand() -> Result<(), Error> {
    let own = joined([("r", 6), ("s", 5)], 3).bounds()?;
    let (order, tree) = (own.best_order(12)?, own.best_tree(12)?);
    let orders: [fn(&mut safebound::Order); 6] = [
        |order| order.levels[1] = 3,
        |order| order.levels.truncate(1),
        |order| order.entries.truncate(1),
        |order| order.entries.swap(0, 1),
        |order| order.entries[1] = order.entries[0].clone(),
        |order| order.entries[1] = "t".into(),
    ];
    for change in orders {
        let mut changed = order.clone();
        change(&mut changed);
        assert_eq!(own.memory_of_order(&changed), Err(Error::BadPlan), "{changed:?}");
        assert_ne!(changed, order);
    }
    let trees: [fn(&mut safebound::Tree); 6] = [
        |tree| tree.joins[0].bound = 3,
        |tree| tree.joins[0].left = 1,
        |tree| tree.joins[0].right = 2,
        |tree| tree.joins.clear(),
        |tree| tree.joins.push(tree.joins[0]),
        |tree| tree.entries.swap(0, 1),
    ];
    for change in trees {
        let mut changed = tree.clone();
        change(&mut changed);
        assert_eq!(own.memory_of_tree(&changed), Err(Error::BadPlan), "{changed:?}");
    }
    Ok(())
}
