//! Each wrong value gives an error that names its place.

use safebound::{
    append, compress, cut, greater, lesser, Column, Error, Query, Run, WrongEquality, WrongList, WrongRun,
};

const MOST_ROWS: u64 = 1 << 48;
const MOST_BUDGET: u64 = 1 << 59;

fn runs<const N: usize>(pairs: [(u64, u64); N]) -> Vec<Run> {
    pairs.map(Run::from).to_vec()
}

type Name = (&'static str, &'static str);

/// A query of three entries in a chain, which a test may change.
struct Chain {
    rows: Vec<(&'static str, u64)>,
    equalities: Vec<(Name, Name)>,
    lists: Vec<(Name, Vec<Run>)>,
}

fn chain() -> Chain {
    Chain {
        rows: vec![("r", 6), ("s", 5), ("t", 4)],
        equalities: vec![(("r", "x"), ("s", "x")), (("s", "y"), ("t", "x"))],
        lists: vec![
            (("r", "x"), runs([(3, 1), (2, 1)])),
            (("s", "x"), runs([(2, 2)])),
            (("s", "y"), runs([(2, 1), (1, 3)])),
            (("t", "x"), runs([(4, 1)])),
        ],
    }
}

impl Chain {
    fn query(&self) -> Query {
        let mut query = Query::new();
        for &(entry, rows) in &self.rows {
            query = query.entry(entry, rows);
        }
        for &(left, right) in &self.equalities {
            query = query.equality(left, right);
        }
        for (column, list) in &self.lists {
            query = query.list(*column, list);
        }
        query
    }

    /// The error that all three calls answer.
    fn error(&self) -> Error {
        let query = self.query();
        let told = query.bounds().expect_err("a wrong value");
        assert_eq!(query.best_order(MOST_BUDGET), Err(told.clone()));
        assert_eq!(query.best_tree(MOST_BUDGET), Err(told.clone()));
        told
    }
}

#[test]
fn accuracies() {
    for accuracy in [0, 65, u64::MAX] {
        assert_eq!(compress(&runs([(1, 1)]), accuracy), Err(Error::BadAccuracy { accuracy }));
    }
}

#[test]
fn runs_of_lists() {
    for (wrong, why) in [
        ((0, 1), WrongRun::NoDegree),
        ((1, 0), WrongRun::NoKeys),
        ((6, 1), WrongRun::Rises { before: 5, degree: 6 }),
        ((1, MOST_ROWS), WrongRun::PastRows),
        ((5, u64::MAX), WrongRun::PastRows),
    ] {
        let list = runs([(5, 1), wrong]);
        assert_eq!(compress(&list, 1), Err(Error::BadRun { place: 1, column: None, why }));
        assert_eq!(cut(&list, 3), Err(Error::BadRun { place: 1, column: None, why }));
        for of_both in [append, lesser, greater] {
            assert_eq!(of_both(&list, &[]), Err(Error::BadRun { place: 1, column: None, why }));
            assert_eq!(of_both(&[], &list), Err(Error::BadOtherRun { place: 1, why }));
        }
    }
    assert_eq!(append(&runs([(MOST_ROWS, 1)]), &runs([(1, 1)])), Err(Error::BadSum { sum: MOST_ROWS + 1 }));
    assert_eq!(greater(&runs([(MOST_ROWS, 1)]), &runs([(1, 2)])), Err(Error::BadSum { sum: MOST_ROWS + 1 }));
}

#[test]
fn entries() {
    for count in [0, 17, 64, 300] {
        let mut query = Query::new();
        for entry in 0..count {
            query = query.entry(format!("e{entry}"), 1);
        }
        assert_eq!(query.bounds(), Err(Error::BadEntries { count }));
    }
    let mut twice = chain();
    twice.rows.push(("s", 1));
    assert_eq!(twice.error(), Error::RepeatedEntry { entry: "s".into() });
}

#[test]
fn row_bounds() {
    for number in [MOST_ROWS + 1, u64::MAX] {
        for place in 0..3 {
            let mut wrong = chain();
            wrong.rows[place].1 = number;
            assert_eq!(wrong.error(), Error::BadRows { entry: wrong.rows[place].0.into(), rows: number });
        }
    }
}

#[test]
fn equalities() {
    for (wrong, why) in [
        ((("q", "x"), ("s", "x")), WrongEquality::UnknownEntry),
        ((("r", "x"), ("q", "x")), WrongEquality::UnknownEntry),
        ((("q", "x"), ("q", "x")), WrongEquality::UnknownEntry),
        ((("r", "x"), ("r", "x")), WrongEquality::OneEntry),
        ((("s", "x"), ("s", "y")), WrongEquality::OneEntry),
    ] {
        for place in 0..2 {
            let mut changed = chain();
            changed.equalities[place] = wrong;
            let (left, right) = (wrong.0.into(), wrong.1.into());
            assert_eq!(changed.error(), Error::BadEquality { place, left, right, why });
        }
    }
    let mut many = chain();
    many.equalities = vec![many.equalities[0]; 256];
    assert!(many.query().bounds().is_ok());
    many.equalities.push(many.equalities[0]);
    assert_eq!(many.error(), Error::BadEqualities { count: 257 });
}

#[test]
fn lists() {
    for place in 0..4 {
        let column: Column = chain().lists[place].0.into();
        let (mut gone, mut empty, mut alien, mut twice) = (chain(), chain(), chain(), chain());
        gone.lists.remove(place);
        assert_eq!(gone.error(), Error::MissingList { place: place / 2, column: column.clone() });
        empty.lists[place].1.clear();
        let no_runs = Error::BadList { column: column.clone(), why: WrongList::NoRuns };
        assert_eq!(empty.error(), no_runs);
        // Only for an entry without rows a list without runs is accepted.
        let other = empty.rows.iter().position(|(name, _)| *name != column.entry).expect("another entry");
        empty.rows[other].1 = 0;
        assert_eq!(empty.error(), no_runs);
        alien.lists[place].0 = ("q", "x");
        assert_eq!(alien.error(), Error::BadList { column: ("q", "x").into(), why: WrongList::UnknownEntry });
        twice.lists.push(twice.lists[place].clone());
        assert_eq!(twice.error(), Error::BadList { column, why: WrongList::Repeated });
    }
}

/// The error names the run's list and its place in this list, even if a list of an entry without rows comes before.
#[test]
fn runs_of_queries() {
    for (list, length) in [2, 1, 2, 1].into_iter().enumerate() {
        for place in 0..length {
            for (wrong, why) in
                [((0, 1), WrongRun::NoDegree), ((1, 0), WrongRun::NoKeys), ((1, u64::MAX), WrongRun::PastRows)]
            {
                let mut changed = chain();
                changed.lists[list].1[place] = wrong.into();
                let column = Some(changed.lists[list].0.into());
                assert_eq!(changed.error(), Error::BadRun { place, column, why });
            }
        }
    }
    let mut behind = chain();
    behind.rows[0].1 = 0;
    behind.lists[0].1.clear();
    behind.lists[2].1[1] = (3, 1).into();
    let why = WrongRun::Rises { before: 2, degree: 3 };
    assert_eq!(behind.error(), Error::BadRun { place: 1, column: Some(("s", "y").into()), why });
}

#[test]
fn budgets() -> Result<(), Error> {
    let bounds = chain().query().bounds()?;
    for budget in [MOST_BUDGET + 1, u64::MAX] {
        assert_eq!(bounds.best_order(budget), Err(Error::BadBudget { budget }));
        assert_eq!(bounds.best_tree(budget), Err(Error::BadBudget { budget }));
    }
    let (order, tree) = (bounds.best_order(MOST_BUDGET)?.cost(), bounds.best_tree(MOST_BUDGET)?);
    assert!(bounds.best_order(order).is_ok());
    assert_eq!(bounds.best_order(order - 1), Err(Error::BudgetExceeded { least: order }));
    let least = tree.joins.iter().map(|join| join.bound).max().expect("two joins");
    assert_eq!(bounds.best_tree(least - 1), Err(Error::BudgetExceeded { least }));
    Ok(())
}

/// Each error says what it is about.
#[test]
fn texts() {
    assert_eq!(
        Error::BudgetExceeded { least: 12 }.to_string(),
        "the best plan has a part of at most 12 rows, which is the least budget that would do"
    );
    let column: Column = ("s", "y").into();
    for (why, text) in [
        (WrongRun::NoDegree, "run 1 has degree 0"),
        (WrongRun::NoKeys, "run 1 has no keys"),
        (WrongRun::Rises { before: 5, degree: 6 }, "the list rises at run 1: degree 6 after 5"),
        (WrongRun::PastRows, "at run 1 the list sums to more than 2^48 rows"),
    ] {
        assert_eq!(Error::BadRun { place: 1, column: None, why }.to_string(), text);
        assert_eq!(Error::BadRun { place: 1, column: Some(column.clone()), why }.to_string(), format!("s.y: {text}"));
        assert_eq!(Error::BadOtherRun { place: 1, why }.to_string(), format!("second list: {text}"));
    }
    for (why, text) in [
        (WrongList::UnknownEntry, "there is a list of s.y, and no entry s"),
        (WrongList::NoRuns, "the list of s.y has no runs"),
        (WrongList::Repeated, "s.y has two lists"),
    ] {
        assert_eq!(Error::BadList { column: column.clone(), why }.to_string(), text);
    }
    let why = WrongEquality::OneEntry;
    assert_eq!(
        Error::BadEquality { place: 2, left: column.clone(), right: ("s", "z").into(), why }.to_string(),
        "equality 2, s.y = s.z, has one entry on both sides"
    );
    let told: Box<dyn std::error::Error + Send + Sync> = Error::MissingList { place: 3, column }.into();
    assert_eq!(told.to_string(), "s.y of equality 3 has no list");
}
