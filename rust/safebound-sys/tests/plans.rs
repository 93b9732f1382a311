//! The header's examples of calls over bounds. The crate `safebound` makes these calls only over the bounds of a query.

use safebound_sys::*;

const NO_LEVEL: safebound_level = safebound_level { entry: 0, bound: 0 };
const NO_JOIN: safebound_join = safebound_join { left: 0, right: 0, bound: 0 };

fn order<const N: usize>(bounds: &[u64], budget: u64) -> (safebound_status, u64, [safebound_level; N]) {
    let (mut into, mut detail) = ([NO_LEVEL; N], 0);
    // SAFETY: pointers and lengths are of arrays.
    let status = unsafe { safebound_order(bounds.as_ptr(), bounds.len(), budget, into.as_mut_ptr(), N, &mut detail) };
    (status, detail, into)
}

fn tree<const N: usize>(bounds: &[u64], budget: u64) -> (safebound_status, u64, [safebound_join; N]) {
    let (mut into, mut detail) = ([NO_JOIN; N], 0);
    // SAFETY: pointers and lengths are of arrays.
    let status = unsafe { safebound_tree(bounds.as_ptr(), bounds.len(), budget, into.as_mut_ptr(), N, &mut detail) };
    (status, detail, into)
}

#[test]
fn orders() {
    let bounds = [1, 2, 2, 9, 2, 5, 5, 6];
    let best = [(0, 2), (2, 5), (1, 6)].map(|(entry, bound)| safebound_level { entry, bound });
    assert_eq!(order(&bounds, 1_000_000), (SAFEBOUND_OK, 3, best));
    assert_eq!(order(&bounds, 5), (SAFEBOUND_BUDGET, 6, [NO_LEVEL; 3]));
    assert_eq!(order(&bounds, 6), (SAFEBOUND_ROOM, 3, [NO_LEVEL; 2]));
    assert_eq!(order(&bounds[..7], 6), (SAFEBOUND_BAD_BOUNDS, 7, [NO_LEVEL; 3]));
    assert_eq!(
        order(&bounds, SAFEBOUND_MOST_BUDGET + 1),
        (SAFEBOUND_BAD_BUDGET, SAFEBOUND_MOST_BUDGET + 1, [NO_LEVEL; 3])
    );
}

#[test]
fn trees() {
    let bounds = [1, 3, 3, 5, 3, 5, 5, 9];
    let best = [(1, 2, 5), (0, 3, 9)].map(|(left, right, bound)| safebound_join { left, right, bound });
    assert_eq!(tree(&bounds, 1_000_000), (SAFEBOUND_OK, 2, best));
    assert_eq!(tree(&bounds, 8), (SAFEBOUND_BUDGET, 9, [NO_JOIN; 2]));
    assert_eq!(tree(&bounds, 9), (SAFEBOUND_ROOM, 2, [NO_JOIN; 1]));
    assert_eq!(tree(&[1; 3], 9), (SAFEBOUND_BAD_BOUNDS, 3, [NO_JOIN; 2]));
    assert_eq!(tree(&[1, SAFEBOUND_NO_BOUND], 9), (SAFEBOUND_PAST_BITS, 0, [NO_JOIN; 2]));
}
