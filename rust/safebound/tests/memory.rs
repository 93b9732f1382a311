//! A program's own functions for memory, with the archive linked. If a request is refused, the call returns that there was too
//! little memory, or it does without that memory and returns the complete result. All memory is freed.
#![cfg(target_os = "linux")]

use safebound::{compress, degree_sequence_of_keys, Error, Query, Run};
use safebound_sys::rattle_memory;
use std::cell::Cell;
use std::ffi::c_void;

extern "C" {
    fn malloc(size: usize) -> *mut c_void;
    fn realloc(at: *mut c_void, size: usize) -> *mut c_void;
    fn free(at: *mut c_void);
}

thread_local! {
    static REQUESTS: Cell<usize> = const { Cell::new(0) };
    static REFUSED: Cell<usize> = const { Cell::new(0) };
    static KEPT: Cell<isize> = const { Cell::new(0) };
}

fn is_refused() -> bool {
    REQUESTS.with(|requests| requests.set(requests.get() + 1));
    REQUESTS.with(Cell::get) == REFUSED.with(Cell::get)
}

const REFUSAL: rattle_memory = rattle_memory { given: false, at: std::ptr::null_mut() };

#[no_mangle]
extern "C" fn rattle_alloc(size: usize, _align: usize) -> rattle_memory {
    if is_refused() {
        return REFUSAL;
    }
    KEPT.with(|kept| kept.set(kept.get() + 1));
    // SAFETY: malloc takes any size, and aligns to 16.
    rattle_memory { given: true, at: unsafe { malloc(size + 1) } }
}

#[no_mangle]
unsafe extern "C" fn rattle_realloc(at: *mut c_void, _size: usize, new_size: usize, _align: usize) -> rattle_memory {
    if is_refused() {
        return REFUSAL;
    }
    // SAFETY: `at` is of `rattle_alloc`.
    rattle_memory { given: true, at: unsafe { realloc(at, new_size + 1) } }
}

#[no_mangle]
unsafe extern "C" fn rattle_dealloc(at: *mut c_void) {
    KEPT.with(|kept| kept.set(kept.get() - 1));
    // SAFETY: `at` is of `rattle_alloc`.
    unsafe { free(at) }
}

/// Makes a call with each of its requests refused in turn. Returns how often the call said that there was too little memory.
fn refuse_each<T: PartialEq + std::fmt::Debug>(call: impl Fn() -> Result<T, Error>) -> usize {
    let counted = |refused| {
        REQUESTS.with(|requests| requests.set(0));
        REFUSED.with(|at| at.set(refused));
        let answer = call();
        assert_eq!(KEPT.with(Cell::get), 0);
        (answer, REQUESTS.with(Cell::get))
    };
    let (whole, requests) = counted(0);
    let refused: Vec<_> = (1..=requests).map(|n| counted(n).0).collect();
    assert!(refused.iter().all(|answer| *answer == Err(Error::OutOfMemory) || *answer == whole));
    assert_eq!(counted(0).0, whole);
    refused.iter().filter(|answer| **answer == Err(Error::OutOfMemory)).count()
}

#[test]
fn each_request_refused() {
    let keys: Vec<u64> = (0..200).flat_map(|key| vec![key << 40; key as usize % 20]).collect();
    let list: Vec<Run> = (1..60).rev().map(|degree| Run { degree, keys: 1 }).collect();
    let query = Query::new().entry("r", 6).entry("s", 5).equality(("r", "x"), ("s", "x"));
    let query = query.list(("r", "x"), &list).list(("s", "x"), &list);
    let told = refuse_each(|| degree_sequence_of_keys(&keys))
        + refuse_each(|| compress(&list, 2))
        + refuse_each(|| query.bounds())
        + refuse_each(|| query.best_order(1 << 30))
        + refuse_each(|| query.best_tree(1 << 30));
    assert!(told > 5, "{told} refusals were told; is the archive linked, and not the shared object?");
}
