//! The library's calls over slices. All `unsafe` of this crate is here.
#![allow(unsafe_code)]

use crate::errors::Error;
use crate::lists::Run;
use safebound_sys as sys;
use std::mem::{align_of, size_of};

/// The status and the detail of a call that was refused.
pub(crate) struct Refusal {
    pub(crate) status: sys::safebound_status,
    pub(crate) detail: u64,
}

/// The type of elements that the library writes. It consists of plain numbers, so any bytes are a valid value.
pub(crate) trait Element: Copy {}
impl Element for u8 {}
impl Element for u64 {}
impl Element for Run {}
impl Element for sys::safebound_level {}
impl Element for sys::safebound_join {}

/// Makes a call, and returns the elements that it writes. There is room for `room` elements, and for more if the library asks
/// for more.
///
/// # Safety
///
/// The call gets pointers to the elements and to the detail, and the room. It has to hand them to a function of the library,
/// with pointers and lengths of slices that outlive the call.
unsafe fn answer<E: Element>(
    mut room: usize,
    call: impl Fn(*mut E, usize, *mut u64) -> sys::safebound_status,
) -> Result<Vec<E>, Refusal> {
    let no_memory = |_| Refusal { status: sys::SAFEBOUND_NO_MEMORY, detail: 0 };
    loop {
        let mut into = Vec::new();
        into.try_reserve_exact(room).map_err(no_memory)?;
        let mut detail = 0;
        match call(into.as_mut_ptr(), room, &mut detail) {
            sys::SAFEBOUND_OK => {
                assert!(detail <= room as u64);
                // SAFETY: so many elements were written, and there is room for them.
                unsafe { into.set_len(detail as usize) };
                return Ok(into);
            }
            sys::SAFEBOUND_ROOM if detail > room as u64 => room = usize::try_from(detail).unwrap_or(usize::MAX),
            status => return Err(Refusal { status, detail }),
        }
    }
}

// SAFETY, of each call below: pointers and lengths are of slices, which are aligned, not null, and borrowed for the call. A
// `Run` has the layout of a `safebound_run`.
const _: () = assert!(size_of::<Run>() == size_of::<sys::safebound_run>());
const _: () = assert!(align_of::<Run>() == align_of::<sys::safebound_run>());

pub(crate) fn degrees(keys: &[u64], room: usize) -> Result<Vec<Run>, Refusal> {
    unsafe {
        answer(room, |into: *mut Run, room, detail| {
            sys::safebound_degrees(keys.as_ptr(), keys.len(), into.cast(), room, detail)
        })
    }
}

pub(crate) fn compress(runs: &[Run], accuracy: u64) -> Result<Vec<Run>, Refusal> {
    unsafe {
        answer(runs.len() + 1, |into: *mut Run, room, detail| {
            sys::safebound_compress(runs.as_ptr().cast(), runs.len(), accuracy, into.cast(), room, detail)
        })
    }
}

pub(crate) fn cut(runs: &[Run], rows: u64) -> Result<Vec<Run>, Refusal> {
    unsafe {
        answer(runs.len() + 1, |into: *mut Run, room, detail| {
            sys::safebound_cut(runs.as_ptr().cast(), runs.len(), rows, into.cast(), room, detail)
        })
    }
}

pub(crate) fn append(runs: &[Run], others: &[Run]) -> Result<Vec<Run>, Refusal> {
    let (one, other) = (runs.as_ptr().cast(), others.as_ptr().cast());
    unsafe {
        answer(runs.len() + others.len(), |into: *mut Run, room, detail| {
            sys::safebound_append(one, runs.len(), other, others.len(), into.cast(), room, detail)
        })
    }
}

pub(crate) fn lesser(runs: &[Run], others: &[Run]) -> Result<Vec<Run>, Refusal> {
    let (one, other) = (runs.as_ptr().cast(), others.as_ptr().cast());
    unsafe {
        answer(3 * (runs.len() + others.len()), |into: *mut Run, room, detail| {
            sys::safebound_lesser(one, runs.len(), other, others.len(), into.cast(), room, detail)
        })
    }
}

pub(crate) fn greater(runs: &[Run], others: &[Run]) -> Result<Vec<Run>, Refusal> {
    let (one, other) = (runs.as_ptr().cast(), others.as_ptr().cast());
    unsafe {
        answer(runs.len() + others.len(), |into: *mut Run, room, detail| {
            sys::safebound_greater(one, runs.len(), other, others.len(), into.cast(), room, detail)
        })
    }
}

/// A query as the library takes it.
#[derive(Default)]
pub(crate) struct Numbers {
    pub(crate) rows: Vec<u64>,
    pub(crate) equalities: Vec<sys::safebound_equality>,
    pub(crate) lists: Vec<sys::safebound_list>,
    pub(crate) runs: Vec<Run>,
}

pub(crate) fn bounds(query: &Numbers) -> Result<Vec<u64>, Refusal> {
    let Numbers { rows, equalities, lists, runs } = query;
    let room = 1 << rows.len().min(sys::SAFEBOUND_MOST_ENTRIES);
    unsafe {
        answer(room, |into, room, detail| {
            sys::safebound_bounds(
                rows.as_ptr(),
                rows.len(),
                equalities.as_ptr(),
                equalities.len(),
                lists.as_ptr(),
                lists.len(),
                runs.as_ptr().cast(),
                runs.len(),
                into,
                room,
                detail,
            )
        })
    }
}

pub(crate) fn bounds_within(query: &Numbers, limit: u64) -> Result<Vec<u64>, Refusal> {
    let Numbers { rows, equalities, lists, runs } = query;
    let room = 1 << rows.len().min(sys::SAFEBOUND_MOST_ENTRIES);
    unsafe {
        answer(room, |into, room, detail| {
            sys::safebound_bounds_within(
                rows.as_ptr(),
                rows.len(),
                equalities.as_ptr(),
                equalities.len(),
                lists.as_ptr(),
                lists.len(),
                runs.as_ptr().cast(),
                runs.len(),
                limit,
                into,
                room,
                detail,
            )
        })
    }
}

pub(crate) fn set_bound(query: &Numbers, set: u64) -> Result<u64, Refusal> {
    let Numbers { rows, equalities, lists, runs } = query;
    let mut detail = 0;
    let status = unsafe {
        sys::safebound_set_bound(
            rows.as_ptr(),
            rows.len(),
            equalities.as_ptr(),
            equalities.len(),
            lists.as_ptr(),
            lists.len(),
            runs.as_ptr().cast(),
            runs.len(),
            set,
            &mut detail,
        )
    };
    match status {
        sys::SAFEBOUND_OK => Ok(detail),
        status => Err(Refusal { status, detail }),
    }
}

pub(crate) fn joined_rows(kind: u64, inner: u64, left: u64, right: u64) -> Result<u64, Refusal> {
    let mut detail = 0;
    match unsafe { sys::safebound_joined_rows(kind, inner, left, right, &mut detail) } {
        sys::SAFEBOUND_OK => Ok(detail),
        status => Err(Refusal { status, detail }),
    }
}

pub(crate) fn order(bounds: &[u64], budget: u64) -> Result<Vec<sys::safebound_level>, Refusal> {
    unsafe {
        answer(sys::SAFEBOUND_MOST_ENTRIES, |into, room, detail| {
            sys::safebound_order(bounds.as_ptr(), bounds.len(), budget, into, room, detail)
        })
    }
}

pub(crate) fn memory(rows: &[u64], levels: &[sys::safebound_level]) -> Result<u64, Refusal> {
    let mut detail = 0;
    let (rows, entries, levels, count) = (rows.as_ptr(), rows.len(), levels.as_ptr(), levels.len());
    match unsafe { sys::safebound_memory(rows, entries, levels, count, &mut detail) } {
        sys::SAFEBOUND_OK => Ok(detail),
        status => Err(Refusal { status, detail }),
    }
}

pub(crate) fn tree_memory(rows: &[u64], joins: &[sys::safebound_join]) -> Result<u64, Refusal> {
    let mut detail = 0;
    let (rows, entries, joins, count) = (rows.as_ptr(), rows.len(), joins.as_ptr(), joins.len());
    match unsafe { sys::safebound_tree_memory(rows, entries, joins, count, &mut detail) } {
        sys::SAFEBOUND_OK => Ok(detail),
        status => Err(Refusal { status, detail }),
    }
}

pub(crate) fn tree(bounds: &[u64], budget: u64) -> Result<Vec<sys::safebound_join>, Refusal> {
    unsafe {
        answer(sys::SAFEBOUND_MOST_ENTRIES, |into, room, detail| {
            sys::safebound_tree(bounds.as_ptr(), bounds.len(), budget, into, room, detail)
        })
    }
}

/// The version of the library that is linked, as text, such as `0.4.0`.
pub fn version() -> Result<String, Error> {
    let text = unsafe { answer(64, |into: *mut u8, room, detail| sys::safebound_version(into.cast(), room, detail)) };
    let bytes = text.map_err(Error::from_refusal)?;
    Ok(bytes.iter().take_while(|&&byte| byte != 0).map(|&byte| char::from(byte)).collect())
}

/// The command's exit status, and how much of each room was written.
#[cfg(feature = "command")]
pub(crate) struct Ended {
    pub(crate) status: u32,
    pub(crate) out: usize,
    pub(crate) notes: usize,
}

#[cfg(feature = "command")]
fn text(bytes: &[u8]) -> sys::safebound_text {
    sys::safebound_text { bytes: bytes.as_ptr().cast(), length: bytes.len() }
}

/// Runs a command line. Both vectors get the text that was written, cut at their capacity; they don't grow.
#[cfg(feature = "command")]
pub(crate) fn command(words: &[&[u8]], files: &[(&[u8], &[u8])], out: &mut Vec<u8>, notes: &mut Vec<u8>) -> Ended {
    let words: Vec<_> = words.iter().map(|word| text(word)).collect();
    let files: Vec<_> =
        files.iter().map(|(name, bytes)| sys::safebound_file { name: text(name), bytes: text(bytes) }).collect();
    let (mut out_length, mut notes_length) = (0, 0);
    let status = unsafe {
        sys::safebound_command(
            words.as_ptr(),
            words.len(),
            files.as_ptr(),
            files.len(),
            out.as_mut_ptr().cast(),
            out.capacity(),
            notes.as_mut_ptr().cast(),
            notes.capacity(),
            &mut out_length,
            &mut notes_length,
        )
    };
    let ended = Ended { status, out: out_length as usize, notes: notes_length as usize };
    assert!(ended.out <= out.capacity() && ended.notes <= notes.capacity());
    // SAFETY: so many bytes were written, and there is room for them.
    unsafe {
        out.set_len(ended.out);
        notes.set_len(ended.notes);
    }
    ended
}
