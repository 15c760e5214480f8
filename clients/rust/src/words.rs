//! The kernel's calls over slices of words, in the layout of the header yigtrav.h.
//!
//! A slice that is written is `&mut`, so it cannot overlap another one. A refused call changes no word; a finished
//! one leaves all needed words of work space zero. An empty slice is refused as too short, like any short one.

use crate::Refusal;

#[rustfmt::skip]
mod raw {
    extern "C" {
        pub fn yigtrav_count(n: u32, v: u32) -> u64;
        pub fn yigtrav_table_words(n: u32, v: u32) -> u64;
        pub fn yigtrav_work_words(n: u32, v: u32) -> u64;
        pub fn yigtrav_build_table(n: u32, v: u32, table: *mut u16, table_len: usize) -> u64;
        pub fn yigtrav_check_table(n: u32, v: u32, table: *const u16, table_len: usize) -> u64;
        pub fn yigtrav_sum(
            n: u32, v: u32, a: *const u32, a_len: usize, b: *const u32, b_len: usize,
            result: *mut u32, result_len: usize,
        ) -> u64;
        pub fn yigtrav_difference(
            n: u32, v: u32, a: *const u32, a_len: usize, b: *const u32, b_len: usize,
            result: *mut u32, result_len: usize,
        ) -> u64;
        pub fn yigtrav_multiple(
            n: u32, v: u32, c: u32, a: *const u32, a_len: usize, result: *mut u32, result_len: usize,
        ) -> u64;
        pub fn yigtrav_product(
            n: u32, v: u32, table: *const u16, table_len: usize, a: *const u32, a_len: usize,
            b: *const u32, b_len: usize, result: *mut u32, result_len: usize, work: *mut u32, work_len: usize,
        ) -> u64;
        pub fn yigtrav_derivative(
            n: u32, v: u32, k: u32, table: *const u16, table_len: usize, a: *const u32, a_len: usize,
            result: *mut u32, result_len: usize,
        ) -> u64;
        pub fn yigtrav_bracket(
            n: u32, v: u32, table: *const u16, table_len: usize, a: *const u32, a_len: usize,
            b: *const u32, b_len: usize, result: *mut u32, result_len: usize, work: *mut u32, work_len: usize,
        ) -> u64;
        pub fn yigtrav_substitute(
            n: u32, v: u32, table: *const u16, table_len: usize, series: *const u32, series_len: usize,
            map: *const u32, map_len: usize, result: *mut u32, result_len: usize, work: *mut u32, work_len: usize,
        ) -> u64;
        pub fn yigtrav_compose(
            n: u32, v: u32, table: *const u16, table_len: usize, outer: *const u32, outer_len: usize,
            inner: *const u32, inner_len: usize, result: *mut u32, result_len: usize,
            work: *mut u32, work_len: usize,
        ) -> u64;
        pub fn yigtrav_invert(
            n: u32, v: u32, table: *const u16, table_len: usize, map: *const u32, map_len: usize,
            result: *mut u32, result_len: usize, work: *mut u32, work_len: usize,
        ) -> u64;
    }
}

/// The number reported, or the refusal that an answer says.
fn decode(answer: u64) -> Result<u64, Refusal> {
    let place = answer >> 24;
    Err(match answer & 0xff {
        0 => return Ok(place),
        1 => Refusal::SettingOutOfRange,
        2 => Refusal::SliceTooShort { slice: place },
        3 => Refusal::VariableOutOfRange,
        4 => Refusal::OddVariables,
        5 => Refusal::MultiplierOutOfRange,
        6 => Refusal::TableDiffers { word: place },
        7 => Refusal::NotAnImage {
            argument: (answer >> 8 & 0xff) as u32,
            component: (answer >> 16 & 0xff) as u32,
            word: place,
        },
        8 => Refusal::HasConstant { component: place },
        9 => Refusal::Singular,
        _ => Refusal::Unknown { answer },
    })
}

fn size(words: u64) -> Option<usize> {
    if words == 0 {
        None
    } else {
        Some(words as usize)
    }
}

// Every call below passes slices for its own duration only, and the kernel keeps no pointer.

/// N, none where the setting is out of range.
pub fn count(n: u32, v: u32) -> Option<usize> {
    size(unsafe { raw::yigtrav_count(n, v) })
}

/// T, the words of a table.
pub fn table_words(n: u32, v: u32) -> Option<usize> {
    size(unsafe { raw::yigtrav_table_words(n, v) })
}

/// W, the words of work space.
pub fn work_words(n: u32, v: u32) -> Option<usize> {
    size(unsafe { raw::yigtrav_work_words(n, v) })
}

pub fn build_table(n: u32, v: u32, table: &mut [u16]) -> Result<(), Refusal> {
    decode(unsafe { raw::yigtrav_build_table(n, v, table.as_mut_ptr(), table.len()) }).map(drop)
}

pub fn check_table(n: u32, v: u32, table: &[u16]) -> Result<(), Refusal> {
    decode(unsafe { raw::yigtrav_check_table(n, v, table.as_ptr(), table.len()) }).map(drop)
}

#[rustfmt::skip]
type OfTwo = unsafe extern "C" fn(
    u32, u32, *const u32, usize, *const u32, usize, *mut u32, usize,
) -> u64;

/// A call of two series without a table.
fn of_two(call: OfTwo, n: u32, v: u32, a: &[u32], b: &[u32], result: &mut [u32]) -> Result<u64, Refusal> {
    decode(unsafe { call(n, v, a.as_ptr(), a.len(), b.as_ptr(), b.len(), result.as_mut_ptr(), result.len()) })
}

pub fn sum(n: u32, v: u32, a: &[u32], b: &[u32], result: &mut [u32]) -> Result<(), Refusal> {
    of_two(raw::yigtrav_sum, n, v, a, b, result).map(drop)
}

pub fn difference(n: u32, v: u32, a: &[u32], b: &[u32], result: &mut [u32]) -> Result<(), Refusal> {
    of_two(raw::yigtrav_difference, n, v, a, b, result).map(drop)
}

pub fn multiple(n: u32, v: u32, c: u32, a: &[u32], result: &mut [u32]) -> Result<(), Refusal> {
    decode(unsafe { raw::yigtrav_multiple(n, v, c, a.as_ptr(), a.len(), result.as_mut_ptr(), result.len()) })
        .map(drop)
}

#[rustfmt::skip]
type WithTable = unsafe extern "C" fn(
    u32, u32, *const u16, usize, *const u32, usize, *const u32, usize, *mut u32, usize, *mut u32, usize,
) -> u64;

/// A call of two arguments with a table and work space.
#[rustfmt::skip]
fn with_table(
    call: WithTable, n: u32, v: u32, table: &[u16], a: &[u32], b: &[u32], result: &mut [u32], work: &mut [u32],
) -> Result<u64, Refusal> {
    decode(unsafe {
        call(
            n, v, table.as_ptr(), table.len(), a.as_ptr(), a.len(), b.as_ptr(), b.len(),
            result.as_mut_ptr(), result.len(), work.as_mut_ptr(), work.len(),
        )
    })
}

/// Returns the number of pairs.
pub fn product(
    n: u32, v: u32, table: &[u16], a: &[u32], b: &[u32], result: &mut [u32], work: &mut [u32],
) -> Result<u64, Refusal> {
    with_table(raw::yigtrav_product, n, v, table, a, b, result, work)
}

pub fn derivative(n: u32, v: u32, k: u32, table: &[u16], a: &[u32], result: &mut [u32]) -> Result<(), Refusal> {
    decode(unsafe {
        raw::yigtrav_derivative(
            n,
            v,
            k,
            table.as_ptr(),
            table.len(),
            a.as_ptr(),
            a.len(),
            result.as_mut_ptr(),
            result.len(),
        )
    })
    .map(drop)
}

pub fn bracket(
    n: u32, v: u32, table: &[u16], a: &[u32], b: &[u32], result: &mut [u32], work: &mut [u32],
) -> Result<(), Refusal> {
    with_table(raw::yigtrav_bracket, n, v, table, a, b, result, work).map(drop)
}

pub fn substitute(
    n: u32, v: u32, table: &[u16], series: &[u32], map: &[u32], result: &mut [u32], work: &mut [u32],
) -> Result<(), Refusal> {
    with_table(raw::yigtrav_substitute, n, v, table, series, map, result, work).map(drop)
}

pub fn compose(
    n: u32, v: u32, table: &[u16], outer: &[u32], inner: &[u32], result: &mut [u32], work: &mut [u32],
) -> Result<(), Refusal> {
    with_table(raw::yigtrav_compose, n, v, table, outer, inner, result, work).map(drop)
}

pub fn invert(
    n: u32, v: u32, table: &[u16], map: &[u32], result: &mut [u32], work: &mut [u32],
) -> Result<(), Refusal> {
    decode(unsafe {
        raw::yigtrav_invert(
            n,
            v,
            table.as_ptr(),
            table.len(),
            map.as_ptr(),
            map.len(),
            result.as_mut_ptr(),
            result.len(),
            work.as_mut_ptr(),
            work.len(),
        )
    })
    .map(drop)
}
