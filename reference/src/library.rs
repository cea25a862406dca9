//! The calls of the proved static library (include/places.h).

use crate::compare::Written;
use crate::engine::Problem;

#[link(name = "capi", kind = "static")]
unsafe extern "C" {
    fn places_place(
        block: *const u8,
        block_len: usize,
        answer: *mut u8,
        answer_len: usize,
        written: *mut u64,
    ) -> u32;

    fn places_check(
        block: *const u8,
        block_len: usize,
        times: *const i32,
        times_len: usize,
        prices: *const i64,
        prices_len: usize,
        gap: *mut i64,
    ) -> u32;

    safe fn places_sqrt(x: f64) -> f64;

    fn places_solve_kkt(
        k: *const f64,
        k_len: usize,
        c: *const f64,
        c_len: usize,
        e: *const f64,
        e_len: usize,
        b: *const f64,
        b_len: usize,
        n: usize,
        m: usize,
        x: *mut f64,
        x_len: usize,
        multipliers: *mut f64,
        multipliers_len: usize,
    ) -> u32;

    fn places_solve_bounded(
        q: *const f64,
        q_len: usize,
        c: *const f64,
        c_len: usize,
        e: *const f64,
        e_len: usize,
        b: *const f64,
        b_len: usize,
        lower: *const f64,
        lower_len: usize,
        upper: *const f64,
        upper_len: usize,
        a: *const f64,
        a_len: usize,
        row_lower: *const f64,
        row_lower_len: usize,
        row_upper: *const f64,
        row_upper_len: usize,
        start: *const f64,
        start_len: usize,
        n: usize,
        m: usize,
        r: usize,
        x: *mut f64,
        x_len: usize,
        multipliers: *mut f64,
        multipliers_len: usize,
        passes: *mut u64,
    ) -> u32;

    fn places_solve_piecewise(
        q: *const f64,
        q_len: usize,
        c: *const f64,
        c_len: usize,
        e: *const f64,
        e_len: usize,
        b: *const f64,
        b_len: usize,
        lower: *const f64,
        lower_len: usize,
        upper: *const f64,
        upper_len: usize,
        a: *const f64,
        a_len: usize,
        row_lower: *const f64,
        row_lower_len: usize,
        row_upper: *const f64,
        row_upper_len: usize,
        at: *const f64,
        at_len: usize,
        slopes: *const f64,
        slopes_len: usize,
        start: *const f64,
        start_len: usize,
        n: usize,
        m: usize,
        r: usize,
        x: *mut f64,
        x_len: usize,
        multipliers: *mut f64,
        multipliers_len: usize,
        passes: *mut u64,
    ) -> u32;

    fn places_solve_turnover_capped(
        q: *const f64,
        q_len: usize,
        c: *const f64,
        c_len: usize,
        e: *const f64,
        e_len: usize,
        b: *const f64,
        b_len: usize,
        lower: *const f64,
        lower_len: usize,
        upper: *const f64,
        upper_len: usize,
        a: *const f64,
        a_len: usize,
        row_lower: *const f64,
        row_lower_len: usize,
        row_upper: *const f64,
        row_upper_len: usize,
        at: *const f64,
        at_len: usize,
        slopes: *const f64,
        slopes_len: usize,
        start: *const f64,
        start_len: usize,
        cap: f64,
        n: usize,
        m: usize,
        r: usize,
        x: *mut f64,
        x_len: usize,
        multipliers: *mut f64,
        multipliers_len: usize,
        passes: *mut u64,
        raise: *mut f64,
    ) -> u32;
}

/// Calls a function with slices to read, values, slices to write in and places of numbers, in
/// this order, each slice as its pointer and its length.
macro_rules! call {
    ($function:ident; $($read:expr),*; $($value:expr),*; $($write:expr),*; $($place:expr),*) => {
        // SAFETY: each pointer is that of a slice of the length after it, or of a number.
        unsafe {
            $function(
                $($read.as_ptr(), $read.len(),)*
                $($value,)*
                $($write.as_mut_ptr(), $write.len(),)*
                $($place,)*
            )
        }
    };
}

/// Writes the answer of `places_place` and its length, and gives its number.
pub fn place(block: &[u8], answer: &mut [u8], written: &mut u64) -> u32 {
    call!(places_place; block; ; answer; written)
}

pub fn check(block: &[u8], times: &[i32], prices: &[i64], gap: &mut i64) -> u32 {
    call!(places_check; block, times, prices; ; ; gap)
}

pub fn sqrt(x: f64) -> f64 {
    places_sqrt(x)
}

pub fn solve_kkt(
    [k, c, e, b]: [&[f64]; 4],
    n: usize,
    m: usize,
    x: &mut [f64],
    multipliers: &mut [f64],
) -> u32 {
    call!(places_solve_kkt; k, c, e, b; n, m; x, multipliers; )
}

/// Writes the answer of `places_solve_bounded` and gives its number.
pub fn solve_bounded(p: &Problem, start: &[f64], written: &mut Written) -> u32 {
    call!(places_solve_bounded;
        p.q, p.c, p.e, p.b, p.lower, p.upper, p.a, p.row_lower, p.row_upper, start;
        p.n, p.m, p.r;
        written.x, written.multipliers;
        &mut written.passes)
}

/// And that of `places_solve_piecewise`.
pub fn solve_piecewise(
    p: &Problem,
    at: &[f64],
    slopes: &[f64],
    start: &[f64],
    written: &mut Written,
) -> u32 {
    call!(places_solve_piecewise;
        p.q, p.c, p.e, p.b, p.lower, p.upper, p.a, p.row_lower, p.row_upper, at, slopes, start;
        p.n, p.m, p.r;
        written.x, written.multipliers;
        &mut written.passes)
}

/// And that of `places_solve_turnover_capped`.
pub fn solve_turnover_capped(
    p: &Problem,
    at: &[f64],
    slopes: &[f64],
    start: &[f64],
    cap: f64,
    written: &mut Written,
) -> u32 {
    call!(places_solve_turnover_capped;
        p.q, p.c, p.e, p.b, p.lower, p.upper, p.a, p.row_lower, p.row_upper, at, slopes, start;
        cap, p.n, p.m, p.r;
        written.x, written.multipliers;
        &mut written.passes, &mut written.raise)
}
