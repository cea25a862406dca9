//! Measures how deep a stack each call of the static library uses, and prints a table.
//!
//!     cargo run --release --offline --features library --bin stack
//!
//! A call runs on a stack of its own, every byte of which has a known value beforehand: it reaches
//! as deep as the deepest byte that has another one afterwards. The call's own arguments and what
//! calls it, some 100 bytes, are counted too.

use reference::bench::Problem;
use reference::block::{Block, write};
use reference::cases::attempt::Attempt;
use reference::cases::block::{binding, limits, realistic};
use reference::cases::engine::Case;
use reference::compare::Written;
use reference::library;
use reference::rng::Rng;
use reference::service::engine_case;
use std::arch::asm;
use std::hint::black_box;

const STACK: usize = 1 << 22;

/// Each byte of a stack before a call, in two runs: a call that writes one of them over itself
/// can't write the other.
const FILLINGS: [u8; 2] = [0x5a, 0xa5];

/// 16 bytes, aligned as a stack's end must be.
#[derive(Clone, Copy)]
#[repr(align(16))]
struct Line([u8; 16]);

/// Runs `call` on `stack`.
fn run_on(stack: &mut [Line], mut call: &mut dyn FnMut()) {
    extern "C" fn run(call: &mut &mut dyn FnMut()) {
        call();
    }
    let end = stack.as_mut_ptr_range().end;
    // SAFETY: `end` is the end of memory that is ours and nothing else uses, and has a stack's
    // alignment. What `run` may change is declared, and r12, which a call keeps, holds the old
    // stack's end. A panic in `run` ends the program.
    unsafe {
        asm!(
            "mov r12, rsp",
            "mov rsp, {end}",
            "call {run}",
            "mov rsp, r12",
            end = in(reg) end,
            run = sym run,
            in("rdi") &raw mut call,
            out("r12") _,
            clobber_abi("C"),
        );
    }
}

/// How many bytes of stack `call` reaches into.
fn depth(call: &mut dyn FnMut()) -> usize {
    // What is done in a first call alone is not counted.
    call();
    let deepest = FILLINGS.map(|filling| {
        let mut stack = vec![Line([filling; 16]); STACK / 16];
        run_on(&mut stack, call);
        let bytes = stack.iter().flat_map(|line| line.0);
        let untouched = bytes.take_while(|&byte| byte == filling).count();
        assert!(untouched > 0, "the call needs a deeper stack");
        STACK - untouched
    });
    deepest[0].max(deepest[1])
}

fn check() -> usize {
    let mut rng = Rng::new(1);
    let blocks: Vec<_> = (0..20).map(|_| limits(&mut rng)).collect();
    let depths = blocks.iter().map(|block| {
        let (bytes, plan) = (write(block), Attempt::keys(block));
        let (mut number, mut gap) = (0, 0);
        let depth = depth(&mut || {
            number = library::check(&bytes, &plan.times, &plan.prices, &mut gap);
        });
        assert_eq!(number, 0);
        depth
    });
    depths.max().expect("a block")
}

fn sqrt() -> usize {
    let numbers = [2.0, 0.0, -1.0, 5e-324, 1e300, f64::INFINITY, f64::NAN];
    let depths = numbers.iter().map(|&x| {
        depth(&mut || {
            black_box(library::sqrt(black_box(x)));
        })
    });
    depths.max().expect("a number")
}

fn solve_kkt(n: usize, m: usize) -> usize {
    let problem = Problem::new(&mut Rng::new(1), n, m);
    let (mut x, mut multipliers) = (vec![0.0; n], vec![0.0; m]);
    let mut number = 0;
    let depth = depth(&mut || {
        number = library::solve_kkt(problem.slices(), n, m, &mut x, &mut multipliers);
    });
    assert_eq!(number, 0);
    depth
}

/// The deepest of some problems of blocks of so many words, whatever the outcome.
fn engine(
    block: fn(&mut Rng, usize) -> Block,
    words: usize,
    call: fn(&Case, &mut Written) -> u32,
) -> usize {
    let mut rng = Rng::new(1);
    let depths = (0..20).map(|_| {
        let case = engine_case(&block(&mut rng, words));
        let mut written = Written::new(case.n, case.m + case.r);
        depth(&mut || {
            black_box(call(&case, &mut written));
        })
    });
    depths.max().expect("a problem")
}

fn solve_turnover_capped(case: &Case, written: &mut Written) -> u32 {
    let (at, slopes, start) = (&case.at, &case.slopes, &case.start);
    library::solve_turnover_capped(&case.problem(), at, slopes, start, case.cap, written)
}

fn solve_piecewise(case: &Case, written: &mut Written) -> u32 {
    library::solve_piecewise(
        &case.problem(),
        &case.at,
        &case.slopes,
        &case.start,
        written,
    )
}

fn solve_bounded(case: &Case, written: &mut Written) -> u32 {
    library::solve_bounded(&case.problem(), &case.start, written)
}

/// The deepest of some blocks, whatever the outcome.
fn place(block: fn(&mut Rng) -> Block) -> usize {
    let mut rng = Rng::new(1);
    let depths = (0..20).map(|_| {
        let bytes = write(&block(&mut rng));
        let (mut answer, mut written) = ([0; 350], 0);
        depth(&mut || {
            black_box(library::place(&bytes, &mut answer, &mut written));
        })
    });
    depths.max().expect("a block")
}

fn main() {
    println!("| call | bytes of stack |\n|---|---:|");
    println!("| `places_place`, the largest blocks | {} |", place(limits));
    println!(
        "| `places_place`, 8 words | {} |",
        place(|rng| binding(rng, 8))
    );
    for words in [32, 8, 2] {
        println!(
            "| `places_solve_turnover_capped`, {words} words | {} |",
            engine(binding, words, solve_turnover_capped)
        );
        println!(
            "| `places_solve_piecewise`, {words} words | {} |",
            engine(realistic, words, solve_piecewise)
        );
        println!(
            "| `places_solve_bounded`, {words} words | {} |",
            engine(realistic, words, solve_bounded)
        );
    }
    for (n, m) in [(32, 8), (8, 8), (8, 0), (1, 0)] {
        println!(
            "| `places_solve_kkt`, n = {n}, m = {m} | {} |",
            solve_kkt(n, m)
        );
    }
    println!("| `places_check`, the largest blocks | {} |", check());
    println!("| `places_sqrt` | {} |", sqrt());
}
