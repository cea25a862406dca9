//! Times a build of the library against an earlier one on the same inputs, in one run, and prints a
//! table: `places_solve_kkt` at 1 to 32 variables, `places_place` on blocks of 2 to 32 words. Each
//! build is a shared object, made of its static library:
//!
//!     cc -shared -o after.so -Wl,--whole-archive ../crates/capi/out/libcapi.a -Wl,--no-whole-archive
//!     cargo run --release --offline --bin bench_before -- ./before.so ./after.so

use reference::bench::{Problem, Table};
use reference::block::{Block, FARTHEST, write};
use reference::cases::block::{binding, degenerate, realistic};
use reference::rng::Rng;
use std::ffi::{CString, c_char, c_int, c_void};

unsafe extern "C" {
    fn dlopen(path: *const c_char, flags: c_int) -> *mut c_void;
    fn dlsym(handle: *mut c_void, name: *const c_char) -> *mut c_void;
}

/// All of a library's calls are found when it is loaded.
const RTLD_NOW: c_int = 2;

type Place = unsafe extern "C" fn(*const u8, usize, *mut u8, usize, *mut u64) -> u32;

type SolveKkt = unsafe extern "C" fn(
    *const f64,
    usize,
    *const f64,
    usize,
    *const f64,
    usize,
    *const f64,
    usize,
    usize,
    usize,
    *mut f64,
    usize,
    *mut f64,
    usize,
) -> u32;

/// The timed calls of a build.
struct Build {
    place: Place,
    solve_kkt: SolveKkt,
}

impl Build {
    fn load(path: &str) -> Build {
        let text = |s: &str| CString::new(s).expect("no byte 0");
        // SAFETY: the names are those of include/places.h, and the types its signatures.
        unsafe {
            let library = dlopen(text(path).as_ptr(), RTLD_NOW);
            assert!(!library.is_null(), "{path} is not a library");
            let find = |name: &str| {
                let call = dlsym(library, text(name).as_ptr());
                assert!(!call.is_null(), "{path} has no {name}");
                call
            };
            Build {
                place: std::mem::transmute::<*mut c_void, Place>(find("places_place")),
                solve_kkt: std::mem::transmute::<*mut c_void, SolveKkt>(find("places_solve_kkt")),
            }
        }
    }

    fn place(&self, block: &[u8]) -> (u32, [u8; 350]) {
        let (mut answer, mut written) = ([0; 350], 0);
        // SAFETY: each pointer is that of a slice of the length after it, or of a number.
        let number = unsafe {
            (self.place)(
                block.as_ptr(),
                block.len(),
                answer.as_mut_ptr(),
                answer.len(),
                &mut written,
            )
        };
        (number, answer)
    }

    fn solve_kkt(&self, p: &Problem) -> (u32, Vec<f64>, Vec<f64>) {
        let (mut x, mut multipliers) = (vec![0.0; p.n], vec![0.0; p.m]);
        // SAFETY: as above.
        let number = unsafe {
            (self.solve_kkt)(
                p.k.as_ptr(),
                p.k.len(),
                p.c.as_ptr(),
                p.c.len(),
                p.e.as_ptr(),
                p.e.len(),
                p.b.as_ptr(),
                p.b.len(),
                p.n,
                p.m,
                x.as_mut_ptr(),
                x.len(),
                multipliers.as_mut_ptr(),
                multipliers.len(),
            )
        };
        (number, x, multipliers)
    }
}

const BLOCKS: usize = 24;

/// The kinds of blocks: a generator of each.
const KINDS: [(&str, fn(&mut Rng, usize) -> Block); 3] = [
    ("slack cap", |rng, words| Block {
        cap: FARTHEST,
        ..realistic(rng, words)
    }),
    ("binding cap", binding),
    ("degenerate", degenerate),
];

fn main() {
    let paths: Vec<String> = std::env::args().skip(1).collect();
    let [before, after] = &paths[..] else {
        panic!("bench_before BEFORE AFTER: two shared objects");
    };
    let (before, after) = (Build::load(before), Build::load(after));
    let mut rng = Rng::new(1);
    let mut table = Table::of(["before", "after"]);
    for m in [0, 1, 4] {
        for n in [1, 2, 4, 8, 16, 32] {
            let problems: Vec<_> = (0..16).map(|_| Problem::new(&mut rng, n, m)).collect();
            let name = format!("`solve_kkt`, n = {n}, m = {m}");
            for p in &problems {
                assert_eq!(before.solve_kkt(p), after.solve_kkt(p), "{name}");
            }
            table.measure(
                &name,
                &problems,
                |p| before.solve_kkt(p),
                |p| after.solve_kkt(p),
            );
        }
    }
    for (kind, make) in KINDS {
        for words in [2, 4, 8, 16, 32] {
            let blocks: Vec<_> = (0..BLOCKS).map(|_| write(&make(&mut rng, words))).collect();
            let name = format!("block, {kind}, {words} words");
            for block in &blocks {
                assert_eq!(before.place(block), after.place(block), "{name}");
            }
            table.measure(
                &name,
                &blocks,
                |block| before.place(block),
                |block| after.place(block),
            );
        }
    }
    table.print();
}
