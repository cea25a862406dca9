//! The fixed lists of cases, and what the reference makes of seeded cases.
//!
//!     cargo run --release --offline --bin cases -- lists SEED
//!     cargo run --release --offline --bin cases -- count SEED COUNT
//!
//! `lists` writes the lists, each the standard input of its program `crates/replay_*`, and prints
//! what they hold. `count` runs that many cases of each call, of all sizes, and prints their
//! outcomes.

use reference::cases::engine::Call;
use reference::cases::families::{Generator, Style};
use reference::cases::lists::{self, Counts};
use std::time::Instant;

fn main() -> std::io::Result<()> {
    let arguments: Vec<String> = std::env::args().skip(1).collect();
    let number = |text: &String| text.parse().expect("a number");
    match arguments.as_slice() {
        [word, seed] if word == "lists" => write_lists(number(seed)),
        [word, seed, count] if word == "count" => {
            count_outcomes(number(seed), number(count));
            Ok(())
        }
        _ => panic!("usage: cases lists SEED | cases count SEED COUNT"),
    }
}

fn write_lists(seed: u64) -> std::io::Result<()> {
    lists::algebra(seed).write("replay_algebra")?;
    lists::engine(Call::Kkt, seed, 2000).write("replay_kkt")?;
    let calls = [
        ("bounded", Call::Bounded),
        ("piecewise", Call::Piecewise),
        ("capped", Call::Capped),
    ];
    let parts = calls.map(|(name, call)| (name, lists::engine(call, seed, 1200)));
    lists::write_all("replay_engine", &parts)?;
    let factors = lists::factors(seed);
    factors.list.write("replay_factor")?;
    println!("{}\n{}", factors.updates.table(), factors.systems.table());
    Ok(())
}

fn count_outcomes(seed: u64, count: u64) {
    for call in [Call::Kkt, Call::Bounded, Call::Piecewise, Call::Capped] {
        let started = Instant::now();
        let mut counts = Counts::default();
        for number in 0..count {
            let case = Generator::case(Style::Wide, call, seed, number);
            counts.add(case.family, case.run(call).number);
        }
        println!("### {call:?}, {:.1?}\n", started.elapsed());
        println!("{}", counts.table());
    }
}
