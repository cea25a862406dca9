//! The fixed lists: runs of records, each a 16-bit length and a body.

use super::algebra;
use super::engine::{Call, Case};
use super::factor;
use super::families::{Generator, Style};
use super::made;
use std::collections::{BTreeMap, BTreeSet};
use std::path::{Path, PathBuf};

/// No record's body is longer, but for a sequence of free sets.
pub const LONGEST_BODY: usize = 16_000;
pub const LONGEST_SEQUENCE: usize = 24_000;

/// A list and what it holds.
#[derive(Debug, Default)]
pub struct List {
    pub bytes: Vec<u8>,
    pub counts: Counts,
}

impl List {
    /// Adds a record, unless its body is too long.
    pub fn push(&mut self, group: &'static str, outcome: u32, body: &[u8]) -> bool {
        self.push_up_to(LONGEST_BODY, group, outcome, body)
    }

    fn push_up_to(
        &mut self,
        longest: usize,
        group: &'static str,
        outcome: u32,
        body: &[u8],
    ) -> bool {
        let fits = body.len() <= longest;
        if fits {
            let length = body.len() as u16;
            self.bytes.extend(length.to_le_bytes());
            self.bytes.extend(body);
            self.counts.add(group, outcome);
        }
        fits
    }

    /// Writes the list of a program and prints what it holds.
    pub fn write(&self, program: &str) -> std::io::Result<()> {
        std::fs::write(path(program), &self.bytes)?;
        self.print(program);
        Ok(())
    }

    fn print(&self, name: &str) {
        let (records, bytes) = (self.counts.total(), self.bytes.len());
        println!("### {name}\n\n{records} records, {bytes} bytes.\n");
        println!("{}", self.counts.table());
    }
}

/// Writes named lists, one after the other, as the list of a program and prints what each holds.
pub fn write_all(program: &str, parts: &[(&str, List)]) -> std::io::Result<()> {
    let bytes: Vec<_> = parts.iter().map(|(_, list)| &list.bytes[..]).collect();
    std::fs::write(path(program), bytes.concat())?;
    for (name, list) in parts {
        list.print(&format!("{program}, {name}"));
    }
    Ok(())
}

/// Where the list of a program is: its standard input.
pub fn path(program: &str) -> PathBuf {
    let reference = Path::new(env!("CARGO_MANIFEST_DIR"));
    reference.join("../crates").join(program).join("stdin")
}

/// How many cases there are of each group and outcome.
#[derive(Debug, Default)]
pub struct Counts(BTreeMap<(&'static str, u32), usize>);

impl Counts {
    pub fn add(&mut self, group: &'static str, outcome: u32) {
        *self.0.entry((group, outcome)).or_default() += 1;
    }

    pub fn total(&self) -> usize {
        self.0.values().sum()
    }

    pub fn of(&self, group: &'static str, outcome: u32) -> usize {
        self.0.get(&(group, outcome)).copied().unwrap_or(0)
    }

    /// The table of groups and outcomes, in Markdown.
    pub fn table(&self) -> String {
        let groups: BTreeSet<_> = self.0.keys().map(|key| key.0).collect();
        let outcomes: BTreeSet<_> = self.0.keys().map(|key| key.1).collect();
        let row = |name: &str, cells: Vec<String>| format!("| {name} | {} |\n", cells.join(" | "));
        let mut table = row("", outcomes.iter().map(u32::to_string).collect());
        table += &row("---", outcomes.iter().map(|_| "---:".to_string()).collect());
        for &group in &groups {
            let cells = outcomes.iter().map(|&o| match self.of(group, o) {
                0 => String::new(),
                count => count.to_string(),
            });
            table += &row(group, cells.collect());
        }
        let total = |&o: &u32| groups.iter().map(|&g| self.of(g, o)).sum::<usize>();
        let totals = outcomes.iter().map(|o| format!("**{}**", total(o)));
        table + &row("**all**", totals.collect())
    }
}

/// The cases of a call: those made on purpose, then seeded ones up to `count` records.
pub fn engine(call: Call, seed: u64, count: usize) -> List {
    let mut list = List::default();
    let mut searches = LongSearches::default();
    let seeded = (0..).map(|number| Generator::case(Style::Compact, call, seed, number));
    for case in made::cases().into_iter().chain(seeded) {
        if list.counts.total() == count {
            break;
        }
        let outcome = case.run(call);
        if call == Call::Capped && outcome.number == 14 && !searches.admit(&case) {
            continue;
        }
        list.push(case.family, outcome.number, &case.encode(call, &outcome));
    }
    list
}

/// The problems whose cap no raise reaches, each of which takes a thousand solves. A list has few
/// of them, so that it is replayed in a few seconds.
#[derive(Default)]
struct LongSearches {
    small: usize,
    large: usize,
}

impl LongSearches {
    /// Whether `case`, which the capped call refuses, goes into the list.
    fn admit(&mut self, case: &Case) -> bool {
        let solved_uncapped = [0, 13].contains(&case.run(Call::Piecewise).number);
        let (count, most) = match case.n {
            0..=6 => (&mut self.small, 90),
            _ => (&mut self.large, 8),
        };
        *count += usize::from(solved_uncapped);
        !solved_uncapped || *count <= most
    }
}

/// The list of the kernels.
pub fn algebra(seed: u64) -> List {
    let mut list = List::default();
    for (kind, name, count) in algebra::KINDS {
        let mut added = 0;
        for number in 0.. {
            if added == count {
                break;
            }
            let case = algebra::Generator::case(kind, seed, number);
            let outcome = case.run();
            let body = case.encode(&outcome);
            added += usize::from(list.push(name, u32::from(outcome.is_none()), &body));
        }
    }
    list
}

/// The list of the factor, with the ways of its updates and the outcomes of its systems by family.
#[derive(Default)]
pub struct Factors {
    pub list: List,
    pub updates: Counts,
    pub systems: Counts,
}

pub fn factors(seed: u64) -> Factors {
    let mut factors = Factors::default();
    for (family, (_, count)) in factor::SEQUENCES.into_iter().enumerate() {
        for number in 0..count {
            factors.push_sequence(factor::Generator::sequence(family, seed, number));
        }
    }
    for (family, (_, count)) in factor::SYSTEMS.into_iter().enumerate() {
        for number in 0..count {
            factors.push_system(factor::Generator::system(family, seed, number));
        }
    }
    factors
}

impl Factors {
    fn push_sequence(&mut self, sequence: factor::Sequence) {
        let outcomes = sequence.run();
        let body = sequence.encode(&outcomes);
        let fits = self.list.push_up_to(LONGEST_SEQUENCE, "sequence", 0, &body);
        assert!(fits, "a body of {} bytes", body.len());
        for (_, way) in &outcomes {
            self.updates.add(sequence.family, *way as u32);
        }
    }

    fn push_system(&mut self, system: factor::System) {
        let solution = system.run();
        let outcome = u32::from(solution.is_none());
        let body = system.encode(&solution);
        let fits = self.list.push("system", outcome, &body);
        assert!(fits, "a body of {} bytes", body.len());
        self.systems.add(system.family, outcome);
    }
}
