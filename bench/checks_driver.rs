//! Compares the check of a witness with plain Rust that walks the same expressions row by row, for each
//! shape of lookups, and packing with plain Rust that keeps a degree in each node of an expression.
//!
//! A line for each has the time of both sides, the least of several runs, and their ratio.
mod plain;
mod plain_lookups;

use plain::{Base, Quartic};
use plain_lookups::{Challenge, Combine, Lookup, first_failing_row, generate, numbers_of, shape_of};
use std::collections::HashMap;
use std::hint::black_box;
use std::time::Instant;

unsafe extern "C" {
    fn shape_verify(numbers: *const u32, length: usize, shape: u32, rounds: u32) -> u32;
    fn lookups_pack(count: u32, buses: u32, max_degree: u32, rounds: u32, skip: u32) -> u32;
}

fn seconds(work: impl FnOnce() -> u32) -> f64 {
    let start = Instant::now();
    black_box(work());
    start.elapsed().as_secs_f64()
}

/// The least seconds of the second work beyond those of the first, in a number of runs.
fn least(runs: u32, mut without: impl FnMut() -> u32, mut with: impl FnMut() -> u32) -> f64 {
    let (mut first, mut second) = (f64::MAX, f64::MAX);
    for _ in 0..runs {
        first = first.min(seconds(&mut without));
        second = second.min(seconds(&mut with));
    }
    second - first
}

fn repeated(rounds: u32, work: impl Fn() -> u32) -> u32 {
    (0..rounds).fold(0, |_, _| black_box(work()))
}

/// A shape with a trace, and the witness that plain Rust makes for it.
struct Checked {
    width: usize,
    lookups: Vec<Lookup>,
    challenges: Vec<Challenge>,
    main: Vec<Base>,
    witness: (Vec<Quartic>, Quartic),
}

impl Checked {
    fn new(shape: u32, numbers: &[u32]) -> Checked {
        let (width, lookups, message_width) = shape_of(shape);
        let challenges = Challenge::of_all(&lookups, message_width);
        let main: Vec<Base> = numbers.iter().map(|n| Base::new(*n)).collect();
        let witness = generate(&main, width, &lookups, &challenges, Combine::Powers);
        Checked { width, lookups, challenges, main, witness }
    }

    fn first_failing_row(&self) -> Option<usize> {
        first_failing_row(&self.main, self.width, &self.lookups, &self.challenges, &self.witness)
    }

    /// The same answer as `shape_verify`.
    fn verdict(&self) -> u32 {
        match self.first_failing_row() {
            Some(_) => u32::MAX,
            None => u32::from(self.witness.1 != Quartic::ZERO),
        }
    }

    /// Plain Rust refuses another cell, on its row, and another terminal.
    fn refuses_changes(&mut self) {
        let columns = self.lookups.len() + 1;
        let last = self.main.len() / self.width - 1;
        for (row, cell) in [(0, 0), (0, 1), (last / 2, 0), (last / 2, 1), (last, 0), (last, 1)] {
            let kept = self.witness.0[row * columns + cell];
            self.witness.0[row * columns + cell] = kept + Quartic::ONE;
            let failing = if cell == 0 && row > 0 { row - 1 } else { row };
            assert_eq!(self.first_failing_row(), Some(failing));
            self.witness.0[row * columns + cell] = kept;
        }
        let kept = self.witness.1;
        self.witness.1 = kept + Quartic::ONE;
        assert_eq!(self.first_failing_row(), Some(last));
        self.witness.1 = kept;
    }
}

fn compare_checks(name: &str, shape: u32, rows: usize) {
    let numbers = numbers_of(shape, rows);
    let mut plain = Checked::new(shape, &numbers);
    let verified =
        |rounds| unsafe { shape_verify(numbers.as_ptr(), numbers.len(), shape, rounds) };
    assert_eq!(plain.verdict(), verified(1), "{name}: the two sides disagree");
    if rows == 1 << 10 {
        plain.refuses_changes();
    }
    let rounds = ((1 << 16) / rows) as u32;
    let of_library = least(7, || verified(0), || verified(rounds));
    let of_plain = least(7, || 0, || repeated(rounds, || black_box(&plain).verdict()));
    let all = rows as f64 * plain.lookups.len() as f64 * rounds as f64;
    println!(
        "{name:16} {rows:8} {:9.1} {:9.1} {:7.2}",
        of_library * 1e9 / all,
        of_plain * 1e9 / all,
        of_library / of_plain
    );
}

/// A node of an expression with its degree.
#[derive(Clone)]
struct Node {
    column: usize,
    degree: usize,
}

/// A lookup on a bus: its tuples, each with its count.
#[derive(Clone)]
struct OnBus {
    bus: String,
    tuples: Vec<(Vec<Node>, Node)>,
    weight: u64,
}

fn on_buses(count: u32, buses: u32) -> Vec<OnBus> {
    let node = |column| Node { column, degree: 1 };
    let lookup = |place: u32| OnBus {
        bus: format!("bus {}", place % buses),
        tuples: vec![((0..4).map(|i| node(4 * (place as usize % 8) + i)).collect(), node(32))],
        weight: 1,
    };
    (0..count).map(lookup).collect()
}

/// The degree of the constraint of these tuples, in one pass over them.
fn degree(tuples: &[(Vec<Node>, Node)]) -> usize {
    let (mut denominator, mut greatest) = (0, 0);
    for (tuple, count) in tuples {
        let of_tuple = tuple.iter().map(|node| node.degree).max().unwrap_or(0);
        greatest = (greatest + of_tuple).max(count.degree + denominator);
        denominator += of_tuple;
    }
    greatest.max(1 + denominator)
}

/// Packs greedily, as the Rust crate does: each trial asks for the degree of the whole column.
fn pack(lookups: Vec<OnBus>, max_degree: usize) -> Vec<OnBus> {
    let (mut places, mut buses) = (HashMap::new(), Vec::<Vec<OnBus>>::new());
    for lookup in lookups {
        let place = *places.entry(lookup.bus.clone()).or_insert(buses.len());
        if place == buses.len() {
            buses.push(Vec::new());
        }
        buses[place].push(lookup);
    }
    let mut columns = Vec::new();
    for members in buses {
        let mut filled: Vec<OnBus> = Vec::new();
        for mut next in members {
            let Some(open) = filled.last_mut() else {
                filled.push(next);
                continue;
            };
            let pivot = open.tuples.len();
            open.tuples.append(&mut next.tuples);
            if degree(&open.tuples) <= max_degree {
                open.weight += next.weight;
            } else {
                next.tuples = open.tuples.split_off(pivot);
                filled.push(next);
            }
        }
        columns.append(&mut filled);
    }
    columns
}

/// The columns have the tuples of the lookups, each under its bus, and their weight.
fn keeps_all(lookups: &[OnBus], columns: &[OnBus]) {
    let all = |sets: &[OnBus]| {
        let mut found: Vec<(String, Vec<usize>, usize)> = Vec::new();
        for set in sets {
            for (tuple, count) in &set.tuples {
                let places = tuple.iter().map(|node| node.column).collect();
                found.push((set.bus.clone(), places, count.column));
            }
        }
        found.sort();
        (found, sets.iter().map(|set| set.weight).sum::<u64>())
    };
    assert_eq!(all(lookups), all(columns), "plain Rust loses a tuple");
}

fn compare_packing(count: u32, buses: u32, max_degree: u32) {
    let rounds = 1 + 20_000 / count;
    let packed = |skip| unsafe { lookups_pack(count, buses, max_degree, rounds, skip) };
    let lookups = on_buses(count, buses);
    let packed_plainly = || pack(black_box(lookups.clone()), max_degree as usize).len() as u32;
    assert_eq!(packed(0), packed_plainly(), "{count} lookups on {buses} buses: the sides disagree");
    keeps_all(&lookups, &pack(lookups.clone(), max_degree as usize));
    let of_library = least(7, || packed(1), || packed(0));
    let of_plain = least(
        7,
        || repeated(rounds, || black_box(lookups.clone()).len() as u32),
        || repeated(rounds, packed_plainly),
    );
    let all = rounds as f64;
    println!(
        "{count:8} {buses:6} {max_degree:8} {:9.1} {:9.1} {:7.2}",
        of_library * 1e6 / all,
        of_plain * 1e6 / all,
        of_library / of_plain
    );
}

fn main() {
    println!("{:16} {:>8} {:>9} {:>9} {:>7}", "lookups", "rows", "verify", "plain", "ratio");
    let names = ["one local", "eight on buses", "one exclusive", "products"];
    for (shape, name) in names.iter().enumerate() {
        for rows in [1, 4, 8, 1 << 10, 1 << 12, 1 << 14, 1 << 16] {
            compare_checks(name, shape as u32, rows);
        }
    }
    println!(
        "{:>8} {:>6} {:>8} {:>9} {:>9} {:>7}",
        "lookups", "buses", "degree", "packing", "plain", "ratio"
    );
    for max_degree in [3, 1_000_000] {
        for buses in [1, 4, 64] {
            for count in [64, 256, 1024] {
                compare_packing(count, buses, max_degree);
            }
        }
    }
}
