//! Compares generation of auxiliary traces with plain Rust that does what the Rust crate does, on
//! the same traces.
//!
//! The plain side combines a tuple with powers of beta, as the Rust crate does today, or by Horner's
//! rule. A line for each shape and height has the nanoseconds for a row of the proved and of both
//! plain bodies, and both ratios: the least time of several runs less that of calls that only make
//! the trace from its numbers.
mod plain;
mod plain_lookups;

use plain::{Base, Quartic};
use plain_lookups::{Challenge, Combine, checksum, generate, number_of, numbers_of, shape_of};
use std::hint::black_box;
use std::time::Instant;

unsafe extern "C" {
    fn lookup_generate(numbers: *const u32, length: usize, shape: u32, rounds: u32, skip: u32) -> u32;
}

/// The same answer as `lookup_generate`.
fn answer(numbers: &[u32], shape: u32, combine: Combine, rounds: u32, skip: u32) -> u32 {
    let main: Vec<Base> = numbers.iter().map(|n| Base::new(*n)).collect();
    let (width, lookups, _) = shape_of(shape);
    let challenges = Challenge::of_all(&lookups, 4);
    let mut sum = Quartic::ZERO;
    for _ in 0..rounds {
        let (auxiliary, terminal) =
            black_box(generate(&main, width, &lookups, &challenges, combine));
        if skip != 1 {
            sum = checksum(Quartic::ZERO, &auxiliary, terminal);
        }
    }
    number_of(sum)
}

fn nanoseconds(work: impl FnOnce() -> u32) -> f64 {
    let start = Instant::now();
    black_box(work());
    start.elapsed().as_secs_f64() * 1e9
}

fn compare(name: &str, shape: u32, rows: usize) {
    let numbers = numbers_of(shape, rows);
    let proved = |rounds: u32, skip: u32| unsafe {
        lookup_generate(numbers.as_ptr(), numbers.len(), shape, rounds, skip)
    };
    let wanted = answer(&numbers, shape, Combine::Powers, 1, 0);
    assert_eq!(wanted, answer(&numbers, shape, Combine::Horner, 1, 0), "{name}: the models disagree");
    assert_eq!(wanted, proved(1, 0), "{name}: the two sides disagree");
    assert_ne!(wanted, u32::MAX, "{name}: refused");
    let (runs, rounds) = if rows > 1 << 16 { (5, 4) } else { (9, ((1 << 16) / rows as u32).max(4)) };
    let times = |rounds: u32| {
        [
            nanoseconds(|| proved(rounds, 1)),
            nanoseconds(|| answer(&numbers, shape, Combine::Powers, rounds, 1)),
            nanoseconds(|| answer(&numbers, shape, Combine::Horner, rounds, 1)),
        ]
    };
    let (mut least, mut made) = ([f64::MAX; 3], [f64::MAX; 3]);
    for _ in 0..runs {
        least.iter_mut().zip(times(rounds)).for_each(|(least, time)| *least = least.min(time));
        made.iter_mut().zip(times(0)).for_each(|(least, time)| *least = least.min(time));
    }
    let of_row = |i: usize| (least[i] - made[i]) / (rows as f64 * rounds as f64);
    let [proved, powers, horner] = [0, 1, 2].map(of_row);
    println!(
        "{name:34} {proved:8.0} {powers:8.0} {:7.2} {horner:8.0} {:7.2}",
        proved / powers,
        proved / horner
    );
}

fn main() {
    println!(
        "{:34} {:>8} {:>8} {:>7} {:>8} {:>7}",
        "lookups", "proved", "powers", "ratio", "Horner", "ratio"
    );
    for rows in [10, 12, 14, 16, 18].map(|bits| 1 << bits) {
        for (shape, name) in ["one local", "eight on buses", "one exclusive", "products"].iter().enumerate() {
            compare(&format!("{name}, {rows} rows"), shape as u32, rows);
        }
    }
}
