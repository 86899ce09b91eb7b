//! Compares `prove` and `verify` of a plan with the library's own generation and with plain Rust, on
//! the same traces.
//!
//! Plain Rust generates the auxiliary traces as the Rust crate does. To verify them it evaluates the
//! same expressions row by row, as a plain verifier would: `U * f = V` for each lookup, the three
//! equations of the accumulator, and at last the sum of the terminals. It combines tuples with powers of
//! beta. A line for each height has the nanoseconds for a row and lookup of each side, the least of
//! several runs, and the ratios.
mod plain;
mod plain_lookups;

use plain::{Base, Quartic};
use plain_lookups::{
    Challenge, Combine, Lookup, checksum, column, columns, first_failing_row, generate, local,
    negative, number_of,
};
use std::hint::black_box;
use std::time::Instant;

unsafe extern "C" {
    fn batch_prove(
        asked: *const u32,
        asked_length: usize,
        provided: *const u32,
        provided_length: usize,
        rounds: u32,
        skip: u32,
    ) -> u32;
    fn batch_generate(
        asked: *const u32,
        asked_length: usize,
        provided: *const u32,
        provided_length: usize,
        rounds: u32,
        skip: u32,
    ) -> u32;
    fn batch_verify(
        asked: *const u32,
        asked_length: usize,
        provided: *const u32,
        provided_length: usize,
        rounds: u32,
    ) -> u32;
}

/// How many columns an AIR has: a tuple of four for each bus, and the count.
const WIDTH: usize = 17;

/// The column of the count.
const COUNT: usize = 16;

/// How many lookups an AIR has, one on each bus.
const LOOKUPS: usize = 4;

/// The numbers of both traces, row after row.
struct Numbers {
    asked: Vec<u32>,
    provided: Vec<u32>,
}

/// One AIR with its trace.
struct Air {
    lookups: Vec<Lookup>,
    challenges: Vec<Challenge>,
    main: Vec<Base>,
}

/// The auxiliary trace of an AIR, row after row, and its terminal.
type Answer = (Vec<Quartic>, Quartic);

/// What a verifier says.
#[derive(Debug, PartialEq)]
enum Verdict {
    Accepted,
    /// The terminals do not sum to zero.
    Unbalanced,
    /// A constraint of this AIR is not zero on this row.
    ConstraintFailed {
        air: usize,
        row: usize,
    },
}

fn airs(numbers: &Numbers) -> [Air; 2] {
    let air = |numbers: &[u32], asks: bool| {
        let lookup = |bus: usize| {
            let count = if asks { column(COUNT) } else { negative(column(COUNT)) };
            Lookup { id: bus as u32, ..local(vec![(columns(4 * bus, 4), count)]) }
        };
        let lookups: Vec<Lookup> = (0..LOOKUPS).map(lookup).collect();
        let challenges = Challenge::of_all(&lookups, 4);
        Air { lookups, challenges, main: numbers.iter().map(|n| Base::new(*n)).collect() }
    };
    [air(&numbers.asked, true), air(&numbers.provided, false)]
}

fn prove(airs: &[Air]) -> Vec<Answer> {
    airs.iter()
        .map(|air| generate(&air.main, WIDTH, &air.lookups, &air.challenges, Combine::Powers))
        .collect()
}

/// The same answer as `batch_prove` gives after one round.
fn checksum_of(answers: &[Answer]) -> u32 {
    number_of(answers.iter().fold(Quartic::ZERO, |sum, (cells, end)| checksum(sum, cells, *end)))
}

fn verify(airs: &[Air], answers: &[Answer]) -> Verdict {
    for (index, (air, answer)) in airs.iter().zip(answers).enumerate() {
        let failing = first_failing_row(&air.main, WIDTH, &air.lookups, &air.challenges, answer);
        if let Some(row) = failing {
            return Verdict::ConstraintFailed { air: index, row };
        }
    }
    let sum = answers.iter().fold(Quartic::ZERO, |sum, (_, terminal)| sum + *terminal);
    if sum == Quartic::ZERO { Verdict::Accepted } else { Verdict::Unbalanced }
}

/// The same answer as `batch_verify`.
fn verdict_of(airs: &[Air], answers: &[Answer]) -> u32 {
    match verify(airs, answers) {
        Verdict::Accepted => 0,
        Verdict::Unbalanced => 1,
        Verdict::ConstraintFailed { .. } => u32::MAX,
    }
}

/// Rows of random numbers with counts from 1 to 4. The second AIR has the same rows in another order.
fn numbers_of(rows: usize) -> Numbers {
    let mut state: u32 = 1;
    let mut next = || {
        state = state.wrapping_mul(1_664_525).wrapping_add(1_013_904_223);
        state >> 3
    };
    let mut asked: Vec<u32> = (0..rows * WIDTH).map(|_| next()).collect();
    asked.chunks_mut(WIDTH).for_each(|row| row[COUNT] = 1 + (row[COUNT] >> 17) % 4);
    let other = |row: usize| (row * 40_503 + 7) % rows;
    let provided = (0..rows).flat_map(|row| asked[other(row) * WIDTH..][..WIDTH].to_vec()).collect();
    Numbers { asked, provided }
}

impl Numbers {
    fn rows(&self) -> usize {
        self.asked.len() / WIDTH
    }

    fn proved(&self, rounds: u32, skip: u32) -> u32 {
        let (asked, provided) = (&self.asked, &self.provided);
        unsafe {
            batch_prove(asked.as_ptr(), asked.len(), provided.as_ptr(), provided.len(), rounds, skip)
        }
    }

    fn generated(&self, rounds: u32, skip: u32) -> u32 {
        let (asked, provided) = (&self.asked, &self.provided);
        unsafe {
            batch_generate(asked.as_ptr(), asked.len(), provided.as_ptr(), provided.len(), rounds, skip)
        }
    }

    fn verified(&self, rounds: u32) -> u32 {
        let (asked, provided) = (&self.asked, &self.provided);
        unsafe { batch_verify(asked.as_ptr(), asked.len(), provided.as_ptr(), provided.len(), rounds) }
    }
}

/// All sides agree on the witness, and both verifiers on this verdict.
fn agree(numbers: &Numbers, verdict: u32) {
    let (rows, airs) = (numbers.rows(), airs(numbers));
    let answers = prove(&airs);
    let wanted = checksum_of(&answers);
    assert_eq!(wanted, numbers.proved(1, 0), "{rows} rows: `prove` and plain Rust disagree");
    assert_eq!(wanted, numbers.generated(1, 0), "{rows} rows: generation and plain Rust disagree");
    assert_ne!(wanted, u32::MAX, "{rows} rows: refused");
    assert_eq!(verdict, numbers.verified(1), "{rows} rows: the verdict of `verify`");
    assert_eq!(verdict, verdict_of(&airs, &answers), "{rows} rows: the verdict of plain Rust");
}

/// Plain Rust refuses each cell that is another, and each terminal, on its row.
fn refuses_changes(numbers: &Numbers) {
    let airs = airs(numbers);
    let (mut answers, width, last) = (prove(&airs), LOOKUPS + 1, numbers.rows() - 1);
    for air in 0..2 {
        for (row, cell) in [(0, 0), (0, 3), (last / 2, 0), (last / 2, 1), (last, 0), (last, 4)] {
            let index = row * width + cell;
            let kept = answers[air].0[index];
            answers[air].0[index] = kept + Quartic::ONE;
            let row = if cell == 0 && row > 0 { row - 1 } else { row };
            assert_eq!(verify(&airs, &answers), Verdict::ConstraintFailed { air, row });
            answers[air].0[index] = kept;
        }
        let kept = answers[air].1;
        answers[air].1 = kept + Quartic::ONE;
        assert_eq!(verify(&airs, &answers), Verdict::ConstraintFailed { air, row: last });
        answers[air].1 = kept;
    }
    assert_eq!(verify(&airs, &answers), Verdict::Accepted);
}

fn seconds(work: impl FnOnce() -> u32) -> f64 {
    let start = Instant::now();
    black_box(work());
    start.elapsed().as_secs_f64()
}

/// Does something this often.
type Work<'a> = &'a dyn Fn(u32) -> u32;

/// The least nanoseconds of each work for a row and lookup, in a number of runs. What no round at all
/// takes is subtracted.
fn least<const N: usize>(rows: usize, runs: u32, rounds: u32, works: [Work; N]) -> [f64; N] {
    let mut least = [[f64::MAX; 2]; N];
    for _ in 0..runs {
        for (least, work) in least.iter_mut().zip(works) {
            for (least, rounds) in least.iter_mut().zip([0, rounds]) {
                *least = least.min(seconds(|| work(rounds)));
            }
        }
    }
    let all = (rows * 2 * LOOKUPS) as f64 * rounds as f64;
    least.map(|[once, whole]| (whole - once) * 1e9 / all)
}

fn repeated(rounds: u32, work: impl Fn() -> u32) -> u32 {
    (0..rounds).fold(0, |_, _| black_box(work()))
}

fn compare_proving(rows: usize) {
    let mut numbers = numbers_of(rows);
    numbers.asked[COUNT] += 1;
    agree(&numbers, 1);
    numbers.asked[COUNT] -= 1;
    agree(&numbers, 0);
    let airs = airs(&numbers);
    let proving = |rounds| numbers.proved(rounds, 1);
    let generating = |rounds| numbers.generated(rounds, 1);
    let plainly = |rounds| repeated(rounds, || prove(black_box(&airs)).len() as u32);
    let rounds = ((1 << 17) / rows) as u32;
    let [proved, generated, plain] = least(rows, 7, rounds, [&proving, &generating, &plainly]);
    println!(
        "{rows:10} {proved:9.1} {generated:11.1} {:7.2} {plain:9.1} {:7.2}",
        proved / generated,
        proved / plain
    );
}

fn compare_verifying(rows: usize) {
    let numbers = numbers_of(rows);
    let airs = airs(&numbers);
    let answers = prove(&airs);
    let verifying = |rounds| numbers.verified(rounds);
    let plainly = |rounds| repeated(rounds, || verdict_of(black_box(&airs), black_box(&answers)));
    let rounds = ((1 << 16) / rows) as u32;
    let [verified, plain] = least(rows, 5, rounds, [&verifying, &plainly]);
    println!("{rows:10} {verified:9.1} {plain:9.1} {:7.2}", verified / plain);
}

fn main() {
    let heights = [1 << 10, 1 << 12, 1 << 14, 1 << 16];
    refuses_changes(&numbers_of(heights[0]));
    println!(
        "{:>10} {:>9} {:>11} {:>7} {:>9} {:>7}",
        "rows", "prove", "generation", "ratio", "plain", "ratio"
    );
    heights.into_iter().for_each(compare_proving);
    println!("{:>10} {:>9} {:>9} {:>7}", "rows", "verify", "plain", "ratio");
    heights.into_iter().for_each(compare_verifying);
}
