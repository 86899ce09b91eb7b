//! Compares calls through the crate for Rust on one, two and four threads, and with plain Rust on as many.
//!
//! One AIR has eight lookups, each of a tuple of four columns; every tuple that one of the first four
//! queries, one of the others provides on another row. A line for each number of threads has the wall
//! time of a call in milliseconds, the least of several runs, and the ratio to one thread, and the same of
//! plain Rust.
mod plain;
mod plain_lookups;

use plain::{Base, Quartic};
use plain_lookups::{
    Challenge, Combine, Lookup, first_failing_row_of, generate_into, numbers_of, shape_of,
};
use std::hint::black_box;
use std::ops::Range;
use std::thread;
use std::time::Instant;
use volgwain::{Air, Batch, Count, Element, Expr, Message, Traces, Witness};

const ALPHA: [u32; 4] = [9, 2, 6, 5];
const BETA: [u32; 4] = [3, 1, 4, 15];

/// The shape of the AIR, and its columns: eight tuples of four, and the count.
const SHAPE: u32 = 1;
const WIDTH: usize = 33;

/// How often each call is made. The least time counts.
const RUNS: usize = 7;

/// The AIR for the library.
fn air() -> Air {
    let lookup = |i: usize| {
        let tuple: Vec<Expr> = (4 * i..4 * i + 4).map(Expr::main).collect();
        let message = if i < 4 {
            Message::query(tuple, Count::bounded(Expr::main(32), 3))
        } else {
            Message::provide(tuple, Expr::main(32))
        };
        volgwain::Lookup::on_bus(format!("{}", i % 4), [message])
    };
    Air::new((0..8).map(lookup)).expect("the lookups make an AIR")
}

/// Rows that balance: what columns 0 to 15 have on a row, columns 16 to 31 have on another one.
fn balanced_numbers(rows: usize) -> Vec<u32> {
    let mut numbers = numbers_of(SHAPE, rows);
    for row in 0..rows {
        let other = (row * 40_503 + 7) % rows * WIDTH;
        numbers.copy_within(other..other + 16, row * WIDTH + 16);
        numbers[row * WIDTH + 32] = 3;
    }
    numbers
}

/// The same AIR in plain Rust, with its trace.
struct Plain {
    lookups: Vec<Lookup>,
    challenges: Vec<Challenge>,
    main: Vec<Base>,
}

impl Plain {
    fn new(numbers: &[u32]) -> Plain {
        let (_, lookups, message_width) = shape_of(SHAPE);
        let challenges = Challenge::of_all(&lookups, message_width);
        Plain { lookups, challenges, main: numbers.iter().map(|n| Base::new(*n)).collect() }
    }

    fn height(&self) -> usize {
        self.main.len() / WIDTH
    }

    /// As many ranges of rows as there are threads.
    fn ranges(&self, threads: usize) -> Vec<Range<usize>> {
        let ends = (0..=threads).map(|place| place * self.height() / threads);
        let ends: Vec<usize> = ends.collect();
        ends.windows(2).map(|pair| pair[0]..pair[1]).collect()
    }

    /// Generates each range on a thread, adds to its accumulators the sums of those before it, and
    /// returns the sum of all.
    fn prove(&self, threads: usize, cells: &mut [Quartic]) -> Quartic {
        let generate = |rows: Range<usize>, part: &mut [Quartic]| {
            let main = &self.main[rows.start * WIDTH..rows.end * WIDTH];
            let (lookups, challenges) = (&self.lookups, &self.challenges);
            generate_into(part, main, WIDTH, lookups, challenges, Combine::Powers)
        };
        let ranges = self.ranges(threads);
        let sums: Vec<Quartic> = thread::scope(|scope| {
            let parts = ranges.iter().zip(self.parts(&ranges, cells));
            let begin = |(rows, part)| {
                let rows = Range::clone(rows);
                scope.spawn(move || generate(rows, part))
            };
            let begun: Vec<_> = parts.map(begin).collect();
            begun.into_iter().map(|thread| thread.join().expect("no thread panics")).collect()
        });
        thread::scope(|scope| {
            let mut offset = Quartic::ZERO;
            for (part, sum) in self.parts(&ranges, cells).into_iter().zip(sums) {
                let added = offset;
                if added != Quartic::ZERO {
                    let rows = part.chunks_mut(self.columns());
                    scope.spawn(move || rows.for_each(|row| row[0] = row[0] + added));
                }
                offset = offset + sum;
            }
            offset
        })
    }

    /// How many cells make a row of the auxiliary trace.
    fn columns(&self) -> usize {
        self.lookups.len() + 1
    }

    /// The cells of each range.
    fn parts<'a>(&self, ranges: &[Range<usize>], cells: &'a mut [Quartic]) -> Vec<&'a mut [Quartic]> {
        let mut rest = cells;
        let part = |rows: &Range<usize>| {
            let (part, after) = std::mem::take(&mut rest).split_at_mut(rows.len() * self.columns());
            rest = after;
            part
        };
        ranges.iter().map(part).collect()
    }

    /// Whether every range is accepted, and the terminal is zero.
    fn verify(&self, witness: &(Vec<Quartic>, Quartic), threads: usize) -> bool {
        let is_accepted = |rows: &Range<usize>| {
            let (rows, lookups, challenges) = (rows.clone(), &self.lookups, &self.challenges);
            first_failing_row_of(rows, &self.main, WIDTH, lookups, challenges, witness).is_none()
        };
        let ranges = self.ranges(threads);
        let rows = thread::scope(|scope| {
            let begin = |rows: Range<usize>| scope.spawn(move || is_accepted(&rows));
            let begun: Vec<_> = ranges[1..].iter().cloned().map(begin).collect();
            let first = is_accepted(&ranges[0]);
            begun.into_iter().fold(first, |all, it| it.join().expect("no thread panics") && all)
        });
        rows && witness.1 == Quartic::ZERO
    }
}

/// The least milliseconds of each work in some runs, in turn.
fn least(works: &mut [Box<dyn FnMut() + '_>]) -> Vec<f64> {
    let mut least = vec![f64::MAX; works.len()];
    for _ in 0..RUNS {
        for (least, work) in least.iter_mut().zip(works.iter_mut()) {
            let start = Instant::now();
            work();
            *least = least.min(start.elapsed().as_secs_f64() * 1e3);
        }
    }
    least
}

fn print(call: &str, rows: usize, threads: &[usize], ours: &[f64], plain: &[f64]) {
    for (place, threads) in threads.iter().enumerate() {
        println!(
            "{call:8} {rows:8} {threads:7} {:9.1} {:6.2} {:9.1} {:6.2} {:8.2}",
            ours[place],
            ours[place] / ours[0],
            plain[place],
            plain[place] / plain[0],
            ours[place] / plain[place]
        );
    }
}

fn compare(rows: usize) {
    let numbers = balanced_numbers(rows);
    let (traces, plain) = ([Traces::new(&numbers, WIDTH)], Plain::new(&numbers));
    let (alpha, beta): (Element, Element) = (ALPHA.into(), BETA.into());
    let batch = Batch::new([(&air(), rows)]).expect("the AIR makes a batch");
    let threads = [1, 2, 4];
    let batches = threads.map(|threads| batch.clone().with_threads(threads));
    let witness = batches[0].prove(&traces, alpha, beta).expect("there is no fault");
    let mut plainly = (vec![Quartic::ZERO; rows * plain.columns()], Quartic::ZERO);
    plainly.1 = plain.prove(1, &mut plainly.0);
    let cells = |cells: &[Quartic]| cells.iter().map(|x| x.0.map(Base::number)).collect::<Vec<_>>();
    let part = witness.air(0).expect("there is an AIR");
    let same = part.auxiliary.iter().map(|x| x.coefficients()).eq(cells(&plainly.0));
    assert!(same, "{rows} rows: the two sides disagree");
    for (batch, threads) in batches.iter().zip(threads) {
        assert_eq!(batch.prove(&traces, alpha, beta).as_ref(), Ok(&witness), "{threads} threads");
        assert_eq!(batch.verify(&traces, alpha, beta, &witness), Ok(()), "{threads} threads");
        let mut cells = vec![Quartic::ONE; plainly.0.len()];
        assert!(plain.prove(threads, &mut cells) == plainly.1 && cells == plainly.0);
        assert!(plain.verify(&plainly, threads));
    }
    let mut again: Vec<Witness> = batches.iter().map(|_| witness.clone()).collect();
    let mut plain_cells = threads.map(|_| plainly.0.clone());
    let mut works: Vec<Box<dyn FnMut() + '_>> = Vec::new();
    for (batch, witness) in batches.iter().zip(&mut again) {
        works.push(Box::new(|| batch.prove_into(&traces, alpha, beta, witness).expect("no fault")));
    }
    for (threads, cells) in threads.into_iter().zip(&mut plain_cells) {
        let plain = &plain;
        works.push(Box::new(move || {
            black_box(plain.prove(threads, cells));
        }));
    }
    let times = least(&mut works);
    print("prove", rows, &threads, &times[..3], &times[3..]);
    let mut works: Vec<Box<dyn FnMut() + '_>> = Vec::new();
    for batch in &batches {
        works.push(Box::new(|| batch.verify(&traces, alpha, beta, &witness).expect("accepted")));
    }
    for threads in threads {
        let (plain, plainly) = (&plain, &plainly);
        works.push(Box::new(move || assert!(plain.verify(plainly, threads))));
    }
    let times = least(&mut works);
    print("verify", rows, &threads, &times[..3], &times[3..]);
}

fn main() {
    println!(
        "{:8} {:>8} {:>7} {:>9} {:>6} {:>9} {:>6} {:>8}",
        "call", "rows", "threads", "ms", "ratio", "plain", "ratio", "beside"
    );
    [1 << 18, 1 << 20].into_iter().for_each(compare);
}
