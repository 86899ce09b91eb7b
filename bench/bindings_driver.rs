//! Compares calls through the crate for Rust with the library's own calls on the same numbers.
//!
//! A call through the crate reads lookups and traces as tables of numbers each time, makes the
//! plan, and writes what it makes as numbers. The library's own makes lookups, traces and plan
//! once, and then the call alone, a number of times. What both make has to be the same.
//!
//! A line for each height has the nanoseconds for a row and lookup, the least of several runs:
//! those of the crate with a new witness each time, those of the crate in the memory of the
//! witness before, those of the library's own call, and those of the library's own call with all
//! that is made before it, from the numbers on. After each of the library's stand the ratios to it.
#![allow(dead_code)]

mod plain;
mod plain_lookups;

use plain::{Base, Quartic};
use plain_lookups::{checksum, element, number_of, numbers_of};
use std::hint::black_box;
use std::time::Instant;
use volgwain::{Air, Batch, Count, Element, Expr, Lookup, Message, Traces, Witness};

unsafe extern "C" {
    fn lookup_generate(
        numbers: *const u32,
        length: usize,
        shape: u32,
        rounds: u32,
        skip: u32,
    ) -> u32;
    fn batch_prove(
        asked: *const u32,
        asked_length: usize,
        provided: *const u32,
        provided_length: usize,
        rounds: u32,
        skip: u32,
    ) -> u32;
    fn batch_verify(
        asked: *const u32,
        asked_length: usize,
        provided: *const u32,
        provided_length: usize,
        rounds: u32,
    ) -> u32;
}

const ALPHA: [u32; 4] = [9, 2, 6, 5];
const BETA: [u32; 4] = [3, 1, 4, 15];

/// How many columns an AIR of the batch has: a tuple of four for each bus, and the count.
const WIDTH: usize = 17;

/// How many lookups an AIR of the batch has, one on each bus.
const LOOKUPS: usize = 4;

/// The tuple of some columns from the first one on.
fn columns(first: usize, width: usize) -> Vec<Expr> {
    (first..first + width).map(Expr::main).collect()
}

/// The tuple of four columns for a bus, sent as often as a column says, or as many times less.
fn message(first: usize, count: usize, is_asked: bool) -> Message {
    if is_asked {
        Message::query(columns(first, 4), Count::bounded(Expr::main(count), 4))
    } else {
        Message::provide(columns(first, 4), Expr::main(count))
    }
}

/// The AIR of a shape, its width, and the number of each lookup's id.
fn shape_of(shape: u32) -> (Air, usize, Vec<u32>) {
    let c = Expr::main;
    let (lookups, width, ids) = match shape {
        0 => {
            let provided = Message::provide([c(1)], c(2));
            (vec![Lookup::local([Message::query([c(0)], 1), provided])], 3, vec![0])
        }
        1 => {
            let lookup =
                |i: usize| Lookup::on_bus(format!("{}", i % 4), [message(4 * i, 32, i < 4)]);
            ((0..8).map(lookup).collect(), 33, (0..8).map(|i| i % 4).collect())
        }
        2 => {
            let branch = |i| Message::query(columns(4 + 2 * i, 2), 1).when(c(i));
            (vec![Lookup::exclusive_local((0..4).map(branch))], 12, vec![0])
        }
        _ => {
            let first = c(0) * c(1) + c(2) - c(3);
            let second = c(0) * (c(1) - c(2)) + c(3) * c(4);
            let count = Count::bounded(c(5) * c(6), 1);
            (vec![Lookup::local([Message::query([first, second], count)])], 8, vec![0])
        }
    };
    (Air::new(lookups).expect("the lookups make an AIR"), width, ids)
}

/// The challenges of an id, for messages of four elements.
fn challenge(id: u32) -> [Element; 2] {
    let beta = element(BETA);
    let prefix = element(ALPHA) + beta * beta * beta * beta * Base::new(id + 1);
    [Element::new(prefix.0.map(Base::number)), Element::new(BETA)]
}

/// The AIRs of the batch, with the height of their traces. One thread works on it, as in the library's own
/// calls.
fn batch_of(rows: usize) -> Batch {
    let air = |is_asked| {
        let lookup =
            |bus| Lookup::on_bus(format!("bus {bus}"), [message(4 * bus, WIDTH - 1, is_asked)]);
        Air::new((0..LOOKUPS).map(lookup)).expect("the lookups make an AIR")
    };
    let batch = Batch::new([(&air(true), rows), (&air(false), rows)]);
    batch.expect("the AIRs make a batch").with_threads(1)
}

/// The numbers of the traces of the batch. The second AIR has the rows of the first in another
/// order.
fn batch_numbers(rows: usize) -> [Vec<u32>; 2] {
    let mut asked = numbers_of(1, rows * WIDTH / 33 + 1);
    asked.truncate(rows * WIDTH);
    asked.chunks_mut(WIDTH).for_each(|row| row[WIDTH - 1] = 1 + (row[WIDTH - 1] >> 17) % 4);
    let other = |row: usize| (row * 40_503 + 7) % rows;
    let provided =
        (0..rows).flat_map(|row| asked[other(row) * WIDTH..][..WIDTH].to_vec()).collect();
    [asked, provided]
}

/// The checksum of a witness, as the library's own calls give it.
fn checksum_of(witness: &Witness) -> u32 {
    let plain = |x: &Element| element(x.coefficients());
    number_of(witness.airs().fold(Quartic::ZERO, |sum, part| {
        let cells: Vec<Quartic> = part.auxiliary.iter().map(plain).collect();
        checksum(sum, &cells, plain(&part.terminal.expect("a terminal")))
    }))
}

/// The nanoseconds of calls for a row and lookup.
struct Times {
    /// Through the crate, in each way to call it.
    through: Vec<f64>,
    /// The library's own call.
    own: f64,
    /// The same with all that it takes from the numbers on.
    from_numbers: f64,
}

/// The least times in some runs. `own` does this many calls.
fn least(units: usize, ways: &mut [&mut dyn FnMut()], own: &dyn Fn(u32) -> u32) -> Times {
    let rounds = ((1 << 20) / units).clamp(2, 64) as u32;
    let seconds = |work: &mut dyn FnMut()| {
        let start = Instant::now();
        work();
        start.elapsed().as_secs_f64()
    };
    let repeated = |work: &mut dyn FnMut()| (0..rounds).for_each(|_| work());
    let mut through = vec![f64::MAX; ways.len()];
    let mut least = [f64::MAX; 3];
    for _ in 0..7 {
        for (least, way) in through.iter_mut().zip(ways.iter_mut()) {
            *least = least.min(seconds(&mut || repeated(way)));
        }
        let call = |rounds| {
            black_box(own(rounds));
        };
        let works: [&mut dyn FnMut(); 3] =
            [&mut || call(rounds), &mut || call(0), &mut || repeated(&mut || call(1))];
        for (least, work) in least.iter_mut().zip(works) {
            *least = least.min(seconds(work));
        }
    }
    let each = |time: f64| time * 1e9 / units as f64 / f64::from(rounds);
    let [all, before, from_numbers] = least.map(each);
    Times { through: through.into_iter().map(each).collect(), own: all - before, from_numbers }
}

/// Prints the times of the crate, and those of the library's calls with the ratios to each.
fn print(name: &str, rows: usize, through: &[f64], own: &[f64]) {
    print!("{name:10} {rows:8}");
    through.iter().for_each(|time| print!(" {time:8.1}"));
    for own in own {
        print!(" {own:12.1}");
        through.iter().for_each(|time| print!(" {:6.2}", time / own));
    }
    println!();
}

fn compare_generation(shape: u32, rows: usize) {
    let ((air, width, ids), numbers) = (shape_of(shape), numbers_of(shape, rows));
    let challenges: Vec<[Element; 2]> = ids.into_iter().map(challenge).collect();
    let traces = Traces::new(&numbers, width);
    let generate = || air.generate(&traces, &challenges).expect("there is no fault");
    let own = |rounds, skip| unsafe {
        lookup_generate(numbers.as_ptr(), numbers.len(), shape, rounds, skip)
    };
    assert_eq!(checksum_of(&generate()), own(1, 0), "shape {shape}, {rows} rows");
    let mut witness = generate();
    let mut again =
        || air.generate_into(&traces, &challenges, &mut witness).expect("there is no fault");
    let ways: &mut [&mut dyn FnMut()] = &mut [&mut || drop(black_box(generate())), &mut again];
    let times = least(rows * air.len(), ways, &|rounds| own(rounds, 1));
    assert_eq!(checksum_of(&witness), own(1, 0), "shape {shape}, {rows} rows, again");
    print(&format!("shape {shape}"), rows, &times.through, &[times.own, times.from_numbers]);
}

fn compare_proving(rows: usize) {
    let (batch, numbers) = (batch_of(rows), batch_numbers(rows));
    let traces = numbers.each_ref().map(|numbers| Traces::new(numbers, WIDTH));
    let [asked, provided] = &numbers;
    let prove = || batch.prove(&traces, ALPHA.into(), BETA.into()).expect("there is no fault");
    let own = |rounds, skip| unsafe {
        batch_prove(asked.as_ptr(), asked.len(), provided.as_ptr(), provided.len(), rounds, skip)
    };
    assert_eq!(checksum_of(&prove()), own(1, 0), "{rows} rows");
    let (alpha, beta) = (ALPHA.into(), BETA.into());
    let mut witness = prove();
    let mut again =
        || batch.prove_into(&traces, alpha, beta, &mut witness).expect("there is no fault");
    let ways: &mut [&mut dyn FnMut()] = &mut [&mut || drop(black_box(prove())), &mut again];
    let times = least(rows * 2 * LOOKUPS, ways, &|rounds| own(rounds, 1));
    assert_eq!(checksum_of(&witness), own(1, 0), "{rows} rows, again");
    print("prove", rows, &times.through, &[times.own, times.from_numbers]);
}

fn compare_verifying(rows: usize) {
    let (batch, numbers) = (batch_of(rows), batch_numbers(rows));
    let traces = numbers.each_ref().map(|numbers| Traces::new(numbers, WIDTH));
    let [asked, provided] = &numbers;
    let (alpha, beta) = (ALPHA.into(), BETA.into());
    let witness = batch.prove(&traces, alpha, beta).expect("there is no fault");
    let verify = || batch.verify(&traces, alpha, beta, &witness);
    let own = |rounds| unsafe {
        batch_verify(asked.as_ptr(), asked.len(), provided.as_ptr(), provided.len(), rounds)
    };
    assert_eq!((verify(), own(1)), (Ok(()), 0), "{rows} rows");
    let ways: &mut [&mut dyn FnMut()] = &mut [&mut || drop(black_box(verify()))];
    let times = least(rows * 2 * LOOKUPS, ways, &own);
    // from the numbers on the library makes the witness as well, which the crate is given
    print("verify", rows, &times.through, &[times.own]);
}

fn main() {
    println!(
        "{:10} {:>8} {:>8} {:>8} {:>12} {:>13} {:>12} {:>13}",
        "call", "rows", "crate", "again", "the call", "ratios", "from numbers", "ratios"
    );
    let heights = [1 << 10, 1 << 12, 1 << 14, 1 << 16, 1 << 18];
    for shape in 0..4 {
        heights.into_iter().for_each(|rows| compare_generation(shape, rows));
    }
    heights.into_iter().for_each(compare_proving);
    heights.into_iter().for_each(compare_verifying);
}
