//! Lookups in plain Rust, their generation and their check.
//!
//! Generation goes through chunks of 1024 rows. For each chunk it walks the expressions row by row,
//! collects denominators and multiplicities, inverts all denominators by prefix products and one
//! inverse, and adds up the fractions. It combines a tuple with powers of beta, as the Rust crate does
//! today, or by Horner's rule. To check, it walks the same expressions row by row, and combines with
//! powers.
#![allow(dead_code)]

use crate::plain::{Base, Quartic, inverses};
use std::ops::Range;

const CHUNK: usize = 1024;

pub enum Tree {
    Column(usize),
    One,
    Sum(Box<Tree>, Box<Tree>),
    Difference(Box<Tree>, Box<Tree>),
    Product(Box<Tree>, Box<Tree>),
    Negative(Box<Tree>),
}

impl Tree {
    pub fn value(&self, row: &[Base]) -> Base {
        match self {
            Tree::Column(index) => row[*index],
            Tree::One => Base::ONE,
            Tree::Sum(a, b) => a.value(row) + b.value(row),
            Tree::Difference(a, b) => a.value(row) - b.value(row),
            Tree::Product(a, b) => a.value(row) * b.value(row),
            Tree::Negative(a) => -a.value(row),
        }
    }
}

pub fn column(index: usize) -> Tree {
    Tree::Column(index)
}

pub fn columns(first: usize, width: usize) -> Vec<Tree> {
    (first..first + width).map(column).collect()
}

pub fn sum(a: Tree, b: Tree) -> Tree {
    Tree::Sum(Box::new(a), Box::new(b))
}

pub fn difference(a: Tree, b: Tree) -> Tree {
    Tree::Difference(Box::new(a), Box::new(b))
}

pub fn product(a: Tree, b: Tree) -> Tree {
    Tree::Product(Box::new(a), Box::new(b))
}

pub fn negative(a: Tree) -> Tree {
    Tree::Negative(Box::new(a))
}

pub struct Lookup {
    pub tuples: Vec<(Vec<Tree>, Tree)>,
    pub flags: Option<Vec<Tree>>,
    pub id: u32,
}

pub fn local(tuples: Vec<(Vec<Tree>, Tree)>) -> Lookup {
    Lookup { tuples, flags: None, id: 0 }
}

pub fn element(coefficients: [u32; 4]) -> Quartic {
    Quartic(coefficients.map(Base::new))
}

/// How a tuple becomes one element.
#[derive(Clone, Copy)]
pub enum Combine {
    Powers,
    Horner,
}

/// The challenges of one lookup: its alpha, and the powers of beta from 0 on.
pub struct Challenge {
    alpha: Quartic,
    powers: Vec<Quartic>,
}

impl Challenge {
    /// Those of a lookup, where messages have up to `width` elements.
    pub fn new(lookup: &Lookup, width: usize) -> Challenge {
        let beta = element([3, 1, 4, 15]);
        let mut powers = vec![Quartic::ONE];
        for i in 0..width {
            powers.push(powers[i] * beta);
        }
        let alpha = element([9, 2, 6, 5]) + powers[width] * Base::new(lookup.id + 1);
        Challenge { alpha, powers }
    }

    pub fn of_all(lookups: &[Lookup], width: usize) -> Vec<Challenge> {
        lookups.iter().map(|lookup| Challenge::new(lookup, width)).collect()
    }

    pub fn denominator(&self, combine: Combine, tuple: &[Tree], row: &[Base]) -> Quartic {
        let (last, leading) = tuple.split_last().expect("no tuple is empty");
        let combined = match combine {
            Combine::Powers => leading
                .iter()
                .zip(self.powers[1..tuple.len()].iter().rev())
                .fold(Quartic::from(last.value(row)), |sum, (x, power)| sum + *power * x.value(row)),
            Combine::Horner => tuple
                .iter()
                .fold(Quartic::ZERO, |sum, x| sum * self.powers[1] + Quartic::from(x.value(row))),
        };
        self.alpha - combined
    }
}

/// How many fractions a lookup has on a row.
fn fractions_of(lookup: &Lookup) -> usize {
    if lookup.flags.is_some() { 1 } else { lookup.tuples.len() }
}

/// Appends the denominators of a lookup on a row, and their multiplicities.
fn push(
    lookup: &Lookup,
    challenge: &Challenge,
    combine: Combine,
    row: &[Base],
    denominators: &mut Vec<Quartic>,
    multiplicities: &mut Vec<Base>,
) {
    let Some(flags) = &lookup.flags else {
        for (tuple, count) in &lookup.tuples {
            let multiplicity = count.value(row);
            multiplicities.push(multiplicity);
            denominators.push(if multiplicity == Base::ZERO {
                Quartic::ONE
            } else {
                challenge.denominator(combine, tuple, row)
            });
        }
        return;
    };
    let (mut numerator, mut flag_sum, mut denominator) = (Base::ZERO, Base::ZERO, Quartic::ZERO);
    for (flag, (tuple, count)) in flags.iter().zip(&lookup.tuples) {
        let flag = flag.value(row);
        assert!(flag == Base::ZERO || flag == Base::ONE, "a flag is zero or one");
        flag_sum = flag_sum + flag;
        if flag != Base::ZERO {
            numerator = numerator + flag * count.value(row);
            denominator = denominator + challenge.denominator(combine, tuple, row) * flag;
        }
    }
    assert!(flag_sum == Base::ZERO || flag_sum == Base::ONE, "at most one flag is set");
    denominators.push(denominator + Quartic::from(Base::ONE - flag_sum));
    multiplicities.push(numerator);
}

/// The auxiliary trace, row after row, and the terminal.
pub fn generate(
    main: &[Base],
    main_width: usize,
    lookups: &[Lookup],
    challenges: &[Challenge],
    combine: Combine,
) -> (Vec<Quartic>, Quartic) {
    let mut auxiliary = vec![Quartic::ZERO; main.len() / main_width * (lookups.len() + 1)];
    let terminal = generate_into(&mut auxiliary, main, main_width, lookups, challenges, combine);
    (auxiliary, terminal)
}

/// The same into cells that are there.
pub fn generate_into(
    auxiliary: &mut [Quartic],
    main: &[Base],
    main_width: usize,
    lookups: &[Lookup],
    challenges: &[Challenge],
    combine: Combine,
) -> Quartic {
    let width = lookups.len() + 1;
    let fractions: usize = lookups.iter().map(fractions_of).sum();
    let mut totals = vec![Quartic::ZERO; main.len() / main_width];
    let chunks = auxiliary.chunks_mut(CHUNK * width).zip(totals.chunks_mut(CHUNK));
    for ((auxiliary, totals), main) in chunks.zip(main.chunks(CHUNK * main_width)) {
        let size = main.len() / main_width * fractions;
        let (mut denominators, mut multiplicities) =
            (Vec::with_capacity(size), Vec::with_capacity(size));
        for row in main.chunks(main_width) {
            for (lookup, challenge) in lookups.iter().zip(challenges) {
                push(lookup, challenge, combine, row, &mut denominators, &mut multiplicities);
            }
        }
        let inverses = inverses(&denominators).expect("no denominator is zero");
        let mut place = 0;
        for (cells, total) in auxiliary.chunks_mut(width).zip(totals.iter_mut()) {
            for (cell, lookup) in cells[1..].iter_mut().zip(lookups) {
                *cell = Quartic::ZERO;
                for _ in 0..fractions_of(lookup) {
                    *cell = *cell + inverses[place] * multiplicities[place];
                    place += 1;
                }
                *total = *total + *cell;
            }
        }
    }
    let mut accumulator = Quartic::ZERO;
    for (cells, total) in auxiliary.chunks_mut(width).zip(&totals) {
        cells[0] = accumulator;
        accumulator = accumulator + *total;
    }
    accumulator
}

/// Whether the constraint of a lookup's fraction holds on a row. Without flags it is `U * f = V`: `U` is
/// the product of all denominators, and `V` the sum of each multiplicity times the other denominators.
/// With flags it is `D * f = N`: `D` is 1 and the sum of each flag times its denominator less 1, and `N`
/// the sum of each flag times its multiplicity.
fn is_fraction(lookup: &Lookup, challenge: &Challenge, row: &[Base], fraction: Quartic) -> bool {
    let denominator = |tuple: &[Tree]| challenge.denominator(Combine::Powers, tuple, row);
    let Some(flags) = &lookup.flags else {
        let (mut u, mut v) = (Quartic::ONE, Quartic::ZERO);
        for (place, (tuple, count)) in lookup.tuples.iter().enumerate() {
            let (next, count) = (denominator(tuple), count.value(row));
            if place == 0 {
                (u, v) = (next, Quartic::from(count));
            } else {
                v = v * next + u * count;
                u = u * next;
            }
        }
        return u * fraction == v;
    };
    let (mut d, mut n) = (Quartic::ONE, Base::ZERO);
    for (flag, (tuple, count)) in flags.iter().zip(&lookup.tuples) {
        let flag = flag.value(row);
        d = d + (denominator(tuple) - Quartic::ONE) * flag;
        n = n + flag * count.value(row);
    }
    d * fraction == Quartic::from(n)
}

/// The first row on which a constraint of these lookups is not zero: that of a fraction, that the
/// accumulator starts at zero, that it goes on by the fractions, and that it ends at the terminal.
pub fn first_failing_row(
    main: &[Base],
    main_width: usize,
    lookups: &[Lookup],
    challenges: &[Challenge],
    witness: &(Vec<Quartic>, Quartic),
) -> Option<usize> {
    let rows = 0..main.len() / main_width;
    first_failing_row_of(rows, main, main_width, lookups, challenges, witness)
}

/// The first one of some rows.
pub fn first_failing_row_of(
    mut rows: Range<usize>,
    main: &[Base],
    main_width: usize,
    lookups: &[Lookup],
    challenges: &[Challenge],
    (cells, terminal): &(Vec<Quartic>, Quartic),
) -> Option<usize> {
    let (height, width) = (main.len() / main_width, lookups.len() + 1);
    let cells_of = |row: usize| &cells[row * width..(row + 1) * width];
    rows.find(|row| {
        let (current, next) = (cells_of(*row), cells_of((row + 1) % height));
        let main = &main[row * main_width..(row + 1) * main_width];
        let mut fractions = lookups.iter().zip(challenges).zip(&current[1..]);
        let are_fractions = fractions
            .all(|((lookup, challenge), fraction)| is_fraction(lookup, challenge, main, *fraction));
        let sum = current[1..].iter().fold(current[0], |sum, fraction| sum + *fraction);
        let starts = *row > 0 || current[0] == Quartic::ZERO;
        let goes_on = if row + 1 < height { next[0] == sum } else { *terminal == sum };
        !(are_fractions && starts && goes_on)
    })
}

/// The width and the lookups of a shape, and the greatest width of its tuples.
pub fn shape_of(shape: u32) -> (usize, Vec<Lookup>, usize) {
    match shape {
        0 => {
            let provided = (columns(1, 1), negative(column(2)));
            (3, vec![local(vec![(columns(0, 1), Tree::One), provided])], 1)
        }
        1 => {
            let lookup = |i: usize| {
                let count = if i < 4 { column(32) } else { negative(column(32)) };
                Lookup { id: i as u32 % 4, ..local(vec![(columns(4 * i, 4), count)]) }
            };
            (33, (0..8).map(lookup).collect(), 4)
        }
        2 => {
            let tuples = (0..4).map(|i| (columns(4 + 2 * i, 2), Tree::One)).collect();
            (12, vec![Lookup { flags: Some(columns(0, 4)), ..local(tuples) }], 2)
        }
        _ => {
            let first = difference(sum(product(column(0), column(1)), column(2)), column(3));
            let turned = product(column(0), difference(column(1), column(2)));
            let second = sum(turned, product(column(3), column(4)));
            let count = product(column(5), column(6));
            (8, vec![local(vec![(vec![first, second], count)])], 2)
        }
    }
}

/// Rows of random numbers for a shape; flags are those of one branch, or of none.
pub fn numbers_of(shape: u32, rows: usize) -> Vec<u32> {
    let width = shape_of(shape).0;
    let mut state: u32 = 1;
    let mut next = || {
        state = state.wrapping_mul(1_664_525).wrapping_add(1_013_904_223);
        state >> 3
    };
    let mut numbers: Vec<u32> = (0..rows * width).map(|_| next()).collect();
    if shape == 2 {
        for row in numbers.chunks_mut(width) {
            let selected = next() >> 8;
            (0..4).for_each(|i| row[i] = u32::from(selected % 5 == i as u32));
        }
    }
    numbers
}

/// A checksum over all cells and then the terminal, on from another one.
pub fn checksum(before: Quartic, auxiliary: &[Quartic], terminal: Quartic) -> Quartic {
    let point = element([2, 3, 5, 7]);
    auxiliary.iter().fold(before, |sum, x| sum * point + *x) * point + terminal
}

/// The sum of the coefficients, as a number below the modulus.
pub fn number_of(x: Quartic) -> u32 {
    let [c0, c1, c2, c3] = x.0;
    (c0 + c1 + c2 + c3).number()
}
