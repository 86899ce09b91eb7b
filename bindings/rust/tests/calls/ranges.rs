//! Batches on several threads, by ranges of rows: whatever their number, the answers are those of one.

use crate::model::machine::{Cells, Machine};
use crate::random::Random;
use std::iter::zip;
use volgwain::generic::{Air, AirWitness, Batch, Count, Element, Expr, Lookup, Message, Witness};
use volgwain::{Code, Error, Field, Traces};

/// How many rows make a range.
const RANGE_ROWS: usize = 4096;

/// Heights of one range, of two and of more, with and without a last one of a single row.
const HEIGHTS: [usize; 9] = [1, 5, 4095, 4096, 4097, 8192, 8193, 8195, 12_289];

const THREADS: [usize; 4] = [2, 3, 4, 7];

/// A batch that is worked on by one thread, and the traces and challenges that it is given.
struct Work<F> {
    batch: Batch<F>,
    cells: Vec<Cells>,
    alpha: Element<F>,
    beta: Element<F>,
}

/// What the calls of a batch answer, with the witness of each AIR.
type Answers<F> = (Result<Witness<F>, Error>, Vec<Result<Witness<F>, Error>>);

impl<F: Field> Work<F> {
    fn of(machine: &Machine<F>, random: &mut Random) -> Work<F> {
        let airs = machine.airs();
        let batch = Batch::new(zip(&airs, machine.heights())).expect("buses have one width");
        let (alpha, beta) = (random.element(), random.element());
        Work { batch: batch.with_threads(1), cells: machine.cells(), alpha, beta }
    }

    fn traces(&self) -> Vec<Traces<'_>> {
        self.cells.iter().map(Cells::traces).collect()
    }

    fn on(&self, threads: usize) -> Batch<F> {
        self.batch.clone().with_threads(threads)
    }

    fn prove(&self, batch: &Batch<F>) -> Answers<F> {
        let traces = self.traces();
        let of_air = |air: usize| batch.generate(air, &traces[air], self.alpha, self.beta);
        let witness = batch.prove(&traces, self.alpha, self.beta);
        (witness, (0..traces.len()).map(of_air).collect())
    }

    fn verify(&self, batch: &Batch<F>, witness: &Witness<F>) -> Result<(), Error> {
        batch.verify(&self.traces(), self.alpha, self.beta, witness)
    }

    /// Asserts that any number of threads answers as one does, and returns the witness.
    fn assert_alike(&self) -> Result<Witness<F>, Error> {
        let alone = self.prove(&self.batch);
        let verdict = alone.0.as_ref().map(|witness| self.verify(&self.batch, witness));
        for threads in THREADS {
            let batch = self.on(threads);
            assert_eq!(self.prove(&batch), alone, "{threads} threads");
            let verdict_there = alone.0.as_ref().map(|witness| self.verify(&batch, witness));
            assert_eq!(verdict_there, verdict, "{threads} threads");
        }
        alone.0
    }

    /// Asserts that a witness with another cell on this row is refused there, by any number of threads.
    fn assert_refuses_change(&self, witness: &Witness<F>, air: usize, row: usize, cell: usize) {
        let mut cells: Vec<Vec<Element<F>>> =
            witness.airs().map(|part| part.auxiliary.to_vec()).collect();
        let width = witness.air(air).expect("it has a part").width;
        let place = row * width + cell;
        let [first, rest @ ..] = cells[air][place].coefficients();
        cells[air][place] = Element::new([u32::from(first == 0), rest[0], rest[1], rest[2]]);
        let parts = zip(witness.airs(), &cells);
        let changed =
            Witness::new(parts.map(|(part, cells)| AirWitness { auxiliary: cells, ..part }));
        for threads in [1, 2, 4] {
            let refusal = self.verify(&self.on(threads), &changed).expect_err("a cell is another");
            // the accumulator of a row is tested on the row before as well
            let first = if cell == 0 { row.saturating_sub(1) } else { row };
            assert_eq!((refusal.code(), refusal.air()), (Code::ConstraintFailed, Some(air)));
            assert_eq!(refusal.row(), Some(first), "{threads} threads");
        }
    }
}

/// Machines of eight AIRs that balance, with long traces.
fn works<F: Field>(seed: u64, machines: usize) -> impl Iterator<Item = (Work<F>, Random)> {
    let mut random = Random::new(seed);
    (0..machines).map(move |_| {
        let heights: [usize; 4] = std::array::from_fn(|_| HEIGHTS[random.below(HEIGHTS.len())]);
        let machine = random.long(&heights);
        assert_eq!(machine.tables.len(), 8);
        let own = random.below(1 << 30) as u64;
        (Work::of(&machine, &mut random), Random::new(own))
    })
}

fn any_number_of_threads_answers_as_one<F: Field>() {
    let (mut accepted, mut refused) = (0, 0);
    for (work, _) in works::<F>(1, 24) {
        match work.assert_alike() {
            Ok(witness) => {
                assert_eq!(work.verify(&work.on(4), &witness), Ok(()));
                accepted += 1;
            }
            Err(refusal) => {
                let codes = [Code::FlagNotBoolean, Code::FlagsNotExclusive];
                assert!(codes.contains(&refusal.code()), "{refusal}");
                refused += 1;
            }
        }
    }
    assert!(accepted >= 8 && refused >= 2, "{accepted} are accepted, {refused} refused");
}

fn a_changed_cell_of_each_range_is_refused_on_its_row<F: Field>() {
    let mut ranges = 0;
    for (work, mut random) in works::<F>(2, 3) {
        let Ok(witness) = work.batch.prove(&work.traces(), work.alpha, work.beta) else { continue };
        for (air, part) in witness.airs().enumerate() {
            for first in (0..part.height()).step_by(RANGE_ROWS) {
                let rows = part.height().min(first + RANGE_ROWS) - first;
                let row = first + random.below(rows);
                work.assert_refuses_change(&witness, air, row, random.below(part.width));
                ranges += 1;
            }
        }
    }
    assert!(ranges >= 10, "{ranges} ranges have a changed cell");
}

/// Traces of two AIRs, each of which asks for what the other one provides: column 0, as often as column 1
/// says, with a flag in column 2.
struct Asked<F> {
    batch: Batch<F>,
    traces: [Vec<u32>; 2],
}

/// Their height.
const HEIGHT: usize = 3 * RANGE_ROWS + 7;

/// Their width.
const WIDTH: usize = 3;

impl<F: Field> Asked<F> {
    fn new() -> Asked<F> {
        let sent = |count: Expr<F>| {
            let message = Message::query([Expr::main(0)], Count::bounded(count, 1));
            Air::new([Lookup::exclusive_on_bus("keys", [message.when(Expr::main(2))])]).unwrap()
        };
        let (asks, provides) = (sent(Expr::main(1)), sent(-Expr::main(1)));
        let batch = Batch::new([(&asks, HEIGHT), (&provides, HEIGHT)]).unwrap();
        let row = |row: usize| [row as u32 % 50, row as u32 % 3, u32::from(row % 4 != 0)];
        let rows: Vec<u32> = (0..HEIGHT).flat_map(row).collect();
        Asked { batch, traces: [rows.clone(), rows] }
    }

    fn cell(&mut self, air: usize, row: usize, column: usize) -> &mut u32 {
        &mut self.traces[air][row * WIDTH + column]
    }

    /// Asserts that two, three and four threads answer as one, and returns the refusal.
    fn refusal(&self, alpha: Element<F>) -> Error {
        let beta = Element::from(7);
        let traces = self.traces.each_ref().map(|cells| Traces::new(cells, WIDTH));
        let answer = |threads| self.batch.clone().with_threads(threads).prove(&traces, alpha, beta);
        let alone = answer(1);
        for threads in [2, 3, 4] {
            assert_eq!(answer(threads), alone, "{threads} threads");
        }
        alone.expect_err("it has a fault")
    }
}

fn the_first_fault_of_all_ranges_is_refused<F: Field>() {
    let alpha = Element::new([5, 6, 7, 8]);
    let last = HEIGHT - 1;
    for (faults, first) in [
        (vec![(0, 1)], (0, 1)),
        (vec![(0, last)], (0, last)),
        (vec![(1, 4096)], (1, 4096)),
        (vec![(0, last), (0, 4095)], (0, 4095)),
        (vec![(0, 8192), (0, 8191), (1, 0)], (0, 8191)),
        (vec![(1, last), (1, 5000)], (1, 5000)),
    ] {
        let mut asked = Asked::<F>::new();
        for (air, row) in faults {
            *asked.cell(air, row, 2) = 2;
        }
        let refusal = asked.refusal(alpha);
        let places = (refusal.air(), refusal.row(), refusal.lookup());
        assert_eq!(refusal.code(), Code::FlagNotBoolean);
        assert_eq!(places, (Some(first.0), Some(first.1), Some(0)));
    }
}

fn a_denominator_that_vanishes_is_refused_on_the_first_row_that_has_it<F: Field>() {
    // one lookup, whose id is 0: its denominator is alpha + 7 less the tuple
    let mut asked = Asked::<F>::new();
    *asked.cell(1, 9001, 0) = 60;
    *asked.cell(1, 9001, 2) = 1;
    let refusal = asked.refusal(Element::from(53));
    assert_eq!(refusal.code(), Code::VanishingDenominator);
    assert_eq!((refusal.air(), refusal.row()), (Some(1), Some(9001)));
}

fn a_large_number_is_refused_before_a_fault_of_an_earlier_row<F: Field>() {
    let mut asked = Asked::<F>::new();
    *asked.cell(0, 3, 2) = 2;
    *asked.cell(0, 9000, 1) = F::MODULUS;
    let refusal = asked.refusal(Element::new([5, 6, 7, 8]));
    assert_eq!(refusal.code(), Code::BadNumber);
    assert_eq!((refusal.air(), refusal.index()), (Some(0), Some(9000 * WIDTH + 1)));
}

fn numbers_of_an_air_without_lookups_are_tested_too<F: Field>() {
    let asked = Asked::<F>::new();
    let [asks, provides] = [&asked.batch.airs()[0], &asked.batch.airs()[1]];
    let empty = Air::new([]).unwrap();
    let heights = [HEIGHT, HEIGHT, 2];
    let batch = Batch::new(zip([asks, provides, &empty], heights)).unwrap();
    let [first, second] = asked.traces.each_ref().map(|cells| Traces::new(cells, WIDTH));
    let small = [1, 2];
    let large = [1, F::MODULUS];
    let (alpha, beta) = (Element::new([5, 6, 7, 8]), Element::from(7));
    let batches = [1, 2, 4].map(|threads| batch.clone().with_threads(threads));
    let last = |cells| Traces::new(cells, 1);
    let witness = batches[0].prove(&[first, second, last(&small)], alpha, beta).unwrap();
    for batch in &batches {
        assert_eq!(batch.prove(&[first, second, last(&small)], alpha, beta), Ok(witness.clone()));
        assert_eq!(batch.verify(&[first, second, last(&small)], alpha, beta, &witness), Ok(()));
        let traces = [first, second, last(&large)];
        for refusal in [
            batch.prove(&traces, alpha, beta).map(|_| ()),
            batch.verify(&traces, alpha, beta, &witness),
            batch.generate(2, &traces[2], alpha, beta).map(|_| ()),
        ] {
            assert_eq!(
                refusal.map_err(|it| (it.code(), it.index())),
                Err((Code::BadNumber, Some(1)))
            );
        }
    }
}

fn traces_of_another_shape_are_refused_by_any_number_of_threads<F: Field>() {
    let asked = Asked::<F>::new();
    let (alpha, beta) = (Element::new([5, 6, 7, 8]), Element::from(7));
    let whole = Traces::new(&asked.traces[0], WIDTH);
    let cells = &asked.traces[0][..];
    let ragged = Traces::new(&cells[1..], WIDTH);
    let shorter = Traces::new(&cells[..cells.len() - WIDTH], WIDTH);
    let other = whole.with_preprocessed(&cells[..HEIGHT - 1], 1);
    let batches = [1, 2, 4].map(|threads| asked.batch.clone().with_threads(threads));
    let witness = batches[0].prove(&[whole, whole], alpha, beta).unwrap();
    for traces in [vec![whole, ragged], vec![shorter, whole], vec![whole, other], vec![whole]] {
        let answers = batches.each_ref().map(|batch| {
            let proved = batch.prove(&traces, alpha, beta).map(|_| ());
            (proved, batch.verify(&traces, alpha, beta, &witness))
        });
        assert!(answers[0].0.is_err() && answers[0].1.is_err());
        assert_eq!((&answers[1], &answers[2]), (&answers[0], &answers[0]));
    }
}

fn terminals_and_shapes_are_refused_by_any_number_of_threads<F: Field>() {
    let asked = Asked::<F>::new();
    let (alpha, beta) = (Element::new([5, 6, 7, 8]), Element::from(7));
    let traces = asked.traces.each_ref().map(|cells| Traces::new(cells, WIDTH));
    let batches = [1, 2, 4].map(|threads| asked.batch.clone().with_threads(threads));
    let witness = batches[0].prove(&traces, alpha, beta).unwrap();
    let parts: Vec<AirWitness<'_, F>> = witness.airs().collect();
    let [first, second] = parts[..] else { panic!("there are two AIRs") };
    let unsummed = Witness::new([first, AirWitness { terminal: first.terminal, ..second }]);
    let missing = Witness::new([first, AirWitness { terminal: None, ..second }]);
    let narrower = Witness::new([AirWitness { width: 1, ..first }, second]);
    let lower = AirWitness { auxiliary: &second.auxiliary[2..], ..second };
    let large = AirWitness { terminal: Some(Element::from(F::MODULUS)), ..first };
    for (changed, code) in [
        (unsummed, Code::ConstraintFailed),
        (missing, Code::TerminalPresence),
        (narrower, Code::AuxiliaryWidth),
        (Witness::new([first, lower]), Code::AuxiliaryHeight),
        (Witness::new([large, second]), Code::BadNumber),
        (Witness::new([first]), Code::BadLength),
    ] {
        let verdicts = batches.each_ref().map(|it| it.verify(&traces, alpha, beta, &changed));
        assert_eq!(verdicts[0].as_ref().map_err(Error::code), Err(code));
        assert_eq!((&verdicts[1], &verdicts[2]), (&verdicts[0], &verdicts[0]));
    }
    // both AIRs ask: each row is right, and the sum is not zero
    let twice = Batch::new(zip([&asked.batch.airs()[0]; 2], [HEIGHT; 2])).unwrap();
    for threads in [1, 2, 4] {
        let twice = twice.clone().with_threads(threads);
        let witness = twice.prove(&traces, alpha, beta).unwrap();
        let verdict = twice.verify(&traces, alpha, beta, &witness);
        assert_eq!(verdict.map_err(|it| it.code()), Err(Code::TerminalSum));
    }
}

over_each_field! {
    any_number_of_threads_answers_as_one,
    a_changed_cell_of_each_range_is_refused_on_its_row,
    the_first_fault_of_all_ranges_is_refused,
    a_denominator_that_vanishes_is_refused_on_the_first_row_that_has_it,
    a_large_number_is_refused_before_a_fault_of_an_earlier_row,
    numbers_of_an_air_without_lookups_are_tested_too,
    traces_of_another_shape_are_refused_by_any_number_of_threads,
    terminals_and_shapes_are_refused_by_any_number_of_threads,
}
