//! Batches on several threads, by ranges of rows.
//!
//! A range needs row 0 of the traces, its own rows, and the row after them. Its accumulators start at zero,
//! and the sums of the ranges before it are added afterwards. What a range refuses is left to the call on
//! the whole batch, which says why: so no answer depends on the number of threads, but where memory runs out.

use crate::element::Element;
use crate::ffi::{self, PlannedIds, Rows, Terminal};
use crate::field::Field;
use crate::traces::{Trace, Traces};
use crate::witness::{AirWitness, AuxiliaryShape, Witness};
use std::iter::zip;
use std::num::NonZero;
use std::sync::atomic::{AtomicBool, Ordering};
use std::sync::{Mutex, PoisonError};
use std::{mem, slice, thread};

/// How many rows make a range: four chunks of the library, whose lists stay in a processor's cache.
const RANGE_ROWS: usize = 1 << 12;

/// How many cells of auxiliary traces are worth a thread.
const CELLS_OF_A_THREAD: usize = 1 << 14;

/// The stack of a thread: a call needs 256 KB.
const STACK: usize = 1 << 20;

/// On how many threads work on so many cells of auxiliary traces is done, with so many at most. Without
/// that number they are as many as there are processors.
fn threads_for(cells: usize, most: Option<usize>) -> usize {
    let worth = cells / CELLS_OF_A_THREAD;
    if worth < 2 {
        return 1;
    }
    let most = most.unwrap_or_else(|| thread::available_parallelism().map_or(1, NonZero::get));
    most.clamp(1, worth)
}

/// An AIR of a planned batch, with its traces.
#[derive(Clone, Copy)]
pub(crate) struct TracedAir<'a, F> {
    pub(crate) planned: PlannedIds<'a, F>,
    pub(crate) traces: Traces<'a>,
}

impl<F: Field> TracedAir<'_, F> {
    /// The shape of the auxiliary trace.
    fn shape(&self) -> AuxiliaryShape {
        AuxiliaryShape::of(self.planned.tables, self.traces.main.height())
    }

    /// Whether ranges see all that the call on the whole batch looks at. The rows of both traces are whole
    /// and equally many. Where there are no lookups there are no ranges, and the numbers are tested here.
    /// Where there are lookups there is a row: a batch has no other AIRs, and an AIR that is generated alone
    /// over no rows has no cells to share out.
    fn is_plain(&self) -> bool {
        let Traces { main, preprocessed, public_values } = self.traces;
        let AuxiliaryShape { height, lookups } = self.shape();
        let is_whole = |trace: Trace<'_>| {
            trace.height() == height && trace.cells.len().checked_rem(trace.width) == Some(0)
        };
        let other = preprocessed.unwrap_or_default();
        let is_missing = other.width == 0 && other.cells.is_empty();
        let are_small = |numbers: &[u32]| numbers.iter().all(|number| *number < F::MODULUS);
        is_whole(main)
            && (is_missing || is_whole(other))
            && (lookups > 0 || [main.cells, other.cells, public_values].into_iter().all(are_small))
    }

    /// Whether what a witness has for the AIR is of its shape.
    fn has_shape(&self, part: &AirWitness<'_, F>) -> bool {
        let shape = self.shape();
        part.width == shape.width()
            && Some(part.auxiliary.len()) == shape.cells()
            && part.terminal.is_some() == (shape.lookups > 0)
    }
}

/// Some rows of the AIR of one index.
#[derive(Clone, Copy)]
struct AirRows {
    air: usize,
    rows: Rows,
}

/// The work on some AIRs, cut into ranges of rows.
pub(crate) struct SharedWork<'a, F> {
    airs: Vec<TracedAir<'a, F>>,
    ranges: Vec<AirRows>,
    challenges: [Element<F>; 2],
    threads: usize,
}

impl<'a, F: Field> SharedWork<'a, F> {
    /// The work on these AIRs, on so many threads at most, if it can be cut and is worth more than one.
    pub(crate) fn of(
        airs: impl Iterator<Item = TracedAir<'a, F>> + Clone,
        challenges: [Element<F>; 2],
        most_threads: Option<usize>,
    ) -> Option<Self> {
        let cells = airs.clone().map(|air| air.shape().cells().unwrap_or(usize::MAX));
        let threads = threads_for(cells.fold(0, usize::saturating_add), most_threads);
        if threads == 1 || !airs.clone().all(|air| air.is_plain()) {
            return None;
        }
        let airs: Vec<TracedAir<'a, F>> = airs.collect();
        let shapes = airs.iter().map(TracedAir::shape).enumerate();
        let with_lookups = shapes.filter(|(_, shape)| shape.lookups > 0);
        let ranges = with_lookups.flat_map(|(air, shape)| ranges_of(air, shape.height)).collect();
        Some(SharedWork { airs, ranges, challenges, threads })
    }

    /// Makes the auxiliary traces of all AIRs, one after the other, and their terminals, unless a range is
    /// refused. What is written then has no meaning.
    pub(crate) fn prove(&self, cells: &mut [Element<F>], terminals: &mut [Terminal<F>]) -> bool {
        let mut sums = vec![Element::default(); self.ranges.len()];
        let work = zip(self.share_out(cells), &mut sums).collect();
        let made = self.on_threads(work, |room, ((AirRows { air, rows }, cells), sum)| {
            let TracedAir { planned, traces } = &self.airs[air];
            let around = traces_around(traces, rows, &mut room.traces)?;
            ffi::generate_rows(planned, &around, &rows, self.challenges, cells, sum).ok()
        });
        made && self.join(&sums, cells, terminals).is_some()
    }

    /// Adds to each range the sums of those before it in its AIR, and writes the sum of all of them, which is
    /// the terminal. Sums are those of the library: each is one cell that is shifted.
    fn join(
        &self,
        sums: &[Element<F>],
        cells: &mut [Element<F>],
        terminals: &mut [Terminal<F>],
    ) -> Option<()> {
        let mut totals = vec![None; self.airs.len()];
        let mut later = Vec::with_capacity(sums.len());
        for ((range, cells), sum) in zip(self.share_out(cells), sums) {
            let total = totals[range.air].get_or_insert_default();
            if range.rows.first > 0 {
                later.push((range, cells, *total));
            }
            ffi::shift(slice::from_mut(total), 1, sum).ok()?;
        }
        for (terminal, total) in zip(terminals, totals) {
            *terminal = Terminal::of(total);
        }
        let shifted = self.on_threads(later, |_, (range, cells, offset)| {
            ffi::shift(cells, self.airs[range.air].shape().width(), &offset).ok()
        });
        shifted.then_some(())
    }

    /// Whether a witness is of the right shape, its terminals sum to zero, and each range is accepted.
    pub(crate) fn verify(&self, witness: &Witness<F>) -> bool {
        let parts: Vec<AirWitness<'_, F>> = witness.airs().collect();
        if parts.len() != self.airs.len()
            || !zip(&self.airs, &parts).all(|(air, part)| air.has_shape(part))
            || !sum_to_zero(parts.iter().filter_map(|part| part.terminal))
        {
            return false;
        }
        self.on_threads(self.ranges.clone(), |room, AirRows { air, rows }| {
            let TracedAir { planned, traces } = &self.airs[air];
            let around = traces_around(traces, rows, &mut room.traces)?;
            let part = &parts[air];
            let auxiliary = cells_around(part.auxiliary, part.width, rows, &mut room.auxiliary)?;
            let part = AirWitness { auxiliary, ..*part };
            ffi::verify_rows(planned, &around, &rows, self.challenges, &part).ok()
        })
    }

    /// The cells of each range, in those of all AIRs.
    fn share_out<'c>(&self, cells: &'c mut [Element<F>]) -> Vec<(AirRows, &'c mut [Element<F>])> {
        let mut rest = cells;
        let share = |range: &AirRows| {
            let length = (range.rows.end - range.rows.first) * self.airs[range.air].shape().width();
            let (share, after) = mem::take(&mut rest).split_at_mut(length);
            rest = after;
            (*range, share)
        };
        self.ranges.iter().map(share).collect()
    }

    /// Does some work on each item, and tells whether all of it was done. Once some could not be, each
    /// thread ends after the item that it has. Each thread has a room of its own.
    fn on_threads<T: Send>(
        &self,
        items: Vec<T>,
        work: impl Fn(&mut Room<F>, T) -> Option<()> + Sync,
    ) -> bool {
        let threads = self.threads.min(items.len());
        let items = Mutex::new(items.into_iter());
        let well = AtomicBool::new(true);
        let run = || {
            let mut room = Room::default();
            while well.load(Ordering::Relaxed) {
                let next = items.lock().unwrap_or_else(PoisonError::into_inner).next();
                let Some(item) = next else { break };
                if work(&mut room, item).is_none() {
                    well.store(false, Ordering::Relaxed);
                }
            }
        };
        thread::scope(|scope| {
            for _ in 1..threads {
                // where no thread can be had, the others do its work
                let _ = thread::Builder::new().stack_size(STACK).spawn_scoped(scope, run);
            }
            run();
        });
        well.into_inner()
    }
}

/// The ranges of an AIR of this index and height, in order.
fn ranges_of(air: usize, height: usize) -> impl Iterator<Item = AirRows> {
    (0..height).step_by(RANGE_ROWS).map(move |first| {
        let end = height.min(first.saturating_add(RANGE_ROWS));
        AirRows { air, rows: Rows { first, end, height } }
    })
}

/// Whether elements sum to zero. One that is no element does not.
fn sum_to_zero<F: Field>(terminals: impl Iterator<Item = Element<F>>) -> bool {
    let mut sum = Element::default();
    for terminal in terminals {
        if ffi::shift(slice::from_mut(&mut sum), 1, &terminal).is_err() {
            return false;
        }
    }
    sum == Element::default()
}

/// Where a thread copies the rows around its ranges: of the main and the preprocessed trace, and of the
/// auxiliary trace.
#[derive(Default)]
struct Room<F> {
    traces: [Vec<u32>; 2],
    auxiliary: Vec<Element<F>>,
}

/// The traces of the rows around a range. `None` if memory runs out.
fn traces_around<'r>(
    traces: &Traces<'r>,
    rows: Rows,
    [main_room, preprocessed_room]: &'r mut [Vec<u32>; 2],
) -> Option<Traces<'r>> {
    let preprocessed = match traces.preprocessed {
        Some(trace) => Some(trace_around(trace, rows, preprocessed_room)?),
        None => None,
    };
    Some(Traces { main: trace_around(traces.main, rows, main_room)?, preprocessed, ..*traces })
}

fn trace_around<'r>(trace: Trace<'r>, rows: Rows, room: &'r mut Vec<u32>) -> Option<Trace<'r>> {
    Some(Trace { cells: cells_around(trace.cells, trace.width, rows, room)?, ..trace })
}

/// Of cells in rows of a width those around a range: row 0, unless the range begins with it, the rows of the
/// range, and the row after them, unless there is none. `None` if memory runs out.
fn cells_around<'r, T: Copy>(
    cells: &'r [T],
    width: usize,
    rows: Rows,
    room: &'r mut Vec<T>,
) -> Option<&'r [T]> {
    let end = rows.height.min(rows.end + 1);
    let own = &cells[rows.first * width..end * width];
    if rows.first == 0 {
        return Some(own);
    }
    room.clear();
    room.try_reserve(width + own.len()).ok()?;
    room.extend_from_slice(&cells[..width]);
    room.extend_from_slice(own);
    Some(room)
}

#[cfg(test)]
mod tests {
    use super::*;
    use crate::ffi::PlanSizes;
    use crate::{Air, AirWitness, BabyBear, Batch, Element, Expr, Lookup, Message, Witness};
    use std::iter;
    use std::sync::atomic::AtomicUsize;

    const HEIGHT: usize = 2 * RANGE_ROWS + 3;

    /// A lookup of column 0, with what else a row can read: the next row, the preprocessed trace, a public
    /// value, and selectors.
    fn lookup(bus: &str, count: i32) -> Lookup {
        let first = Expr::main(0) + Expr::main_next(0) * Expr::is_transition();
        let second = Expr::preprocessed_next(1) * Expr::public(0) + Expr::is_first_row();
        let third = Expr::preprocessed(0) - Expr::is_last_row();
        Lookup::on_bus(bus, [Message::query([first, second, third], count)])
    }

    #[test]
    fn threads_are_as_many_as_the_work_is_worth() {
        let cells = [0, 2 * CELLS_OF_A_THREAD - 1, 2 * CELLS_OF_A_THREAD, 5 * CELLS_OF_A_THREAD];
        assert_eq!(cells.map(|cells| threads_for(cells, Some(4))), [1, 1, 2, 4]);
        assert_eq!(cells.map(|cells| threads_for(cells, Some(0))), [1, 1, 1, 1]);
        assert!(threads_for(usize::MAX, None) >= 1);
    }

    #[test]
    fn ranges_cover_all_rows_in_order() {
        let ends = |height| -> Vec<(usize, usize)> {
            ranges_of(3, height).map(|it| (it.rows.first, it.rows.end)).collect()
        };
        assert_eq!(ends(1), [(0, 1)]);
        assert_eq!(ends(4096), [(0, 4096)]);
        assert_eq!(ends(8193), [(0, 4096), (4096, 8192), (8192, 8193)]);
    }

    #[test]
    fn a_range_is_given_row_0_its_rows_and_the_next_one() {
        let cells: Vec<u32> = (0..10).collect();
        let around = |first, end| {
            let rows = Rows { first, end, height: 5 };
            cells_around(&cells, 2, rows, &mut vec![7]).unwrap().to_vec()
        };
        assert_eq!(around(0, 2), [0, 1, 2, 3, 4, 5]);
        assert_eq!(around(0, 5), [0, 1, 2, 3, 4, 5, 6, 7, 8, 9]);
        assert_eq!(around(2, 3), [0, 1, 4, 5, 6, 7]);
        assert_eq!(around(3, 5), [0, 1, 6, 7, 8, 9]);
    }

    #[test]
    fn work_is_shared_out_until_some_can_not_be_done() {
        let work =
            SharedWork { airs: vec![], ranges: vec![], challenges: [0.into(); 2], threads: 3 };
        let sum = AtomicUsize::new(0);
        let add = |_: &mut Room<BabyBear>, number| {
            sum.fetch_add(number, Ordering::Relaxed);
            (number != 1000).then_some(())
        };
        assert!(work.on_threads((1..100).collect(), add));
        assert_eq!(sum.load(Ordering::Relaxed), 4950);
        assert!(work.on_threads(vec![], add));
        assert!(!work.on_threads(vec![1, 1000], add));
        let alone = SharedWork { threads: 1, ..work };
        sum.store(0, Ordering::Relaxed);
        assert!(!alone.on_threads(vec![1, 1000, 1], add));
        assert_eq!(sum.load(Ordering::Relaxed), 1001);
    }

    /// Without this, a range that is always refused would not be noticed: the whole call answers then.
    #[test]
    fn ranges_make_and_accept_the_witness_of_one_thread() {
        let asks = Air::new([lookup("a", 1), lookup("b", -1), lookup("b", 2)]).unwrap();
        let provides = Air::new([lookup("a", -1), lookup("b", -1)]).unwrap();
        let cells: Vec<u32> = (0..HEIGHT as u32).map(|row| row % 89).collect();
        let fixed: Vec<u32> = (0..2 * HEIGHT as u32).map(|cell| cell % 97).collect();
        let traces = Traces::new(&cells, 1).with_preprocessed(&fixed, 2).with_public_values(&[13]);
        let (alpha, beta) = (Element::new([1, 2, 3, 4]), Element::new([5, 6, 7, 8]));
        let batch = Batch::new([(&asks, HEIGHT), (&provides, HEIGHT)]).unwrap();
        let alone = batch.clone().with_threads(1).prove(&[traces; 2], alpha, beta).unwrap();
        let batch = batch.with_threads(2);
        let work = batch.shared(&[traces; 2], alpha, beta).unwrap();
        assert_eq!((work.ranges.len(), work.threads), (6, 2));
        let parts: Vec<AirWitness<'_>> = alone.airs().collect();
        let whole = [parts[0].auxiliary, parts[1].auxiliary].concat();
        let mut made = vec![Element::default(); whole.len()];
        let mut terminals = [Terminal::default(); 2];
        assert!(work.prove(&mut made, &mut terminals));
        assert_eq!(made, whole);
        assert_eq!(terminals.map(Terminal::element), [parts[0].terminal, parts[1].terminal]);
        assert!(work.verify(&alone));
        // a single AIR does not balance: it is generated, and its sum is refused
        let sizes = PlanSizes { max_message_width: 3, num_ids: 2 };
        let planned = PlannedIds { tables: asks.tables(), ids: &batch.ids()[0], sizes: &sizes };
        let traced = iter::once(TracedAir { planned, traces });
        let work = SharedWork::of(traced, [alpha, beta], Some(2)).unwrap();
        let mut made = vec![Element::default(); parts[0].auxiliary.len()];
        assert!(work.prove(&mut made, &mut terminals[..1]));
        assert_eq!((&made[..], terminals[0].element()), (parts[0].auxiliary, parts[0].terminal));
        assert!(!work.verify(&Witness::new([parts[0]])));
    }
}
