//! Witnesses: auxiliary traces and terminals.

use crate::element::Element;
use crate::error::Error;
use crate::ffi::Terminal;
use crate::field::Field;
use crate::tables::Tables;
use std::ops::Range;

/// What a witness has for one AIR.
#[derive(Clone, Copy, Debug, PartialEq, Eq)]
pub struct AirWitness<'a, F> {
    /// The cells of the auxiliary trace, row after row: the accumulator, and then the fraction of
    /// each lookup. An AIR without lookups has none.
    pub auxiliary: &'a [Element<F>],
    /// How many cells make a row: one more than there are lookups, and 0 without lookups.
    pub width: usize,
    /// The sum of all fractions. An AIR without lookups has none.
    pub terminal: Option<Element<F>>,
}

impl<F: Field> AirWitness<'_, F> {
    /// How many whole rows the auxiliary trace has.
    pub fn height(&self) -> usize {
        self.auxiliary.len().checked_div(self.width).unwrap_or(0)
    }
}

/// The auxiliary traces and the terminals of a batch, AIR by AIR.
#[derive(Clone, Debug, Default, PartialEq, Eq)]
pub struct Witness<F> {
    cells: Vec<Element<F>>,
    airs: Vec<Share<F>>,
}

/// The part of one AIR.
#[derive(Clone, Debug, PartialEq, Eq)]
struct Share<F> {
    cells: Range<usize>,
    width: usize,
    terminal: Option<Element<F>>,
}

impl<F: Field> Witness<F> {
    /// The witness with these parts, whatever they are. [`Batch::verify`](crate::Batch::verify)
    /// tells whether it is accepted.
    pub fn new<'a>(airs: impl IntoIterator<Item = AirWitness<'a, F>>) -> Self {
        let mut witness = Witness::default();
        for air in airs {
            let start = witness.cells.len();
            witness.cells.extend_from_slice(air.auxiliary);
            let cells = start..witness.cells.len();
            witness.airs.push(Share { cells, width: air.width, terminal: air.terminal });
        }
        witness
    }

    /// How many AIRs it is for.
    pub fn len(&self) -> usize {
        self.airs.len()
    }

    /// Whether it is for no AIR.
    pub fn is_empty(&self) -> bool {
        self.airs.is_empty()
    }

    /// What it has for the AIR of this index, or `None` past the last one.
    pub fn air(&self, index: usize) -> Option<AirWitness<'_, F>> {
        self.airs.get(index).map(|share| share.of(&self.cells))
    }

    /// What it has for each AIR.
    pub fn airs(&self) -> impl ExactSizeIterator<Item = AirWitness<'_, F>> {
        self.airs.iter().map(|share| share.of(&self.cells))
    }

    /// Makes the witness of AIRs with these heights and numbers of lookups, in the memory of this
    /// one.
    ///
    /// `fill` is given the cells of all AIRs and the terminals, to be written. Where that is
    /// refused, the witness is left without parts.
    pub(crate) fn refill(
        &mut self,
        shapes: &[AuxiliaryShape],
        fill: impl FnOnce(&mut [Element<F>], &mut [Terminal<F>]) -> Result<(), Error>,
    ) -> Result<(), Error> {
        self.airs.clear();
        let filled = self.share_out(shapes).and_then(|()| {
            let mut terminals = vec![Terminal::default(); shapes.len()];
            fill(&mut self.cells, &mut terminals)?;
            for (share, terminal) in self.airs.iter_mut().zip(terminals) {
                share.terminal = terminal.element();
            }
            Ok(())
        });
        if filled.is_err() {
            self.airs.clear();
            self.cells.clear();
        }
        filled
    }

    /// Makes a part for each of these shapes, with cells of any value and no terminals.
    fn share_out(&mut self, shapes: &[AuxiliaryShape]) -> Result<(), Error> {
        let mut end: usize = 0;
        for shape in shapes {
            let start = end;
            let after = shape.cells().and_then(|cells| start.checked_add(cells));
            end = after.ok_or_else(Error::memory)?;
            self.airs.push(Share { cells: start..end, width: shape.width(), terminal: None });
        }
        if self.cells.capacity() < end {
            // what they hold is of no use, so it is not copied
            self.cells = Vec::new();
        }
        let more = end.saturating_sub(self.cells.len());
        self.cells.try_reserve_exact(more).map_err(|_| Error::memory())?;
        self.cells.resize(end, Element::default());
        Ok(())
    }
}

impl<F: Field> Share<F> {
    fn of<'a>(&self, cells: &'a [Element<F>]) -> AirWitness<'a, F> {
        let auxiliary = &cells[self.cells.clone()];
        AirWitness { auxiliary, width: self.width, terminal: self.terminal }
    }
}

/// The shape of an AIR's auxiliary trace: by the height of its traces, and how many lookups it has.
#[derive(Clone, Copy, Debug)]
pub(crate) struct AuxiliaryShape {
    pub(crate) height: usize,
    pub(crate) lookups: usize,
}

impl AuxiliaryShape {
    /// The shape for the lookups of these tables, over traces of this height.
    pub(crate) fn of<F>(tables: &Tables<F>, height: usize) -> Self {
        AuxiliaryShape { height, lookups: tables.records.len() }
    }

    /// How many cells make a row of the auxiliary trace.
    pub(crate) fn width(self) -> usize {
        if self.lookups == 0 { 0 } else { self.lookups + 1 }
    }

    /// How many cells the auxiliary trace has, if they can be counted.
    pub(crate) fn cells(self) -> Option<usize> {
        self.height.checked_mul(self.width())
    }
}
