//! The structs of the header, in its order.

use crate::element::Element;
use std::ops::Range;

/// Kinds of nodes.
pub(crate) mod kind {
    pub(crate) const MAIN: u32 = 0;
    pub(crate) const PREPROCESSED: u32 = 1;
    pub(crate) const PUBLIC: u32 = 2;
    pub(crate) const FIRST_ROW: u32 = 3;
    pub(crate) const LAST_ROW: u32 = 4;
    pub(crate) const TRANSITION: u32 = 5;
    pub(crate) const CONSTANT: u32 = 6;
    pub(crate) const SUM: u32 = 7;
    pub(crate) const DIFFERENCE: u32 = 8;
    pub(crate) const PRODUCT: u32 = 9;
    pub(crate) const NEGATION: u32 = 10;
}

/// A node of an expression.
#[derive(Clone, Copy, Debug, Default, PartialEq, Eq, Hash)]
#[repr(C)]
pub(crate) struct Node {
    pub(crate) kind: u32,
    pub(crate) number: u32,
    pub(crate) index: usize,
}

impl Node {
    /// An operation on what stands before it.
    pub(crate) const fn operation(kind: u32) -> Self {
        Node { kind, number: 0, index: 0 }
    }
}

/// A range of a table.
#[derive(Clone, Copy, Debug, Default, PartialEq, Eq)]
#[repr(C)]
pub(crate) struct Span {
    pub(crate) start: usize,
    pub(crate) end: usize,
}

impl Span {
    pub(crate) fn range(self) -> Range<usize> {
        self.start..self.end
    }

    pub(crate) fn len(&self) -> usize {
        self.range().len()
    }
}

/// A lookup.
#[derive(Clone, Copy, Debug, Default, PartialEq, Eq)]
#[repr(C)]
pub(crate) struct Record {
    pub(crate) kind: u32,
    pub(crate) exclusive: u32,
    pub(crate) weight: u64,
    pub(crate) bus: Span,
    pub(crate) tuples: Span,
    pub(crate) multiplicities: Span,
    pub(crate) flags: Span,
}

/// The lookups of one AIR.
#[derive(Clone, Copy)]
#[repr(C)]
pub(super) struct Tables {
    pub(super) nodes: *const Node,
    pub(super) nodes_length: usize,
    pub(super) tuples: *const Span,
    pub(super) tuples_length: usize,
    pub(super) names: *const u8,
    pub(super) names_length: usize,
    pub(super) records: *const Record,
    pub(super) records_length: usize,
}

/// The traces and the public values of one AIR.
#[derive(Clone, Copy)]
#[repr(C)]
pub(super) struct Traces {
    pub(super) main: *const u32,
    pub(super) main_length: usize,
    pub(super) main_width: usize,
    pub(super) preprocessed: *const u32,
    pub(super) preprocessed_length: usize,
    pub(super) preprocessed_width: usize,
    pub(super) public_values: *const u32,
    pub(super) public_values_length: usize,
}

/// The terminal of an AIR.
#[derive(Clone, Copy, Debug, Default)]
#[repr(C)]
pub(crate) struct Terminal<F> {
    pub(super) present: u32,
    pub(super) value: Element<F>,
}

/// What a witness has for one AIR.
#[derive(Clone, Copy)]
#[repr(C)]
pub(super) struct AirWitness<F> {
    pub(super) auxiliary: *const Element<F>,
    pub(super) auxiliary_length: usize,
    pub(super) width: usize,
    pub(super) terminal: Terminal<F>,
}

/// What was refused, and where.
#[derive(Clone, Copy, Debug, Default)]
#[repr(C)]
pub(crate) struct Refusal {
    pub(crate) code: u32,
    pub(crate) part: u32,
    pub(crate) air: usize,
    pub(crate) row: usize,
    pub(crate) lookup: usize,
    pub(crate) expected: usize,
    pub(crate) actual: usize,
    pub(crate) text_length: usize,
}

/// Why lookups do not fit traces.
#[derive(Clone, Copy, Debug, Default)]
#[repr(C)]
pub(crate) struct Fit {
    pub(crate) reason: u32,
    pub(crate) part: u32,
    pub(crate) lookup: usize,
    pub(crate) row: usize,
    pub(crate) column: usize,
    pub(crate) width: usize,
    pub(crate) height: usize,
    pub(crate) preprocessed_height: usize,
}

/// How many items of each table a call has written.
#[derive(Clone, Copy, Default)]
#[repr(C)]
pub(super) struct TableSizes {
    pub(super) nodes: usize,
    pub(super) tuples: usize,
    pub(super) names: usize,
    pub(super) records: usize,
}

/// What constraints are shown to enforce of a lookup.
#[derive(Clone, Copy, Debug, Default)]
#[repr(C)]
pub(crate) struct Enforced {
    pub(crate) flags: u32,
    pub(crate) weight: u32,
    pub(crate) missing: u32,
    pub(crate) rows: u32,
    pub(crate) flag: usize,
}

/// A bound of a multiplicity.
#[derive(Clone, Copy, Debug, Default)]
#[repr(C)]
pub(crate) struct Bound {
    pub(crate) present: u32,
    pub(crate) bound: u64,
}

/// An AIR of a batch.
#[derive(Clone, Copy)]
#[repr(C)]
pub(super) struct Air {
    pub(super) tables: Tables,
    pub(super) height: usize,
    pub(super) ids: *const usize,
    pub(super) ids_length: usize,
}

/// The sizes of a plan.
#[derive(Clone, Copy, Debug, Default)]
#[repr(C)]
pub(crate) struct PlanSizes {
    pub(crate) max_message_width: usize,
    pub(crate) num_ids: usize,
}

/// A number of 128 bits.
#[derive(Clone, Copy, Default)]
#[repr(C)]
pub(super) struct Wide {
    pub(super) low: u64,
    pub(super) high: u64,
}

/// The counts of a batch.
#[derive(Clone, Copy, Default)]
#[repr(C)]
pub(super) struct Counts {
    pub(super) messages: Wide,
    pub(super) unbalanced: Wide,
    pub(super) bad_betas: Wide,
    pub(super) bounded: u32,
    pub(super) accepting_alphas: Wide,
    pub(super) linear_bad_betas: Wide,
}

/// The counts of a batch by its heights.
#[derive(Clone, Copy, Default)]
#[repr(C)]
pub(super) struct HeightCounts {
    pub(super) most_messages: Wide,
    pub(super) bad_betas: Wide,
    pub(super) bounded: u32,
    pub(super) accepting_alphas: Wide,
}

/// The count of a grid.
#[derive(Clone, Copy, Default)]
#[repr(C)]
pub(super) struct Grid {
    pub(super) accepted: Wide,
    pub(super) bounded: u32,
    pub(super) bound: Wide,
}

/// The rows of a range of a trace, and the height of all of it.
#[derive(Clone, Copy, Debug)]
#[repr(C)]
pub(crate) struct Rows {
    pub(crate) first: usize,
    pub(crate) end: usize,
    pub(crate) height: usize,
}
