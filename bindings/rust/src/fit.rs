//! Why lookups do not fit traces.

use crate::error::Part;
use crate::ffi::Fit;
use std::fmt;

/// Why the lookups of an AIR do not fit its traces. Of several reasons it is the first one in this order.
/// That the main trace has no row is none of them.
#[derive(Clone, Copy, Debug, PartialEq, Eq, Hash)]
#[non_exhaustive]
pub enum FitFault {
    /// The lists of a lookup have different lengths.
    Malformed {
        /// The first such lookup.
        lookup: usize,
    },
    /// A lookup reads a cell that the traces do not have.
    Missing {
        /// The first such lookup.
        lookup: usize,
        /// The first such cell: of its tuples, then of its multiplicities, and then of its flags.
        cell: Cell,
        /// How many columns, or public values, there are where it is read.
        width: usize,
    },
    /// The preprocessed trace is not as high as the main one.
    Heights {
        /// The height of the main trace.
        main: usize,
        /// That of the preprocessed trace.
        preprocessed: usize,
    },
}

/// A cell that a lookup reads.
#[derive(Clone, Copy, Debug, PartialEq, Eq, Hash)]
#[non_exhaustive]
pub enum Cell {
    /// A cell of the main trace.
    Main {
        /// 0 in the row, 1 in the next one. No lookup may read another one.
        offset: usize,
        /// Its column.
        column: usize,
    },
    /// A cell of the preprocessed trace.
    Preprocessed {
        /// 0 in the row, 1 in the next one. No lookup may read another one.
        offset: usize,
        /// Its column.
        column: usize,
    },
    /// A public value.
    Public {
        /// Its index.
        index: usize,
    },
}

impl FitFault {
    /// The reason that the library wrote, or that there is none.
    pub(crate) fn of(fit: &Fit) -> Option<Self> {
        let lookup = fit.lookup;
        match fit.reason {
            0 => None,
            1 => Some(FitFault::Malformed { lookup }),
            2 => Some(FitFault::Missing { lookup, cell: Cell::of(fit), width: fit.width }),
            _ => {
                Some(FitFault::Heights { main: fit.height, preprocessed: fit.preprocessed_height })
            }
        }
    }
}

impl Cell {
    fn of(fit: &Fit) -> Self {
        let (offset, column) = (fit.row, fit.column);
        match Part::of(fit.part) {
            Some(Part::Main) => Cell::Main { offset, column },
            Some(Part::Preprocessed) => Cell::Preprocessed { offset, column },
            _ => Cell::Public { index: column },
        }
    }
}

impl fmt::Display for FitFault {
    fn fmt(&self, f: &mut fmt::Formatter<'_>) -> fmt::Result {
        match self {
            FitFault::Malformed { lookup } => {
                write!(f, "lookup {lookup}: its lists have different lengths")
            }
            FitFault::Missing { lookup, cell, width } => {
                write!(f, "lookup {lookup}: it reads {cell}, and ")?;
                match cell {
                    Cell::Main { offset: 2.., .. } | Cell::Preprocessed { offset: 2.., .. } => {
                        f.write_str("a lookup reads its row and the next one")
                    }
                    Cell::Public { .. } => write!(f, "there are {width}"),
                    _ => write!(f, "there are {width} columns"),
                }
            }
            FitFault::Heights { main, preprocessed } => write!(
                f,
                "the main trace has {main} rows, and the preprocessed trace {preprocessed}"
            ),
        }
    }
}

impl fmt::Display for Cell {
    fn fmt(&self, f: &mut fmt::Formatter<'_>) -> fmt::Result {
        let (offset, column, trace) = match self {
            Cell::Main { offset, column } => (offset, column, "main"),
            Cell::Preprocessed { offset, column } => (offset, column, "preprocessed"),
            Cell::Public { index } => return write!(f, "public value {index}"),
        };
        write!(f, "column {column} of the {trace} trace")?;
        match offset {
            0 => Ok(()),
            1 => f.write_str(" on the next row"),
            _ => write!(f, " {offset} rows on"),
        }
    }
}

#[cfg(test)]
mod tests {
    use super::{Cell, Fit, FitFault};

    #[test]
    fn numbers_become_reasons() {
        let fit = Fit { lookup: 3, row: 1, column: 5, width: 4, ..Fit::default() };
        let reason = |reason, part| FitFault::of(&Fit { reason, part, ..fit });
        assert_eq!(reason(0, 0), None);
        assert_eq!(reason(1, 0), Some(FitFault::Malformed { lookup: 3 }));
        let missing = |cell| Some(FitFault::Missing { lookup: 3, cell, width: 4 });
        assert_eq!(reason(2, 1), missing(Cell::Main { offset: 1, column: 5 }));
        assert_eq!(reason(2, 2), missing(Cell::Preprocessed { offset: 1, column: 5 }));
        assert_eq!(reason(2, 3), missing(Cell::Public { index: 5 }));
        let heights = Fit { reason: 3, height: 2, preprocessed_height: 9, ..Fit::default() };
        assert_eq!(FitFault::of(&heights), Some(FitFault::Heights { main: 2, preprocessed: 9 }));
    }

    #[test]
    fn reasons_have_texts() {
        let text = |cell| FitFault::Missing { lookup: 3, cell, width: 4 }.to_string();
        let next = text(Cell::Main { offset: 1, column: 5 });
        let wanted = "lookup 3: it reads column 5 of the main trace on the next row, and there are 4 \
            columns";
        assert_eq!(next, wanted);
        let wanted =
            "lookup 3: it reads column 5 of the preprocessed trace, and there are 4 columns";
        assert_eq!(text(Cell::Preprocessed { offset: 0, column: 5 }), wanted);
        let far = text(Cell::Main { offset: 2, column: 0 });
        let wanted = "lookup 3: it reads column 0 of the main trace 2 rows on, and a lookup reads its \
            row and the next one";
        assert_eq!(far, wanted);
        assert_eq!(
            text(Cell::Public { index: 9 }),
            "lookup 3: it reads public value 9, and there are 4"
        );
        let malformed = FitFault::Malformed { lookup: 2 };
        assert_eq!(malformed.to_string(), "lookup 2: its lists have different lengths");
        let heights = FitFault::Heights { main: 2, preprocessed: 9 };
        let wanted = "the main trace has 2 rows, and the preprocessed trace 9";
        assert_eq!(heights.to_string(), wanted);
    }
}
