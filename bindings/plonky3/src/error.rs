//! Refusals.

use std::fmt;

/// Why a call is refused.
#[derive(Clone, Debug, PartialEq, Eq)]
#[non_exhaustive]
pub enum Error {
    /// A lookup has another column than its place in the list.
    Column {
        /// Its place.
        lookup: usize,
        /// Its column.
        column: usize,
    },
    /// A lookup reads what `volgwain` has no word for, such as a periodic column.
    Unknown {
        /// The place of the lookup.
        lookup: usize,
    },
    /// `volgwain` refuses the lookups or the traces, or a tuple does not balance.
    Refused(volgwain::Error),
    /// The lookups of one AIR of many are refused.
    OfAir {
        /// The AIR.
        air: usize,
        /// Why they are.
        reason: Box<Error>,
    },
}

impl fmt::Display for Error {
    fn fmt(&self, f: &mut fmt::Formatter<'_>) -> fmt::Result {
        match self {
            Error::Column { lookup, column } => {
                write!(f, "lookup {lookup} has the column {column}")
            }
            Error::Unknown { lookup } => {
                write!(f, "lookup {lookup} reads what volgwain has no word for")
            }
            Error::Refused(error) => error.fmt(f),
            Error::OfAir { air, reason } => write!(f, "air {air}: {reason}"),
        }
    }
}

impl std::error::Error for Error {}

impl From<volgwain::Error> for Error {
    fn from(error: volgwain::Error) -> Self {
        Error::Refused(error)
    }
}
