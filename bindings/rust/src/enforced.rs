//! What the constraints of AIRs enforce of their lookups.

use crate::ffi;
use std::fmt;

/// What the constraints of an AIR are shown to enforce of one of its lookups, on each row of traces of a height, on
/// which they are zero. So it holds of all traces that any prover picks.
///
/// What is not shown may still be so: `false` and `None` never say that something is wrong.
#[derive(Clone, Debug, PartialEq, Eq, Hash)]
#[non_exhaustive]
pub struct Enforced {
    /// Whether the flags are shown to be lawful: each is 0 or 1, and at most one is 1. So it is of a lookup without
    /// flags.
    pub flags: bool,
    /// The first thing that is not shown of the flags, if something is not.
    pub missing: Option<Missing>,
    /// Whether the queries are shown to stay within the weight of the lookup. Which tuples are queries says
    /// [`Lookup::queries`](crate::generic::Lookup::queries).
    pub weight: bool,
    /// For each multiplicity a bound, if one is shown: it is a whole number times 1, whose absolute value is at most
    /// this.
    pub bounds: Vec<Option<u64>>,
    /// From how many constraints it is shown. What a prover checks beside them is not seen.
    pub constraints: usize,
}

/// What is not shown of the flags of a lookup.
#[derive(Clone, Copy, Debug, PartialEq, Eq, Hash)]
#[non_exhaustive]
pub enum Missing {
    /// That a flag is 0 or 1.
    Flag {
        /// The index of the flag.
        flag: usize,
        /// On which rows.
        rows: Rows,
    },
    /// That at most one flag is 1.
    Exclusive {
        /// On which rows.
        rows: Rows,
    },
}

/// Rows of a trace, by their place.
#[derive(Clone, Copy, Debug, PartialEq, Eq, Hash)]
pub enum Rows {
    /// Those between the first and the last one.
    Between,
    /// The first one, of more than one.
    First,
    /// The last one, of more than one.
    Last,
    /// The only one.
    Only,
}

/// What constraints are shown to enforce of the lookups of a batch.
///
/// Where [`all_flags`](BatchEnforced::all_flags) says yes, the bound of
/// [`Batch::soundness_of_heights`](crate::generic::Batch::soundness_of_heights) holds with no condition on flags, of
/// all traces on which the constraints are zero.
#[derive(Clone, Debug, PartialEq, Eq, Hash)]
#[non_exhaustive]
pub struct BatchEnforced {
    /// What is shown, AIR by AIR and lookup by lookup.
    pub airs: Vec<Vec<Enforced>>,
}

impl BatchEnforced {
    /// Whether the flags of all lookups are shown to be lawful.
    pub fn all_flags(&self) -> bool {
        self.airs.iter().flatten().all(|lookup| lookup.flags)
    }

    /// Whether the queries of all lookups are shown to stay within their weights.
    pub fn all_weights(&self) -> bool {
        self.airs.iter().flatten().all(|lookup| lookup.weight)
    }
}

impl Enforced {
    /// What the library wrote for a lookup, with the bounds of its multiplicities.
    pub(crate) fn of(shown: &ffi::Enforced, bounds: &[ffi::Bound], constraints: usize) -> Self {
        Enforced {
            flags: shown.flags != 0,
            missing: Missing::of(shown),
            weight: shown.weight != 0,
            bounds: bounds.iter().map(|it| (it.present != 0).then_some(it.bound)).collect(),
            constraints,
        }
    }
}

impl Missing {
    fn of(shown: &ffi::Enforced) -> Option<Self> {
        let rows = match shown.rows {
            0 => Rows::Between,
            1 => Rows::First,
            2 => Rows::Last,
            _ => Rows::Only,
        };
        match shown.missing {
            0 => None,
            1 => Some(Missing::Flag { flag: shown.flag, rows }),
            _ => Some(Missing::Exclusive { rows }),
        }
    }
}

impl fmt::Display for Rows {
    fn fmt(&self, f: &mut fmt::Formatter<'_>) -> fmt::Result {
        f.write_str(match self {
            Rows::Between => "a row that is neither the first nor the last",
            Rows::First => "the first row",
            Rows::Last => "the last row",
            Rows::Only => "the only row",
        })
    }
}

impl fmt::Display for Missing {
    fn fmt(&self, f: &mut fmt::Formatter<'_>) -> fmt::Result {
        match self {
            Missing::Flag { flag, rows } => {
                write!(f, "flag {flag} is not shown to be 0 or 1 on {rows}")
            }
            Missing::Exclusive { rows } => {
                write!(f, "it is not shown that at most one flag is 1 on {rows}")
            }
        }
    }
}

impl fmt::Display for Enforced {
    /// As `these 3 constraints: flags enforced; weight not shown`.
    fn fmt(&self, f: &mut fmt::Formatter<'_>) -> fmt::Result {
        match self.constraints {
            1 => f.write_str("this 1 constraint: ")?,
            count => write!(f, "these {count} constraints: ")?,
        }
        match &self.missing {
            None => f.write_str("flags enforced")?,
            Some(missing) => write!(f, "flags not shown, as {missing}")?,
        }
        f.write_str(if self.weight { "; weight enforced" } else { "; weight not shown" })
    }
}

impl fmt::Display for BatchEnforced {
    /// A line for each lookup, which begins with its AIR and its index.
    fn fmt(&self, f: &mut fmt::Formatter<'_>) -> fmt::Result {
        for (air, lookups) in self.airs.iter().enumerate() {
            for (lookup, enforced) in lookups.iter().enumerate() {
                writeln!(f, "air {air}, lookup {lookup}: {enforced}")?;
            }
        }
        Ok(())
    }
}

#[cfg(test)]
mod tests {
    use super::{BatchEnforced, Enforced, Missing, Rows};
    use crate::ffi;

    #[test]
    fn numbers_become_reports() {
        let shown = |missing, rows| {
            let numbers = ffi::Enforced { flags: 0, weight: 1, missing, rows, flag: 7 };
            Enforced::of(&numbers, &[], 2).missing
        };
        assert_eq!(shown(0, 0), None);
        assert_eq!(shown(1, 0), Some(Missing::Flag { flag: 7, rows: Rows::Between }));
        assert_eq!(shown(1, 1), Some(Missing::Flag { flag: 7, rows: Rows::First }));
        assert_eq!(shown(2, 2), Some(Missing::Exclusive { rows: Rows::Last }));
        assert_eq!(shown(2, 3), Some(Missing::Exclusive { rows: Rows::Only }));
        let bounds = [(1, 5), (0, 0), (1, 0)].map(|(present, bound)| ffi::Bound { present, bound });
        let numbers = ffi::Enforced { flags: 1, ..ffi::Enforced::default() };
        let enforced = Enforced::of(&numbers, &bounds, 2);
        assert_eq!(enforced.bounds, [Some(5), None, Some(0)]);
        assert_eq!((enforced.flags, enforced.weight, enforced.constraints), (true, false, 2));
    }

    #[test]
    fn reports_have_texts() {
        let lawful = ffi::Enforced { flags: 1, weight: 1, ..ffi::Enforced::default() };
        let shown = Enforced::of(&lawful, &[], 3);
        assert_eq!(shown.to_string(), "these 3 constraints: flags enforced; weight enforced");
        let missing = ffi::Enforced { missing: 1, rows: 3, ..ffi::Enforced::default() };
        let unshown = Enforced::of(&missing, &[], 1);
        let wanted = "this 1 constraint: flags not shown, as flag 0 is not shown to be 0 or 1 on the \
            only row; weight not shown";
        assert_eq!(unshown.to_string(), wanted);
        let exclusive = Missing::Exclusive { rows: Rows::Between };
        let wanted = "it is not shown that at most one flag is 1 on a row that is neither the first \
            nor the last";
        assert_eq!(exclusive.to_string(), wanted);
        let batch = BatchEnforced { airs: vec![vec![], vec![shown.clone(), shown]] };
        let wanted = "\
            air 1, lookup 0: these 3 constraints: flags enforced; weight enforced\n\
            air 1, lookup 1: these 3 constraints: flags enforced; weight enforced\n";
        assert_eq!(batch.to_string(), wanted);
        assert!(batch.all_flags() && batch.all_weights());
        let batch = BatchEnforced { airs: vec![vec![unshown]] };
        assert!(!batch.all_flags() && !batch.all_weights());
    }
}
