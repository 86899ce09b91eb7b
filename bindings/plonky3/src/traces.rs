//! Traces.

use crate::field::SharedField;
use p3_lookup::debug_util::LookupDebugInstance;
use p3_matrix::dense::RowMajorMatrix;
use volgwain::{Trace, Traces};

/// The traces and the public values of one AIR as plain numbers. Plonky3 has them in Montgomery form,
/// so they are copied.
#[derive(Clone, Debug, Default, PartialEq, Eq)]
pub struct OwnedTraces {
    main: Cells,
    preprocessed: Option<Cells>,
    public_values: Vec<u32>,
}

/// The cells of a trace, row after row, and how many of them make a row.
#[derive(Clone, Debug, Default, PartialEq, Eq)]
struct Cells {
    numbers: Vec<u32>,
    width: usize,
}

impl OwnedTraces {
    /// A copy of these traces and public values.
    pub fn new<F: SharedField>(
        main: &RowMajorMatrix<F>,
        preprocessed: Option<&RowMajorMatrix<F>>,
        public_values: &[F],
    ) -> Self {
        OwnedTraces {
            main: Cells::of(main),
            preprocessed: preprocessed.map(Cells::of),
            public_values: numbers(public_values),
        }
    }

    /// A copy of the traces and public values of an instance.
    pub fn of<F: SharedField>(instance: &LookupDebugInstance<'_, F>) -> Self {
        let preprocessed = instance.preprocessed_trace.as_ref();
        OwnedTraces::new(instance.main_trace, preprocessed, instance.public_values)
    }

    /// What `volgwain`'s calls take.
    pub fn traces(&self) -> Traces<'_> {
        Traces {
            main: self.main.trace(),
            preprocessed: self.preprocessed.as_ref().map(Cells::trace),
            public_values: &self.public_values,
        }
    }
}

impl Cells {
    fn of<F: SharedField>(matrix: &RowMajorMatrix<F>) -> Self {
        Cells { numbers: numbers(&matrix.values), width: matrix.width }
    }

    fn trace(&self) -> Trace<'_> {
        Trace::new(&self.numbers, self.width)
    }
}

fn numbers<F: SharedField>(elements: &[F]) -> Vec<u32> {
    elements.iter().map(F::as_canonical_u32).collect()
}
