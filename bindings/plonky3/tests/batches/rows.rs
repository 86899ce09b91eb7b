//! The constraints that `LogUpGadget` asserts, on the rows of a witness.
#![allow(clippy::clone_on_copy)] // of windows Plonky3's traits promise `Clone` alone

use crate::airs::Table;
use p3_air::{AirBuilder, ExtensionBuilder, PermutationAirBuilder, RowWindow};
use p3_field::PrimeCharacteristicRing;
use p3_lookup::{LogUpGadget, LookupProtocol};
use p3_matrix::Matrix;
use p3_matrix::dense::RowMajorMatrix;
use volgwain_plonky3::{AirWitness, Extension, SharedField};

/// The first row of an AIR on which an asserted constraint is not zero.
pub fn failing_row<F: SharedField>(
    table: &Table<F>,
    challenges: &[Extension<F>],
    (auxiliary, terminal): &AirWitness<F>,
) -> Option<usize> {
    let height = table.main.height();
    let terminals: Vec<Extension<F>> = terminal.iter().map(|terminal| terminal.0).collect();
    (0..height).find(|&row| {
        let at = [row, (row + 1) % height];
        let preprocessed = table.preprocessed.as_ref();
        let mut builder = Asserting {
            main: window(&table.main, at),
            preprocessed: preprocessed
                .map_or_else(|| RowWindow::from_two_rows(&[], &[]), |it| window(it, at)),
            permutation: window(auxiliary, at),
            public_values: &table.public_values,
            challenges,
            terminals: &terminals,
            row,
            height,
            failed: false,
        };
        LogUpGadget::new().eval_all(&mut builder, table.lookups());
        builder.failed
    })
}

/// Two rows of a matrix. One without columns has none.
fn window<T>(matrix: &RowMajorMatrix<T>, at: [usize; 2]) -> RowWindow<'_, T> {
    let [current, next] = at.map(|row| &matrix.values[row * matrix.width..][..matrix.width]);
    RowWindow::from_two_rows(current, next)
}

/// A row of one AIR, and whether an asserted value was not zero.
struct Asserting<'a, F: SharedField> {
    main: RowWindow<'a, F>,
    preprocessed: RowWindow<'a, F>,
    permutation: RowWindow<'a, Extension<F>>,
    public_values: &'a [F],
    challenges: &'a [Extension<F>],
    terminals: &'a [Extension<F>],
    row: usize,
    height: usize,
    failed: bool,
}

impl<'a, F: SharedField> AirBuilder for Asserting<'a, F> {
    type F = F;
    type Expr = F;
    type Var = F;
    type PreprocessedWindow = RowWindow<'a, F>;
    type MainWindow = RowWindow<'a, F>;
    type PublicVar = F;
    type PeriodicVar = F;

    fn main(&self) -> Self::MainWindow {
        self.main.clone()
    }

    fn preprocessed(&self) -> &Self::PreprocessedWindow {
        &self.preprocessed
    }

    fn is_first_row(&self) -> F {
        F::from_bool(self.row == 0)
    }

    fn is_last_row(&self) -> F {
        F::from_bool(self.row + 1 == self.height)
    }

    fn is_transition(&self) -> F {
        F::from_bool(self.row + 1 < self.height)
    }

    fn assert_zero<I: Into<F>>(&mut self, value: I) {
        self.failed |= value.into() != F::ZERO;
    }

    fn public_values(&self) -> &[F] {
        self.public_values
    }
}

impl<F: SharedField> ExtensionBuilder for Asserting<'_, F> {
    type EF = Extension<F>;
    type ExprEF = Extension<F>;
    type VarEF = Extension<F>;

    fn assert_zero_ext<I: Into<Extension<F>>>(&mut self, value: I) {
        self.failed |= value.into() != Extension::<F>::ZERO;
    }
}

impl<'a, F: SharedField> PermutationAirBuilder for Asserting<'a, F> {
    type MP = RowWindow<'a, Extension<F>>;
    type RandomVar = Extension<F>;
    type PermutationVar = Extension<F>;

    fn permutation(&self) -> Self::MP {
        self.permutation.clone()
    }

    fn permutation_randomness(&self) -> &[Extension<F>] {
        self.challenges
    }

    fn permutation_values(&self) -> &[Extension<F>] {
        self.terminals
    }
}
