//! Random numbers, the same in each run.

use p3_field::BasedVectorSpace;
use volgwain_plonky3::{Extension, SharedField};

/// A linear congruential generator.
pub struct Draws(u64);

impl Draws {
    pub fn new(seed: u64) -> Self {
        let mut draws = Draws(seed);
        draws.below(1);
        draws
    }

    fn next(&mut self) -> u32 {
        self.0 =
            self.0.wrapping_mul(6_364_136_223_846_793_005).wrapping_add(1_442_695_040_888_963_407);
        (self.0 >> 33) as u32
    }

    pub fn below(&mut self, bound: usize) -> usize {
        self.next() as usize % bound
    }

    /// Whether one of so many chances comes true.
    pub fn one_in(&mut self, chances: usize) -> bool {
        self.below(chances) == 0
    }

    pub fn element<F: SharedField>(&mut self) -> F {
        F::from_u32(self.next())
    }

    pub fn extension<F: SharedField>(&mut self) -> Extension<F> {
        Extension::<F>::from_basis_coefficients_fn(|_| self.element())
    }
}
