//! The fields that both crates have.

use p3_baby_bear::BabyBear;
use p3_field::extension::BinomialExtensionField;
use p3_field::{BasedVectorSpace, ExtensionField, PrimeField32};
use p3_koala_bear::KoalaBear;
use sealed::Sealed;
use volgwain::generic::Element;

/// A field of Plonky3 that `volgwain` has too: `BabyBear` or `KoalaBear`. The trait is sealed.
pub trait SharedField: PrimeField32 + Sealed {
    /// The same field in `volgwain`.
    type Ours: volgwain::Field;

    /// Its quartic extension, which challenges are in: `X^4` is 11 over `BabyBear`, and 3 over
    /// `KoalaBear`.
    type Extension: ExtensionField<Self> + BasedVectorSpace<Self>;
}

impl Sealed for BabyBear {}
impl Sealed for KoalaBear {}

impl SharedField for BabyBear {
    type Ours = volgwain::BabyBear;
    type Extension = BinomialExtensionField<Self, 4>;
}

impl SharedField for KoalaBear {
    type Ours = volgwain::KoalaBear;
    type Extension = BinomialExtensionField<Self, 4>;
}

/// The quartic extension of a field.
pub type Extension<F> = <F as SharedField>::Extension;

/// An element of the extension, as `volgwain` has it.
pub fn element_from_p3<F: SharedField>(element: Extension<F>) -> Element<F::Ours> {
    let coefficients = element.as_basis_coefficients_slice();
    Element::new(std::array::from_fn(|power| coefficients[power].as_canonical_u32()))
}

/// An element of the extension, as Plonky3 has it. Coefficients stand for their residues.
pub fn element_to_p3<F: SharedField>(element: Element<F::Ours>) -> Extension<F> {
    let coefficients = element.coefficients();
    Extension::<F>::from_basis_coefficients_fn(|power| F::from_u32(coefficients[power]))
}

mod sealed {
    /// Implemented here alone, so that no field is taken for one of another characteristic.
    pub trait Sealed {}
}
