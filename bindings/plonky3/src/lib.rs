//! The lookups of Plonky3's AIRs, as `p3-lookup` 0.8 records them, checked by [`volgwain`]'s proved
//! lookup layer.
//!
//! - [`check_lookups`] stands in for the call of `p3_lookup::debug_util` of this name. [`debug_check`]
//!   answers in place of a panic, [`mismatch`] with data, and [`bus_table`] for all buses at once.
//! - [`from_p3`] makes a [`volgwain::generic::Air`] of the lookups of an AIR, and [`OwnedTraces`] copies
//!   its traces. With both all calls of `volgwain` can be made: plans, witnesses, counts.
//! - [`generate_permutation`] stands in for that of `LogUpGadget`, under any challenges, and
//!   [`verify_permutation`] checks what a prover made under its own.
//! - [`constraints_of`] has the constraints of an AIR, of which
//!   [`Air::enforced`](volgwain::generic::Air::enforced) says what they enforce of its lookups.
//! - [`challenges`], [`witness_from_p3`] and [`witness_to_p3`] lead from a witness of one crate to one
//!   of the other.
//!
//! All of it is over `BabyBear` or `KoalaBear`, with challenges in the quartic extension of either
//! ([`SharedField`]). `docs/guide/RUST_AND_C.md` of the repository says what differs, and what this crate
//! cannot do.
//!
//! ```
//! use p3_air::{Air, AirBuilder, BaseAir, WindowAccess};
//! use p3_baby_bear::BabyBear;
//! use p3_field::{Field, PrimeCharacteristicRing};
//! use p3_lookup::debug_util::LookupDebugInstance;
//! use p3_lookup::{InteractionBuilder, LookupBus, Lookups};
//! use p3_matrix::dense::RowMajorMatrix;
//! use volgwain_plonky3::{Extension, debug_check};
//!
//! /// Each row looks column 0 up in the table of columns 1 and 2, which are an entry and its uses.
//! struct Keys;
//!
//! impl<F: Field> BaseAir<F> for Keys {
//!     fn width(&self) -> usize {
//!         3
//!     }
//! }
//!
//! impl<AB: AirBuilder<F: Field> + InteractionBuilder> Air<AB> for Keys {
//!     fn eval(&self, builder: &mut AB) {
//!         let row = builder.main().current_slice().to_vec();
//!         let keys = LookupBus::new("keys");
//!         keys.lookup_key(builder, [row[0]], 1);
//!         keys.table_entry(builder, [row[1]], row[2]);
//!     }
//! }
//!
//! let lookups = Lookups::from_air::<Extension<BabyBear>, _>(&Keys);
//! let main = RowMajorMatrix::new([3, 3, 2, 3, 5, 0].map(BabyBear::from_u32).to_vec(), 3);
//! let instance = LookupDebugInstance {
//!     main_trace: &main,
//!     preprocessed_trace: &None,
//!     public_values: &[],
//!     lookups: &lookups,
//!     permutation_challenges: &[],
//! };
//! assert_eq!(debug_check(&[instance]), Ok(()));
//! ```
#![deny(missing_docs)]
#![forbid(unsafe_code)]

mod constraints;
mod debug;
mod error;
mod field;
mod lookups;
mod traces;
mod witness;

pub use constraints::{
    Constraints, LeftOut, MOST_CONSTRAINT_NODES, MOST_DEGREE, Reason, constraints_of, selectors_in,
};
pub use debug::{bus_table, check_lookups, debug_check, mismatch};
pub use error::Error;
pub use field::{Extension, SharedField, element_from_p3, element_to_p3};
pub use lookups::from_p3;
pub use traces::OwnedTraces;
pub use witness::{
    AirWitness, challenges, generate_permutation, verify_permutation, witness_from_p3,
    witness_to_p3,
};
