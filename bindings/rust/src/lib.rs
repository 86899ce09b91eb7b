//! Volgwain's lookup layer: LogUp lookups over [`BabyBear`] or [`KoalaBear`], with challenges in the
//! quartic extension of the field.
//!
//! The work is done by a static library whose functions are proved to meet their contracts; this
//! crate only calls it. The package of a release has the library, for Linux on x86_64, and needs no
//! more than `cargo`. In a clone of the repository it has to be made first:
//! `docs/guide/RUST_AND_C.md` says how, and what is proved. Documentation alone is made without it
//! where `DOCS_RS` is set.
//!
//! - An [`Expr`] is an expression over a row and the next one. Expressions of your own become one
//!   by [`Symbolic`].
//! - A [`Lookup`] has the [`Message`]s that each row sends, and an [`Air`] the lookups of one
//!   table.
//! - A [`Batch`] has AIRs with the heights of their traces. It makes a [`Witness`], the auxiliary
//!   traces and terminals, and verifies one, whoever made it.
//! - [`Air::enforced`] and [`Batch::enforced`] say whether constraints enforce that the flags of lookups
//!   are lawful and that their weights are kept.
//!
//! These names stand for types over `BabyBear`. The module [`koala_bear`] has the same names over
//! `KoalaBear`, and [`generic`] the types over any [`Field`].
//!
//! ```
//! use volgwain::{Air, Batch, Element, Expr, Lookup, Message, Traces};
//!
//! # fn main() -> Result<(), volgwain::Error> {
//! // Each row of the first AIR looks up its key once.
//! let asks = Air::new([Lookup::on_bus("keys", [Message::query([Expr::main(0)], 1)])])?;
//! // The second one provides each entry, used as often as column 1 says.
//! let entries = Message::provide([Expr::main(0)], Expr::main(1));
//! let provides = Air::new([Lookup::on_bus("keys", [entries])])?;
//!
//! let batch = Batch::new([(&asks, 3), (&provides, 2)])?;
//! let keys = Traces::new(&[3, 4, 3], 1);
//! let table = Traces::new(&[3, 2, 4, 1], 2);
//! // Draw them once the traces are fixed.
//! let (alpha, beta) = (Element::new([9, 2, 6, 5]), Element::new([3, 1, 4, 15]));
//! let witness = batch.prove(&[keys, table], alpha, beta)?;
//! batch.verify(&[keys, table], alpha, beta, &witness)?;
//!
//! // With another key, the entry 3 is provided once too often.
//! let keys = Traces::new(&[3, 4, 4], 1);
//! let fault = batch.debug_check(&[keys, table]).unwrap_err();
//! let wanted = "Lookup mismatch (global lookup 'keys'): tuple [3] has net multiplicity \
//!     2013265920 at instance 0 lookup 0 row 0; instance 1 lookup 0 row 0";
//! assert_eq!(fault.to_string(), wanted);
//! # Ok(())
//! # }
//! ```
//!
//! All types are plain data, so they are [`Send`] and [`Sync`], and any number of threads may work
//! on the same AIRs and batches at once. A large batch is worked on by as many threads as there are
//! processors, or as [`Batch::with_threads`] says. A call needs at most 256 KB of stack, one that reads
//! JSON 384 KB, and [`Air::enforced`] 1 MB. Where the library can get no memory, or there is none for what it writes, a call
//! answers [`Code::OutOfMemory`]; `docs/guide/RUST_AND_C.md` lists what ends the program then.
#![deny(missing_docs, unsafe_code, clippy::undocumented_unsafe_blocks)]

mod air;
mod batch;
mod debug;
mod element;
mod enforced;
mod error;
mod expr;
mod ffi;
mod field;
mod fit;
mod lookup;
mod memory;
mod ranges;
mod symbolic;
mod tables;
mod traces;
mod witness;

pub use air::{bus_table, debug_check, mismatch};
pub use batch::{GridCount, HeightSoundness, SoundnessCount};
pub use debug::{BusGroup, GroupName, Mismatch, Place, UnbalancedTuple};
pub use enforced::{BatchEnforced, Enforced, Missing, Rows};
pub use error::{Code, Error, Part};
pub use expr::{MOST_DEPTH, MOST_NODES};
pub use field::{BabyBear, Field, KoalaBear};
pub use fit::{Cell, FitFault};
pub use symbolic::{Shape, Symbolic, Term};
pub use traces::{Trace, Traces};

/// The types over any [`Field`], for code that is generic over it.
///
/// ```
/// use volgwain::generic::{Air, Expr, Lookup, Message};
/// use volgwain::{BabyBear, Error, Field, KoalaBear};
///
/// /// Each row looks its key up once.
/// fn keys<F: Field>() -> Result<Air<F>, Error> {
///     Air::new([Lookup::on_bus("keys", [Message::query([Expr::main(0)], 1)])])
/// }
///
/// assert_eq!(keys::<BabyBear>().unwrap().degrees(), Ok(vec![2]));
/// assert_eq!(keys::<KoalaBear>().unwrap().degrees(), Ok(vec![2]));
/// ```
pub mod generic {
    pub use crate::air::Air;
    pub use crate::batch::Batch;
    pub use crate::element::Element;
    pub use crate::expr::Expr;
    pub use crate::lookup::{Branch, Count, Lookup, Message};
    pub use crate::witness::{AirWitness, Witness};
}

/// Names the types over a field.
macro_rules! types_over {
    ($field:ident) => {
        types_over! { $field: Air, Batch, Branch, Count, Element, Expr, Lookup, Message, Witness }

        #[doc = concat!("[`generic::AirWitness`] over [`", stringify!($field), "`].")]
        pub type AirWitness<'a> = generic::AirWitness<'a, $field>;

        #[doc = concat!("The characteristic of [`", stringify!($field), "`].")]
        pub const MODULUS: u32 = <$field as Field>::MODULUS;
    };
    ($field:ident: $($name:ident),*) => {
        $(
            #[doc = concat!("[`generic::", stringify!($name), "`] over [`", stringify!($field), "`].")]
            pub type $name = generic::$name<$field>;
        )*
    };
}

types_over!(BabyBear);

/// The names of this crate over [`KoalaBear`].
///
/// ```
/// use volgwain::koala_bear::{Air, Batch, Element, Expr, Lookup, Message, Traces};
///
/// # fn main() -> Result<(), volgwain::Error> {
/// let messages = [Message::query([Expr::main(0)], 1), Message::provide([Expr::main(1)], 1)];
/// let shuffle = Air::new([Lookup::local(messages)])?;
/// let batch = Batch::new([(&shuffle, 2)])?;
/// let traces = [Traces::new(&[3, 2_130_706_432, 2_130_706_432, 3], 2)];
/// let (alpha, beta) = (Element::new([9, 2, 6, 5]), Element::new([3, 1, 4, 15]));
/// let witness = batch.prove(&traces, alpha, beta)?;
/// batch.verify(&traces, alpha, beta, &witness)?;
/// # Ok(())
/// # }
/// ```
///
/// Two fields do not meet in one batch, since their types differ:
///
/// ```compile_fail,E0308
/// use volgwain::{Air, koala_bear};
///
/// let air = Air::new([]).unwrap();
/// let batch = koala_bear::Batch::new([(&air, 1)]);
/// ```
pub mod koala_bear {
    use crate::{Field, KoalaBear, generic};

    pub use crate::{
        BatchEnforced, BusGroup, Cell, Code, Enforced, Error, FitFault, GridCount, GroupName,
        HeightSoundness, MOST_DEPTH, MOST_NODES, Mismatch, Missing, Part, Place, Rows, Shape,
        SoundnessCount, Symbolic, Term, Trace, Traces, UnbalancedTuple, bus_table, debug_check,
        mismatch,
    };

    types_over!(KoalaBear);
}
