//! The fields that lookups are over.

use crate::ffi::Linked;
use std::fmt::Debug;
use std::hash::Hash;

/// A field that traces are over, as a type. Challenges are in its quartic extension, the polynomials
/// modulo `X^4 - W`.
///
/// The trait is sealed: the library has calls for the fields of this crate alone.
pub trait Field: Linked + Copy + Debug + Default + Eq + Hash + Send + Sync + 'static {
    /// The characteristic, a prime. Numbers of the field are below it.
    const MODULUS: u32;

    /// What `X^4` is in the extension. It is no square of the field.
    const W: u32;
}

/// The integers modulo `15 * 2^27 + 1`, which is 2013265921. In the extension `X^4` is 11.
#[derive(Clone, Copy, Debug, Default, PartialEq, Eq, Hash)]
pub struct BabyBear;

impl Field for BabyBear {
    const MODULUS: u32 = 2_013_265_921;
    const W: u32 = 11;
}

/// The integers modulo `127 * 2^24 + 1`, which is 2130706433. In the extension `X^4` is 3.
#[derive(Clone, Copy, Debug, Default, PartialEq, Eq, Hash)]
pub struct KoalaBear;

impl Field for KoalaBear {
    const MODULUS: u32 = 2_130_706_433;
    const W: u32 = 3;
}
