//! The functions of the header, in its order. Each field has all of them, under a prefix of its own.

use super::declared::{
    Air, AirWitness, Bound, Counts, Enforced, Fit, Grid, HeightCounts, Node, PlanSizes, Record,
    Refusal, Rows, Span, TableSizes, Tables, Terminal, Traces,
};
use crate::element::Element;
use crate::field::{BabyBear, KoalaBear};
use std::ffi::c_char;

/// A field whose functions are linked.
pub trait Linked: Sized {
    /// Its functions. They are known when a call is compiled, so it is made as any call in C is.
    const CALLS: Calls<Self>;
}

/// Declares the functions of the header: their table, and then those of each field.
macro_rules! functions {
    ([$($field:ident: $prefix:literal),*] $functions:tt) => {
        table! { $functions }
        $(link! { $field $prefix $functions })*
    };
}

macro_rules! table {
    ({ $(fn $name:ident($($argument:ident: $kind:ty,)*) -> u32;)* }) => {
        /// The functions over a field.
        pub struct Calls<F> {
            $(pub(super) $name: unsafe extern "C" fn($($argument: $kind,)*) -> u32,)*
        }
    };
}

macro_rules! link {
    ($field:ident $prefix:literal { $(fn $name:ident $arguments:tt -> u32;)* }) => {
        impl Linked for $field {
            const CALLS: Calls<$field> = {
                type F = $field;
                unsafe extern "C" {
                    $(
                        #[link_name = concat!($prefix, stringify!($name))]
                        fn $name $arguments -> u32;
                    )*
                }
                Calls { $($name,)* }
            };
        }
    };
}

functions! {
    [BabyBear: "volgwain_", KoalaBear: "volgwain_koala_bear_"]
    {
        fn generate(
            tables: *const Tables,
            traces: *const Traces,
            challenges: *const Element<F>,
            challenges_length: usize,
            auxiliary: *mut Element<F>,
            auxiliary_length: usize,
            terminal: *mut Terminal<F>,
            refusal: *mut Refusal,
            text: *mut c_char,
            text_size: usize,
        ) -> u32;

        fn verify_air(
            tables: *const Tables,
            traces: *const Traces,
            challenges: *const Element<F>,
            challenges_length: usize,
            witness: *const AirWitness<F>,
            refusal: *mut Refusal,
            text: *mut c_char,
            text_size: usize,
        ) -> u32;

        fn fit_fault(
            tables: *const Tables,
            traces: *const Traces,
            fit: *mut Fit,
            refusal: *mut Refusal,
            text: *mut c_char,
            text_size: usize,
        ) -> u32;

        fn degrees(
            tables: *const Tables,
            transition_degree: usize,
            degrees: *mut usize,
            degrees_length: usize,
            refusal: *mut Refusal,
            text: *mut c_char,
            text_size: usize,
        ) -> u32;

        fn pack(
            tables: *const Tables,
            max_degree: usize,
            nodes: *mut Node,
            nodes_length: usize,
            tuples: *mut Span,
            tuples_length: usize,
            names: *mut u8,
            names_length: usize,
            records: *mut Record,
            records_length: usize,
            sizes: *mut TableSizes,
            refusal: *mut Refusal,
            text: *mut c_char,
            text_size: usize,
        ) -> u32;

        fn read_json(
            json: *const c_char,
            json_length: usize,
            nodes: *mut Node,
            nodes_length: usize,
            tuples: *mut Span,
            tuples_length: usize,
            names: *mut u8,
            names_length: usize,
            records: *mut Record,
            records_length: usize,
            sizes: *mut TableSizes,
            refusal: *mut Refusal,
            text: *mut c_char,
            text_size: usize,
        ) -> u32;

        fn enforced(
            tables: *const Tables,
            constraints: *const Span,
            height: usize,
            queries: *const u8,
            queries_length: usize,
            shown: *mut Enforced,
            shown_length: usize,
            bounds: *mut Bound,
            bounds_length: usize,
            refusal: *mut Refusal,
            text: *mut c_char,
            text_size: usize,
        ) -> u32;

        fn check_constraints(
            tables: *const Tables,
            constraints: *const Span,
            traces: *const Traces,
            refusal: *mut Refusal,
            text: *mut c_char,
            text_size: usize,
        ) -> u32;

        fn plan(
            airs: *const Air,
            airs_length: usize,
            ids: *mut usize,
            ids_length: usize,
            sizes: *mut PlanSizes,
            refusal: *mut Refusal,
            text: *mut c_char,
            text_size: usize,
        ) -> u32;

        fn generate_by_ids(
            tables: *const Tables,
            traces: *const Traces,
            ids: *const usize,
            ids_length: usize,
            sizes: *const PlanSizes,
            alpha: *const Element<F>,
            beta: *const Element<F>,
            auxiliary: *mut Element<F>,
            auxiliary_length: usize,
            terminal: *mut Terminal<F>,
            refusal: *mut Refusal,
            text: *mut c_char,
            text_size: usize,
        ) -> u32;

        fn prove(
            airs: *const Air,
            airs_length: usize,
            traces: *const Traces,
            traces_length: usize,
            alpha: *const Element<F>,
            beta: *const Element<F>,
            auxiliary: *mut Element<F>,
            auxiliary_length: usize,
            terminals: *mut Terminal<F>,
            terminals_length: usize,
            refusal: *mut Refusal,
            text: *mut c_char,
            text_size: usize,
        ) -> u32;

        fn verify(
            airs: *const Air,
            airs_length: usize,
            traces: *const Traces,
            traces_length: usize,
            alpha: *const Element<F>,
            beta: *const Element<F>,
            witness: *const AirWitness<F>,
            witness_length: usize,
            refusal: *mut Refusal,
            text: *mut c_char,
            text_size: usize,
        ) -> u32;

        fn soundness_count(
            airs: *const Air,
            airs_length: usize,
            traces: *const Traces,
            traces_length: usize,
            counts: *mut Counts,
            refusal: *mut Refusal,
            text: *mut c_char,
            text_size: usize,
        ) -> u32;

        fn soundness_of_heights(
            airs: *const Air,
            airs_length: usize,
            counts: *mut HeightCounts,
            refusal: *mut Refusal,
            text: *mut c_char,
            text_size: usize,
        ) -> u32;

        fn grid_count(
            airs: *const Air,
            airs_length: usize,
            traces: *const Traces,
            traces_length: usize,
            alphas: *const Element<F>,
            alphas_length: usize,
            betas: *const Element<F>,
            betas_length: usize,
            grid: *mut Grid,
            refusal: *mut Refusal,
            text: *mut c_char,
            text_size: usize,
        ) -> u32;

        fn debug_check(
            airs: *const Tables,
            airs_length: usize,
            traces: *const Traces,
            traces_length: usize,
            refusal: *mut Refusal,
            text: *mut c_char,
            text_size: usize,
        ) -> u32;

        fn bus_table(
            airs: *const Tables,
            airs_length: usize,
            traces: *const Traces,
            traces_length: usize,
            limit: usize,
            numbers: *mut usize,
            numbers_length: usize,
            written: *mut usize,
            refusal: *mut Refusal,
            text: *mut c_char,
            text_size: usize,
        ) -> u32;

        fn mismatch(
            airs: *const Tables,
            airs_length: usize,
            traces: *const Traces,
            traces_length: usize,
            limit: usize,
            numbers: *mut usize,
            numbers_length: usize,
            written: *mut usize,
            refusal: *mut Refusal,
            text: *mut c_char,
            text_size: usize,
        ) -> u32;

        fn generate_rows(
            tables: *const Tables,
            around: *const Traces,
            rows: *const Rows,
            ids: *const usize,
            ids_length: usize,
            sizes: *const PlanSizes,
            alpha: *const Element<F>,
            beta: *const Element<F>,
            auxiliary: *mut Element<F>,
            auxiliary_length: usize,
            sum: *mut Element<F>,
            refusal: *mut Refusal,
            text: *mut c_char,
            text_size: usize,
        ) -> u32;

        fn shift(
            cells: *mut Element<F>,
            cells_length: usize,
            width: usize,
            offset: *const Element<F>,
            refusal: *mut Refusal,
            text: *mut c_char,
            text_size: usize,
        ) -> u32;

        fn verify_rows(
            tables: *const Tables,
            around: *const Traces,
            rows: *const Rows,
            ids: *const usize,
            ids_length: usize,
            sizes: *const PlanSizes,
            alpha: *const Element<F>,
            beta: *const Element<F>,
            witness: *const AirWitness<F>,
            refusal: *mut Refusal,
            text: *mut c_char,
            text_size: usize,
        ) -> u32;
    }
}
