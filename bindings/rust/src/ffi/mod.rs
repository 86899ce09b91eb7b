//! The boundary to the library in C, and all that is unsafe in this crate.
//!
//! `declared` has the structs of `bindings/c/volgwain.h` and `functions` the functions, and tests
//! compare them. `calls` has a safe function for each of them, over any field: it takes slices for
//! pointers and lengths, and an [`Error`](crate::Error) for a refusal.
//!
//! What the header asks of a caller holds of every call made here:
//!
//! - no pointer is null, since those of slices and references are not, also of empty ones;
//! - what a pointer names is borrowed until the call returns, and the library keeps no pointer;
//! - a length is that of the slice;
//! - what is written is initialised, and borrowed as mutable, so it overlaps nothing else.
#![allow(unsafe_code)]

mod abi;
mod calls;
mod declared;
mod functions;

pub(crate) use calls::{
    Planned, PlannedIds, bus_table, check_constraints, debug_check, degrees, enforced, fit_fault,
    generate, generate_by_ids, generate_rows, grid_count, mismatch, pack, plan, prove, read_json,
    shift, soundness_count, soundness_of_heights, verify, verify_air, verify_rows,
};
pub(crate) use declared::{
    Bound, Enforced, Fit, Node, PlanSizes, Record, Refusal, Rows, Span, Terminal, kind,
};
pub use functions::Linked;

#[cfg(all(test, target_pointer_width = "64"))]
mod tests {
    use super::declared::*;
    use crate::Element;
    use crate::field::BabyBear;

    /// The size and the alignment of a type.
    fn layout<T>() -> (usize, usize) {
        (size_of::<T>(), align_of::<T>())
    }

    /// Those that bindings/c/test.c finds as well.
    #[test]
    fn structs_have_the_layout_of_the_header() {
        assert_eq!(layout::<Element>(), (16, 4));
        assert_eq!(layout::<Node>(), (16, 8));
        assert_eq!(layout::<Span>(), (16, 8));
        assert_eq!(layout::<Record>(), (80, 8));
        assert_eq!(layout::<Tables>(), (64, 8));
        assert_eq!(layout::<Traces>(), (64, 8));
        assert_eq!(layout::<Terminal<BabyBear>>(), (20, 4));
        assert_eq!(layout::<Refusal>(), (56, 8));
        assert_eq!(layout::<TableSizes>(), (32, 8));
        assert_eq!(layout::<Air>(), (88, 8));
        assert_eq!(layout::<AirWitness<BabyBear>>(), (48, 8));
        assert_eq!(layout::<PlanSizes>(), (16, 8));
        assert_eq!(layout::<Wide>(), (16, 8));
        assert_eq!(layout::<Counts>(), (88, 8));
        assert_eq!(layout::<HeightCounts>(), (56, 8));
        assert_eq!(layout::<Grid>(), (40, 8));
        assert_eq!(layout::<Rows>(), (24, 8));
        assert_eq!(layout::<Fit>(), (56, 8));
        assert_eq!(layout::<Enforced>(), (24, 8));
        assert_eq!(layout::<Bound>(), (16, 8));
    }
}
