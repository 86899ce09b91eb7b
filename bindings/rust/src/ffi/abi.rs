//! The number of the interface. The archive has it in the name of a call, so that one of another
//! interface does not link.

unsafe extern "C" {
    fn volgwain_abi_3() -> u32;
}

/// Asks the archive for its number. Whatever calls the library goes through here.
pub(super) fn ask() {
    // SAFETY: it takes nothing, and only answers a number.
    let number = unsafe { volgwain_abi_3() };
    debug_assert_eq!(number, 3, "the call has another number than its name");
}
