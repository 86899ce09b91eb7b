//! Lists as long as what a call reads or writes, for which memory may be refused.

use crate::error::Error;

/// An empty list with room for so many items.
pub(crate) fn room_for<T>(count: usize) -> Result<Vec<T>, Error> {
    let mut list = Vec::new();
    list.try_reserve_exact(count).map_err(|_| Error::memory())?;
    Ok(list)
}

/// A list of so many copies of an item.
pub(crate) fn copies<T: Copy>(item: T, count: usize) -> Result<Vec<T>, Error> {
    let mut list = room_for(count)?;
    list.resize(count, item);
    Ok(list)
}

#[cfg(test)]
mod tests {
    use super::{copies, room_for};
    use crate::Code;

    #[test]
    fn lists_that_no_memory_can_hold_are_refused() {
        assert_eq!(copies(7, 3), Ok(vec![7, 7, 7]));
        assert_eq!(copies(7, 0), Ok(vec![]));
        for count in [usize::MAX, usize::MAX / 16] {
            assert_eq!(copies([0u64; 2], count).unwrap_err().code(), Code::OutOfMemory);
            assert_eq!(room_for::<[u64; 2]>(count).unwrap_err().code(), Code::OutOfMemory);
        }
    }
}
