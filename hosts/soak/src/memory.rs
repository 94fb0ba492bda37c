//! Lists that grow with an error where memory ends.

use crate::failure::Failure;

/// One list after the other.
pub fn joined<'a, T: Copy + 'a>(lists: impl Iterator<Item = &'a [T]> + Clone) -> Result<Vec<T>, Failure> {
    let doubles = lists.clone().map(<[T]>::len).sum();
    let mut all = Vec::new();
    all.try_reserve_exact(doubles).map_err(|_| Failure::OutOfMemory { doubles })?;
    lists.for_each(|list| all.extend_from_slice(list));
    Ok(all)
}
