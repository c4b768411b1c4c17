//! A path's buckets, each by one shift.

use crate::paper::leaf_count;

/// The bucket of a leaf's path so many levels above the leaves.
#[inline]
pub fn path_bucket(leaf: u16, size: u8, above: u8) -> usize {
    (leaf_count(size) + usize::from(leaf)) >> above
}

/// Whether the path of a leaf passes a bucket: it has it, if at all, at the
/// depth that the bucket's number shows.
#[inline]
pub fn passes(leaf: u16, size: u8, bucket: usize) -> bool {
    let Some(depth) = bucket.checked_ilog2() else {
        return false;
    };
    depth <= u32::from(size) && path_bucket(leaf, size, size - depth as u8) == bucket
}
