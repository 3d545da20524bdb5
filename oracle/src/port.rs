//! What the feature `port` changes. Lines of csx's files marked
//! `// oracle: zeros`, `// oracle: order`, `// oracle: own box` or
//! `// oracle: votes` call these functions. Without the feature they do what csx
//! does in those places.

use std::cmp::Ordering;

use crate::math::{BoundingBox, Vec3};

/// Minimum. With the feature: of two equal numbers the left one, of a NaN
/// and a number the number.
#[inline]
pub fn min(a: f64, b: f64) -> f64 {
    if cfg!(feature = "port") {
        if b < a || a.is_nan() { b } else { a }
    } else {
        a.min(b)
    }
}

/// Maximum. With the feature: of two equal numbers the left one, of a NaN
/// and a number the number.
#[inline]
pub fn max(a: f64, b: f64) -> f64 {
    if cfg!(feature = "port") {
        if a < b || a.is_nan() { b } else { a }
    } else {
        a.max(b)
    }
}

/// Which of two items with equal centres comes first. With the feature: the one
/// with the lower number. Without it neither does.
#[inline]
pub fn order(a: u32, b: u32) -> Ordering {
    if cfg!(feature = "port") {
        a.cmp(&b)
    } else {
        Ordering::Equal
    }
}

/// The items of a node. With the feature: in ascending order. Without it as the
/// selection left them.
#[inline]
pub fn ascending(items: &mut [u32]) -> &mut [u32] {
    if cfg!(feature = "port") {
        items.sort_unstable();
    }
    items
}

/// The corners of a triangle in a leaf, if it is looked at. With the feature: if
/// its own box passes the walk's box test. Without it always.
#[inline]
pub fn looked_at(
    corners: [Vec3; 3],
    passes: impl FnOnce(&BoundingBox) -> bool,
) -> Option<[Vec3; 3]> {
    let looked_at = !cfg!(feature = "port") || passes(&BoundingBox::from_points(corners));
    looked_at.then_some(corners)
}

/// Whether a point with equal votes is inside. With the feature: undecided, which
/// is `None`. Without it the winding number decides.
#[inline]
pub fn equal_votes(by_winding_number: impl FnOnce() -> bool) -> Option<bool> {
    (!cfg!(feature = "port")).then(by_winding_number)
}
