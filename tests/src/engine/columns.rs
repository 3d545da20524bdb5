//! The engine's C function on column texts.

use super::of_lists;

of_lists! {
    csx_point_list(text: u8, listing: u8)
}

/// The length of the listing, or the refusal. Then `listing` begins with the listing.
pub fn point_list(text: &mut [u8], listing: &mut [u8]) -> u64 {
    csx_point_list(text, listing)
}
