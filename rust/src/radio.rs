//! Lists over the radio link: byte 3, the star count, then for each star its number, right ascension, folded declination and both rates
//! folded, every number in groups of seven bits, low group first, in the shortest length. A list of version 0.1 begins with byte 2 and has
//! three numbers a star: it is read, with rates zero, and never written.
//!
//! Of the refusals the first met is given. A refused call leaves the lent slice unchanged, an answered one all that it does not write. Only
//! the stored list has empty places: here number 0 is read, written, counted and moved as any other.
use crate::list::{Star, MOST_STARS};
use crate::{ffi, Refusal};

/// The bytes of a radio list, at most: the first, two of the star count, and for each star three numbers of five and two rates of three.
pub const MOST_BYTES: usize = 3 + 21 * MOST_STARS;

/// How many stars a list says it has, and the place of the first. Refusals: 13 (empty), 11, 12 or 13 (the count), 8.
pub fn open(bytes: &[u8]) -> Result<(u32, usize), Refusal> {
    ffi::radio_open(bytes)
}

/// The star at a place of a list and the place after it. Refusals: 13 (empty), 11, 12 or 13 number by number, 9.
pub fn star(bytes: &[u8], place: usize) -> Result<(Star, usize), Refusal> {
    ffi::radio_star(bytes, place)
}

/// How many stars a whole list has. Refusals: as [`open`], as [`star`] at each star, then 13 for bytes over.
pub fn accept(bytes: &[u8]) -> Result<u32, Refusal> {
    ffi::radio_accept(bytes)
}

/// Writes the head of a list with so many stars from a place of a slice on. Answers the place after it. Refusals: 8 for the count,
/// then 8 for no room.
pub fn put_head(out: &mut [u8], place: usize, count: u32) -> Result<usize, Refusal> {
    ffi::radio_put_head(out, place, count)
}

/// Writes a star from a place of a slice on. Answers the place after it. Refusals: 9, then 8 for no room.
pub fn put_star(out: &mut [u8], place: usize, star: Star) -> Result<usize, Refusal> {
    ffi::radio_put_star(out, place, star)
}

/// Writes a radio list as a stored list from a slice's start on. Answers how many bytes it has. Refusals: as [`accept`], then 8 for a
/// slice that is too short.
pub fn radio_to_list(bytes: &[u8], out: &mut [u8]) -> Result<usize, Refusal> {
    ffi::radio_to_list(bytes, out)
}

/// Writes a stored list as a radio list from a slice's start on. Answers how many bytes it has. Refusals: 8 for bytes that are no
/// list, 9, then 8 for a slice that is too short.
pub fn list_to_radio(bytes: &[u8], out: &mut [u8]) -> Result<usize, Refusal> {
    ffi::list_to_radio(bytes, out)
}
