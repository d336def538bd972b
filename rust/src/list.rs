//! The stored list: at most [`MOST_STARS`] records of [`RECORD_BYTES`] bytes, little-endian; number, right ascension and declination in
//! milliarcseconds, and the yearly change of each. Lists of before, whose records have no rates, move up by [`list_12_to_20`].
//!
//! ```
//! # fn main() -> Result<(), brundelak::Refusal> {
//! use brundelak::list::{self, Star};
//! let stars = [Star::still(7, 0, 0), Star { asc_rate: 65, dec_rate: -189, ..Star::still(9, 3600000, -3600000) }];
//! let (mut out, mut end) = ([0; 3 * list::RECORD_BYTES], 0);
//! for &star in &stars {
//!     end = list::put_star(&mut out, end, star)?;
//! }
//! assert!(list::stars(&out[..end])?.eq(stars.iter().copied()));
//! # Ok(())
//! # }
//! ```
//!
//! A record whose number is 0 is an empty place, whatever stands behind the 0, and no star: [`stars`] and [`star`] pass over it, [`find`]
//! never answers it, a batch gives it status 10. The index of [`find`] and the slices of [`batch::batch`](crate::batch::batch) count
//! records, empty places among them; [`stars`] has the stars alone, so that its i-th need not be the i-th of those slices:
//! [`batch::reduced`](crate::batch::reduced) answers each star with its own result.
//!
//! A list is edited where it stands by [`strike`], [`add`] and [`gather`]. None of the three changes a list's length: places for stars to
//! come are laid as zero bytes.
//!
//! ```
//! # fn main() -> Result<(), brundelak::Refusal> {
//! use brundelak::list::{self, Star};
//! use brundelak::Refusal;
//! let mut bytes = [0; 2 * list::RECORD_BYTES]; // two empty places
//! list::add(&mut bytes, Star::still(7, 0, 0))?;
//! list::add(&mut bytes, Star::still(9, 3600000, -3600000))?;
//! assert_eq!(list::add(&mut bytes, Star::still(9, 0, 0)), Err(Refusal::NumberPresent));
//! assert_eq!(list::add(&mut bytes, Star::still(8, 0, 0)), Err(Refusal::NoEmptyPlace));
//! list::strike(&mut bytes, 7)?; // its place is empty, and star 9 is shown first
//! assert!(list::stars(&bytes)?.eq([Star::still(9, 3600000, -3600000)].iter().copied()));
//! assert_eq!(list::find(&bytes, 9)?.0, 1);
//! list::gather(&mut bytes)?; // star 9 stands first now, and an empty place behind it
//! assert_eq!(list::find(&bytes, 9)?, (0, Star::still(9, 3600000, -3600000)));
//! list::add(&mut bytes, Star::still(7, 0, 0))?;
//! assert_eq!(list::find(&bytes, 7)?.0, 1);
//! # Ok(())
//! # }
//! ```
use crate::{ffi, Refusal};
use std::iter::FusedIterator;

/// A star as its record has it, in range or not.
#[derive(Clone, Copy, Debug, PartialEq, Eq)]
pub struct Star {
    /// Its number; in a stored list 0 is an empty place.
    pub number: u32,
    /// Right ascension in milliarcseconds; in range below 1296000000.
    pub asc: u32,
    /// Declination in milliarcseconds; in range to 324000000 in size.
    pub dec: i32,
    /// Yearly change of right ascension in milliarcseconds a year; in range to 20000 in size. It is of the coordinate itself: what
    /// catalogues print is that times cos declination, and must be divided by it.
    pub asc_rate: i32,
    /// Yearly change of declination in milliarcseconds a year; in range to 20000 in size.
    pub dec_rate: i32,
}

impl Star {
    /// A star that stands still: both rates are zero.
    pub const fn still(number: u32, asc: u32, dec: i32) -> Star {
        Star { number, asc, dec, asc_rate: 0, dec_rate: 0 }
    }
}

/// The bytes of a record.
pub const RECORD_BYTES: usize = 20;

/// The stars of a list, at most, which are its records where no place is empty.
pub const MOST_STARS: usize = 3000;

/// The bytes of a list, at most.
pub const MOST_BYTES: usize = RECORD_BYTES * MOST_STARS;

/// The bytes of a record of a narrow list, as version 0.1 had it: number, right ascension and declination, and no rates.
pub const NARROW_RECORD_BYTES: usize = 12;

/// The bytes of a narrow list, at most.
pub const MOST_NARROW_BYTES: usize = NARROW_RECORD_BYTES * MOST_STARS;

/// The stars of a list, in range or not, in their order; empty places are passed over. Refusals: 8.
pub fn stars(bytes: &[u8]) -> Result<Stars<'_>, Refusal> {
    star(bytes, 0)?;
    Ok(Stars { bytes, place: 0 })
}

/// The stars of a list, one after the other: what [`stars`] answers. How many are left is not known before they are shown, as any place may
/// be empty: at most as many as there are records.
#[derive(Clone, Debug)]
pub struct Stars<'a> {
    bytes: &'a [u8],
    place: usize,
}

impl Iterator for Stars<'_> {
    type Item = Star;

    fn next(&mut self) -> Option<Star> {
        let (one, next) = star(self.bytes, self.place).ok()??;
        self.place = next;
        Some(one)
    }

    fn size_hint(&self) -> (usize, Option<usize>) {
        (0, Some((self.bytes.len() - self.place) / RECORD_BYTES))
    }
}

impl FusedIterator for Stars<'_> {}

/// The first star from a place of a list on, which is a record's start or the end, and the place after it, so that its record is the one
/// that ends there; none at the end and where only empty places follow. Refusals: 8.
pub fn star(bytes: &[u8], place: usize) -> Result<Option<(Star, usize)>, Refusal> {
    ffi::star(bytes, place)
}

/// Writes a star's record from a place of a slice on, and answers the place after it: stars written one after the other from place 0 on
/// are a list, which ends at the last place answered. Number 0 writes an empty place. Refusals, which leave the slice unchanged: 9,
/// then 8 for a place at which no record of a list begins (not a multiple of [`RECORD_BYTES`], or [`MOST_BYTES`] and more) and for no room.
pub fn put_star(out: &mut [u8], place: usize, star: Star) -> Result<usize, Refusal> {
    ffi::put_star(out, place, star)
}

/// The first star with a number, and the index of its record, empty places before it counted. Refusals: 8, then 10 for number 0, which is
/// an empty place, and where no star has the number, then 9.
pub fn find(bytes: &[u8], number: u32) -> Result<(usize, Star), Refusal> {
    ffi::find(bytes, number)
}

/// Strikes the first star with a number off a list, in range or not: all bytes of its record become zero, an empty place, and every other
/// record stays. Refusals, which leave every byte: 8, then 10 for number 0 and where no star has the number.
///
/// A list from elsewhere may have a number twice. Struck once it is there still, and [`add`] refuses it by 18: strike it until that is
/// refused by 10.
pub fn strike(bytes: &mut [u8], number: u32) -> Result<(), Refusal> {
    ffi::strike(bytes, number)
}

/// Adds a star to a list: its record takes all bytes of the first place whose number is 0, whatever stood behind the 0, and every other
/// record stays. Refusals, which leave every byte: 8, then 9 for number 0 and a star out of range, 18 where a record has the number, in
/// range or not, 19 where no place is empty.
pub fn add(bytes: &mut [u8], star: Star) -> Result<(), Refusal> {
    ffi::add(bytes, star)
}

/// Brings every record of a list whose number is not 0 forward, in range or not, byte for byte and in its order; zero bytes follow to
/// the end. The stars are the same as before, and only their indices others. Refusals, which leave every byte: 8.
pub fn gather(bytes: &mut [u8]) -> Result<(), Refusal> {
    ffi::gather(bytes)
}

/// Writes a narrow list as a list from a slice's start on: the same stars, with rates zero. Answers how many bytes it has, of which
/// [`list_20_to_12`] makes the same narrow list. Refusals, which leave the slice unchanged: 8 for bytes that are no narrow list (not a
/// multiple of [`NARROW_RECORD_BYTES`], or more than [`MOST_NARROW_BYTES`]), 9, then 8 for a slice that is too short. An empty place is
/// carried like any record, and refused like any.
///
/// A list bears no mark of its width, so that who keeps lists of both must know which is which.
pub fn list_12_to_20(bytes: &[u8], out: &mut [u8]) -> Result<usize, Refusal> {
    ffi::list_12_to_20(bytes, out)
}

/// Writes a list whose stars all stand still as a narrow list from a slice's start on. Answers how many bytes it has, of which
/// [`list_12_to_20`] makes the same list. Refusals, which leave the slice unchanged: 8 for bytes that are no list, 9 for a record out of
/// range, 17 for a rate that is not zero, each wherever in the list it is, then 8 for a slice that is too short. An empty place is carried
/// like any record, and refused like any.
pub fn list_20_to_12(bytes: &[u8], out: &mut [u8]) -> Result<usize, Refusal> {
    ffi::list_20_to_12(bytes, out)
}
