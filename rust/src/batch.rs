//! The batch: every star of a stored list from one day to another, and the tally of the statuses.
//!
//! Before the chain each coordinate is shifted: its rate times the years between the days, (day2 - day1) / 365.25, is added to it. A star
//! with both rates zero has the chain's answer at its place, bit for bit. A star's refusal is the first met: 9 for its record, 3 for a
//! declination shifted past a quarter turn, then the chain's 14, 7, 4. An empty place, whose number is 0, has status 10, whether its rest
//! is in range or not.
//!
//! [`reduced`] answers stars; [`batch`], [`places`] and the tally go by records, empty places among them.
use crate::coords::EqPoint;
use crate::list::{self, Star, MOST_STARS, RECORD_BYTES};
use crate::{ffi, Edition, Refusal};

/// How many counts a tally has.
pub const COUNTS: usize = 20;

/// The count at which one is full.
pub const FULLEST: u32 = 60000;

/// The highest status that a tally knows.
pub const HIGHEST_STATUS: u8 = 19;

/// A star of a list, with its place or why it has none.
pub type Reduced = (Star, Result<EqPoint, Refusal>);

/// Every star of a list by the chain from one day to another, in their order, each with its place or why it has none. Empty places are
/// left out. Refusals: 1, 2, 8.
///
/// ```
/// # fn main() -> Result<(), brundelak::Refusal> {
/// use brundelak::{batch, list};
/// let mut bytes = [0; 3 * list::RECORD_BYTES]; // three empty places
/// list::add(&mut bytes, list::Star::still(7, 0, 0))?;
/// for (star, place) in batch::reduced(&bytes, 2451545.0, 2462088.69)? {
///     match place {
///         Ok(place) => println!("{} {} {}", star.number, place.asc, place.dec),
///         Err(refusal) => println!("{} {}", star.number, refusal),
///     }
/// }
/// # Ok(())
/// # }
/// ```
pub fn reduced(bytes: &[u8], day1: f64, day2: f64) -> Result<Vec<Reduced>, Refusal> {
    reduced_by(Edition::Crate, bytes, day1, day2)
}

/// The same in an edition, which is the chain's.
pub fn reduced_by(edition: Edition, bytes: &[u8], day1: f64, day2: f64) -> Result<Vec<Reduced>, Refusal> {
    by_star(bytes, |status, asc, dec| batch_by(edition, bytes, day1, day2, status, asc, dec))
}

/// Each star of a list with what a call stored of it.
pub(crate) fn by_star(
    bytes: &[u8],
    store: impl FnOnce(&mut [u8], &mut [f64], &mut [f64]) -> Result<[u32; COUNTS], Refusal>,
) -> Result<Vec<Reduced>, Refusal> {
    // Room for every record of the longest list: more bytes are no list, which is the call's to refuse, after the days.
    let records = MOST_STARS.min(bytes.len() / RECORD_BYTES);
    let (mut status, mut asc, mut dec) = (vec![0; records], vec![0.0; records], vec![0.0; records]);
    store(&mut status, &mut asc, &mut dec)?;
    let (mut reduced, mut place) = (Vec::with_capacity(records), 0);
    // The record of a star that is shown is the one that ends at the next place, whatever was passed over before it.
    while let Some((star, next)) = list::star(bytes, place)? {
        let i = next / RECORD_BYTES - 1;
        reduced.push((star, result(status[i], asc[i], dec[i])));
        place = next;
    }
    Ok(reduced)
}

fn result(status: u8, asc: f64, dec: f64) -> Result<EqPoint, Refusal> {
    Refusal::from_number(status).map_or(Ok(EqPoint { asc, dec }), Err)
}

/// What a batch left in the lent slices, record by record, without memory of its own: a place, or why there is none, which is 10 for an
/// empty place. It ends with the shortest slice, so that longer ones than the list has records are to be cut first. To have each star with
/// its own, without memory: the record of a star that [`list::star`] shows is the one that ends at the place it answers.
pub fn places<'a>(
    status: &'a [u8],
    asc: &'a [f64],
    dec: &'a [f64],
) -> impl Iterator<Item = Result<EqPoint, Refusal>> + 'a {
    status.iter().zip(asc.iter().zip(dec)).map(|(&status, (&asc, &dec))| result(status, asc, dec))
}

/// Every star of a list by the chain from one day to another: the lent slices get the status of each record (0, or its refusal's number,
/// 10 for an empty place) and two angles, 0.0 and 0.0 where it is refused. Answers how many records have each status. Refusals, which
/// leave the slices unchanged: 1, 2, 8.
pub fn batch(
    bytes: &[u8],
    day1: f64,
    day2: f64,
    status: &mut [u8],
    asc: &mut [f64],
    dec: &mut [f64],
) -> Result<[u32; COUNTS], Refusal> {
    batch_by(Edition::Crate, bytes, day1, day2, status, asc, dec)
}

/// The same in an edition, which is the chain's.
pub fn batch_by(
    edition: Edition,
    bytes: &[u8],
    day1: f64,
    day2: f64,
    status: &mut [u8],
    asc: &mut [f64],
    dec: &mut [f64],
) -> Result<[u32; COUNTS], Refusal> {
    ffi::batch(edition, bytes, day1, day2, status, asc, dec)
}

/// A tally with the count of one status raised. Refusals: 9 for a status above [`HIGHEST_STATUS`], then 8 for a count of
/// [`FULLEST`] or more.
pub fn tally_raise(tally: [u32; COUNTS], status: u8) -> Result<[u32; COUNTS], Refusal> {
    ffi::tally_raise(tally, status)
}
