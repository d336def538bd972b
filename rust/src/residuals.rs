//! The residual sheet of a night: computed less measured places, in whole milliarcseconds.
//!
//! In right ascension the difference is taken across the turn, and is of the coordinate itself, not times cos declination. It is rounded
//! once, to the nearest whole number, halves away from zero; from there on every figure is exact. A residual above 1000000 in size is set
//! aside, of its coordinate alone.
use crate::{elementary, ffi, Refusal};

/// How many numbers a sheet has.
pub(crate) const FIGURES: usize = 6;

/// The figures of a coordinate. That of a night without entries is `Sheet::default()`.
#[derive(Clone, Copy, Debug, Default, PartialEq, Eq)]
pub struct Sheet {
    /// How many residuals are taken in.
    pub count: i64,
    /// Their sum, in milliarcseconds.
    pub sum: i64,
    /// The sum of their squares.
    pub squares: i64,
    /// The largest size, 0 where none is taken in.
    pub largest: i64,
    /// The first place that has it, 0 where none is taken in: an index in the slices, where entries of every status count.
    pub place: i64,
    /// How many were set aside, which are in no other figure.
    pub aside: i64,
}

impl Sheet {
    pub(crate) fn of([count, sum, squares, largest, place, aside]: [i64; FIGURES]) -> Sheet {
        Sheet { count, sum, squares, largest, place, aside }
    }

    /// The sheet of a night in two parts: `other` is that of the second part, whose entries come after the `moved_by` of the first. The
    /// lower place wins a tie, so that neither the order nor the grouping of parts matters where each is moved on by where it begins.
    /// The figures of three thousand full sheets together still fit.
    ///
    /// ```
    /// # fn main() -> Result<(), brundelak::Refusal> {
    /// use brundelak::residuals::residuals;
    /// let (asc, dec) = ([1.0, 2.0, 3.0], [0.1, 0.2, 0.3]);
    /// let (seen_asc, seen_dec) = ([1.000001, 2.000001, 2.999998], [0.1; 3]);
    /// let whole = residuals(&[0; 3], &asc, &dec, &seen_asc, &seen_dec)?;
    /// let first = residuals(&[0], &asc[..1], &dec[..1], &seen_asc[..1], &seen_dec[..1])?;
    /// let rest = residuals(&[0; 2], &asc[1..], &dec[1..], &seen_asc[1..], &seen_dec[1..])?;
    /// assert_eq!((first.0.merge(rest.0, 1), first.1.merge(rest.1, 1)), whole);
    /// # Ok(())
    /// # }
    /// ```
    pub fn merge(self, other: Sheet, moved_by: usize) -> Sheet {
        let moved = other.place + moved_by as i64;
        let place = match (self.count, other.count) {
            (_, 0) => self.place,
            (0, _) => moved,
            _ if self.largest > other.largest => self.place,
            _ if self.largest < other.largest => moved,
            _ => self.place.min(moved),
        };
        Sheet {
            count: self.count + other.count,
            sum: self.sum + other.sum,
            squares: self.squares + other.squares,
            largest: self.largest.max(other.largest),
            place,
            aside: self.aside + other.aside,
        }
    }

    /// The mean of the residuals taken in, in milliarcseconds; none where none is.
    pub fn mean(&self) -> Option<f64> {
        self.over_count(self.sum)
    }

    /// The root of the mean of their squares, by [`elementary::sqrt`]; none where none is taken in.
    pub fn root_mean_square(&self) -> Option<f64> {
        self.over_count(self.squares).and_then(|mean| elementary::sqrt(mean).ok())
    }

    fn over_count(&self, figure: i64) -> Option<f64> {
        if self.count == 0 {
            return None;
        }
        Some(figure as f64 / self.count as f64)
    }
}

/// The sheet of right ascension and that of declination, over all entries of status 0: any other status is passed over. Angles are in
/// radians, the computed ones as [`crate::batch::batch`] leaves them. Refusals: 8 for slices of unequal lengths, or of more entries than
/// [`crate::list::MOST_STARS`]; then 1; then 3 for an angle above 64.0 in size, a declination too; entries of every status are tested.
///
/// ```
/// # fn main() -> Result<(), brundelak::Refusal> {
/// use brundelak::residuals::residuals;
/// // the second star was refused, the third is measured wrong
/// let status = [0, 7, 0];
/// let (asc, dec) = ([6.2831853, 0.0, 1.5], [0.5, 0.0, -0.25]);
/// let (measured_asc, measured_dec) = ([0.0000001, 1.0, 1.4], [0.499999, 0.7, -0.25]);
/// let (asc, dec) = residuals(&status, &asc, &dec, &measured_asc, &measured_dec)?;
/// assert_eq!((asc.count, asc.sum, asc.aside), (1, -22, 1));
/// assert_eq!((dec.count, dec.largest, dec.place, dec.mean()), (2, 206, 0, Some(103.0)));
/// # Ok(())
/// # }
/// ```
pub fn residuals(
    status: &[u8],
    asc: &[f64],
    dec: &[f64],
    measured_asc: &[f64],
    measured_dec: &[f64],
) -> Result<(Sheet, Sheet), Refusal> {
    let (asc, dec) = ffi::residuals(status, asc, dec, measured_asc, measured_dec)?;
    Ok((Sheet::of(asc), Sheet::of(dec)))
}
