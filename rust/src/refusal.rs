use std::error::Error;
use std::fmt;

/// Why a call was refused. A refused call answers nothing else.
///
/// Rows 1 to 5 are tested first, lowest number first, over all arguments; the others as the work meets them.
#[derive(Clone, Copy, Debug, PartialEq, Eq, Hash)]
#[non_exhaustive]
pub enum Refusal {
    /// 1: an argument is NaN or infinite.
    NotFinite,
    /// 2: a day is more than 730500.0 from 2451545.0.
    Day,
    /// 3: an angle exceeds 64.0 in size, or a declination, altitude or latitude a quarter turn; of refraction an altitude is outside
    /// 0.0 to 89.8 degrees; of a star in a batch its declination, shifted by its rate, exceeds a quarter turn.
    Angle,
    /// 4: an angle that goes into a tangent, or whose cosine divides, exceeds 1.57 in size.
    Steep,
    /// 5: a distance, a height or a root's argument is outside its range.
    Range,
    /// 6: a divisor is zero.
    Zero,
    /// 7: the argument of an arcsine exceeds 1 in size.
    Arcsine,
    /// 8: the list, a place in it or a lent slice has a bad length, or a radio list too many stars.
    List,
    /// 9: a star record is out of range, or the number of a star to be added is 0.
    Record,
    /// 10: no star has the number sought or to be struck, as none has number 0; of a record in a batch: an empty place.
    NoStar,
    /// 11: the first byte of a radio list is neither 2 nor 3.
    FirstByte,
    /// 12: a number of a radio list is not in its shortest length or above 32 bits.
    Spelling,
    /// 13: a radio list is cut short, an empty one too, or has bytes over.
    End,
    /// 14: both arguments of an arctangent are zero: there is no direction.
    NoDirection,
    /// 15: the star never rises: it stays below the standard altitude.
    NeverRises,
    /// 16: the star never sets: it stays above the standard altitude.
    NeverSets,
    /// 17: a star's rate is not zero, and a narrow list, to which it is to move down, has no rates.
    MovingStar,
    /// 18: a star to be added has the number of a record of the list, in range or not.
    NumberPresent,
    /// 19: no place of the list is empty, so that no star can be added.
    NoEmptyPlace,
    /// 20: the headings of a mark do not agree: with none of them do more than half. No record has it as a status.
    SightsApart,
    /// A number that this version has no name for.
    Other(u8),
}

impl Refusal {
    /// The highest number that has a name.
    pub const HIGHEST: u8 = 20;

    /// The refusal that a number stands for, as a status of a batch has it; none for 0, which is no refusal.
    ///
    /// ```
    /// use brundelak::Refusal;
    /// assert_eq!(Refusal::from_number(14), Some(Refusal::NoDirection));
    /// assert_eq!(Refusal::from_number(0), None);
    /// ```
    pub fn from_number(number: u8) -> Option<Refusal> {
        Some(match number {
            0 => return None,
            1 => Refusal::NotFinite,
            2 => Refusal::Day,
            3 => Refusal::Angle,
            4 => Refusal::Steep,
            5 => Refusal::Range,
            6 => Refusal::Zero,
            7 => Refusal::Arcsine,
            8 => Refusal::List,
            9 => Refusal::Record,
            10 => Refusal::NoStar,
            11 => Refusal::FirstByte,
            12 => Refusal::Spelling,
            13 => Refusal::End,
            14 => Refusal::NoDirection,
            15 => Refusal::NeverRises,
            16 => Refusal::NeverSets,
            17 => Refusal::MovingStar,
            18 => Refusal::NumberPresent,
            19 => Refusal::NoEmptyPlace,
            20 => Refusal::SightsApart,
            n => Refusal::Other(n),
        })
    }

    /// A status as a result.
    pub(crate) fn from_status(status: u8) -> Result<(), Refusal> {
        Refusal::from_number(status).map_or(Ok(()), Err)
    }

    /// The refusal's number.
    pub fn number(self) -> u8 {
        match self {
            Refusal::NotFinite => 1,
            Refusal::Day => 2,
            Refusal::Angle => 3,
            Refusal::Steep => 4,
            Refusal::Range => 5,
            Refusal::Zero => 6,
            Refusal::Arcsine => 7,
            Refusal::List => 8,
            Refusal::Record => 9,
            Refusal::NoStar => 10,
            Refusal::FirstByte => 11,
            Refusal::Spelling => 12,
            Refusal::End => 13,
            Refusal::NoDirection => 14,
            Refusal::NeverRises => 15,
            Refusal::NeverSets => 16,
            Refusal::MovingStar => 17,
            Refusal::NumberPresent => 18,
            Refusal::NoEmptyPlace => 19,
            Refusal::SightsApart => 20,
            Refusal::Other(n) => n,
        }
    }

    /// What it means, as a sentence for people: that of `brundelak_sentence` in C.
    pub fn sentence(self) -> &'static str {
        match self {
            Refusal::NotFinite => "an argument is NaN or infinite",
            Refusal::Day => "a day is more than 730500 days from 2451545.0",
            Refusal::Angle => "an angle is too large, or a latitude or declination exceeds a quarter turn",
            Refusal::Steep => "an angle that goes into a tangent or divides by its cosine exceeds 1.57",
            Refusal::Range => "a distance, a height or the argument of a root is outside its range",
            Refusal::Zero => "the sine of the new inclination, or the divisor N, is zero",
            Refusal::Arcsine => "the argument of an arcsine exceeds 1 in size",
            Refusal::List => "the list, a place in it or a lent slice has a bad length, or a radio list too many stars",
            Refusal::Record => "a star record is out of range",
            Refusal::NoStar => "no star has the number, or the place is empty",
            Refusal::FirstByte => "the first byte of a radio list is neither 2 nor 3",
            Refusal::Spelling => "a number of a radio list is not in its shortest length or above 32 bits",
            Refusal::End => "a radio list is cut short, an empty one too, or has bytes over",
            Refusal::NoDirection => "there is no direction: both arguments of an arctangent are zero",
            Refusal::NeverRises => "the star never rises: it stays below the standard altitude",
            Refusal::NeverSets => "the star never sets: it stays above the standard altitude",
            Refusal::MovingStar => "a star's rate is not zero, and a record of 12 bytes has no rates",
            Refusal::NumberPresent => "a star of the list has the number already",
            Refusal::NoEmptyPlace => "no place of the list is empty",
            Refusal::SightsApart => "the sights do not agree: with none of them do more than half",
            Refusal::Other(_) => "the call was refused",
        }
    }
}

impl fmt::Display for Refusal {
    fn fmt(&self, f: &mut fmt::Formatter<'_>) -> fmt::Result {
        write!(f, "refused by {}: {}", self.number(), self.sentence())
    }
}

impl Error for Refusal {}
